"""Pictures by graphviz: a graph as text, and its drawing as SVG with the colours of a theme."""
from __future__ import annotations

import re
import shutil
import subprocess
from dataclasses import dataclass, field

from .program import Sorry
from .theme import attribute, style, text_in

MARKED = {"soft": "#010101", "blank": "#020202", "open_name": "#030303"}
SECONDS = 100


def marked(words: str, sign: str = "") -> str:
    """Words in a label; the sign says how they look."""
    shown = text_in(words) or " "
    return '<FONT COLOR="%s">%s</FONT>' % (MARKED[sign], shown) if sign else shown


def strong(words: str) -> str:
    """Words in bold."""
    return "<B>%s</B>" % text_in(words)


def rows(cells: list[str]) -> str:
    """A label of some rows, all at the left."""
    return '<TABLE BORDER="0" CELLBORDER="0" CELLSPACING="0" CELLPADDING="1">%s</TABLE>' % "".join('<TR><TD ALIGN="LEFT">%s</TD></TR>' % cell for cell in cells)


def quoted(words: str) -> str:
    """Words as a text of graphviz."""
    return '"%s"' % text_in(words).replace("\\", "\\\\").replace('"', "&quot;").replace("\n", " ")


@dataclass(slots=True)
class Graph:
    """A graph that is to be drawn."""

    direction: str
    title: str
    body: list[str] = field(default_factory=list)

    def node(self, name: str, label: str, kinds: str, tip: str = "", shape: str = "box") -> None:
        """A node with a label of rows."""
        self.body.append("%s [label=<%s> class=%s tooltip=%s shape=%s style=%s]" % (
            quoted(name), label, quoted(kinds), quoted(tip or " "), shape, quoted("rounded" if shape == "box" else "solid")))

    def edge(self, begin: str, end: str, kinds: str = "", label: str = "", tip: str = "", dashed: bool = False) -> None:
        """An edge with a label."""
        self.body.append("%s -> %s [class=%s label=<%s> tooltip=%s edgetooltip=%s style=%s]" % (
            quoted(begin), quoted(end), quoted(kinds), text_lines(label), quoted(tip or label or " "), quoted(tip or label or " "), "dashed" if dashed else "solid"))

    def cluster(self, name: str, label: str, nodes: list[str]) -> None:
        """A frame round some nodes."""
        self.body.append("subgraph %s { label=<%s> style=rounded margin=10 %s }" % (quoted("cluster_" + name), label, " ".join(map(quoted, nodes))))

    def aligned(self, names: list[str]) -> None:
        """Some nodes one below or beside the other, in this order."""
        if len(names) > 1:
            self.body.append("beginning [style=invis shape=point width=0.01 label=\"\"]")
            self.body += ["beginning -> %s [style=invis]" % quoted(name) for name in names]

    def legend(self, words: str) -> None:
        """What the arrows mean, under the picture."""
        self.body.append("label=<%s> labelloc=b" % marked(words, "soft"))

    def text(self) -> str:
        """The graph as graphviz reads it."""
        return "\n".join(["digraph {", "rankdir=%s nodesep=0.25 ranksep=0.5 fontname=\"DejaVu Sans\" fontsize=11 tooltip=\" \"" % self.direction,
                          'node [fontname="DejaVu Sans" fontsize=11 margin="0.1,0.06"]', 'edge [fontname="DejaVu Sans" fontsize=10 arrowsize=0.7]', *self.body, "}"])

    def drawn(self, theme: str) -> str:
        """The picture as SVG."""
        program = shutil.which("dot")
        if program is None:
            raise Sorry("Pictures are drawn by graphviz, which is not installed: apt-get install graphviz fonts-dejavu-core.", 69)
        try:
            done = subprocess.run([program, "-Tsvg"], input=self.text().encode("utf-8", "replace"), capture_output=True, timeout=SECONDS, check=False)
        except subprocess.TimeoutExpired:
            raise Sorry("Graphviz did not draw this within %d seconds; try a smaller number after --most." % SECONDS, 70) from None
        if done.returncode != 0:
            raise Sorry("Graphviz could not draw this: %s." % done.stderr.decode("utf-8", "replace").strip().split("\n")[0], 70)
        return themed(done.stdout.decode("utf-8", "replace"), theme, self.title)


def text_lines(label: str) -> str:
    """The lines of a label of an edge."""
    return "<BR/>".join("\N{NO-BREAK SPACE}%s\N{NO-BREAK SPACE}" % text_in(line) for line in label.split("\n")) if label else " "


def themed(svg: str, theme: str, title: str) -> str:
    """A drawing of graphviz with the colours of a theme in place of its own."""
    for sign, colour in MARKED.items():
        svg = svg.replace('fill="%s"' % colour, 'class="%s"' % sign)
    svg = re.sub(r"<title>(?!\s*</title>)[^<]*</title>", "", svg)
    svg = re.sub(r"<!--.*?-->\n?", "", svg, flags=re.DOTALL)
    opening = re.search(r"<svg[^>]*>", svg)
    if opening is None:
        raise Sorry("Graphviz drew no picture.", 70)
    head = opening[0].replace("<svg", '<svg role="img" aria-label=%s' % attribute(title), 1)
    return '<?xml version="1.0" encoding="UTF-8"?>\n' + head + "\n<title>%s</title>\n%s" % (text_in(title), style(theme)) + svg[opening.end():]
