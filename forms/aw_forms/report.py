"""Shows faults at their places: for people at a terminal, and in one line each for editors."""
from __future__ import annotations

import os
import sys
import unicodedata
from dataclasses import dataclass

from .places import Fault, Span, with_articles

MARKERS = {"red": "31;1", "blue": "34;1", "bold": "1", "cyan": "36;1"}
WIDEST = 400


@dataclass(frozen=True, slots=True)
class Style:
    """Whether colours are written."""

    colours: bool = False

    def paint(self, colour: str, text: str) -> str:
        """The text in a colour."""
        return "\x1b[%sm%s\x1b[0m" % (MARKERS[colour], text) if self.colours and text else text


def style_for(choice: str) -> Style:
    """Colours always, never, or where the output is a terminal that has them."""
    if choice == "auto":
        return Style(sys.stdout.isatty() and "NO_COLOR" not in os.environ and os.environ.get("TERM", "") != "dumb")
    return Style(choice == "always")


def width(text: str) -> int:
    """How many columns of a terminal some characters take."""
    return sum(0 if unicodedata.combining(c) else 2 if unicodedata.east_asian_width(c) in "WF" else 1 for c in text)


def visible(line: str) -> str:
    """A line as it is shown: tabs as one blank, and bytes that a terminal would take for a command as a sign."""
    return "".join(" " if c == "\t" else "\N{REPLACEMENT CHARACTER}" if unicodedata.category(c) in ("Cc", "Cs", "Cf") else c for c in line.rstrip("\r"))


def line_words(path: str, span: Span, kind: str, fault: Fault) -> str:
    """`FILE:LINE:COLUMN: kind: words`, with the first help after it."""
    words = fault.words + ("; " + fault.help[0] if fault.help else "")
    return "%s:%d:%d: %s: %s\n" % (path, span.line, span.start + 1, kind, visible(with_articles(words)))


@dataclass(slots=True)
class Window:
    """A line of the text, or the part of a long one round its marks."""

    text: str
    cut: int
    columns: list[int]

    def column(self, at: int) -> int:
        """The column of a terminal at which a character is."""
        return self.columns[min(max(at - self.cut, 0), len(self.columns) - 1)]


def window(line: str, spans: list[Span]) -> Window:
    """What is shown of a line."""
    shown, cut = visible(line), 0
    if len(shown) > WIDEST:
        cut = max(0, min(span.start for span in spans) - 60)
        shown = ("…" if cut else "") + shown[cut + (1 if cut else 0):cut + WIDEST] + ("…" if cut + WIDEST < len(line) else "")
    columns = [0]
    for character in shown:
        columns.append(columns[-1] + width(character))
    return Window(shown, cut, columns)


def marks(shown: Window, labels: list[tuple[Span, str, str]], style: Style) -> list[str]:
    """The lines under a line: its marks, the last one with its words, and words of the others each on a line of its own."""
    ordered = sorted(labels, key=lambda label: label[0].start)
    row: list[tuple[int, str]] = []
    at = 0
    for span, sign, _ in ordered:
        begin, end = shown.column(span.start), shown.column(span.end)
        row.append((begin - at, sign * max(1, end - begin)))
        at = begin + max(1, end - begin)
    under = "".join(" " * max(0, gap) + style.paint("red" if sign[0] == "^" else "blue", sign) for gap, sign in row)
    lines = [under + (" " + ordered[-1][2] if ordered[-1][2] else "")]
    for span, sign, words in reversed(ordered[:-1]):
        if words:
            bar = style.paint("red" if sign == "^" else "blue", "|")
            lines.append(" " * shown.column(span.start) + bar + " " + words)
    return lines


def without_overlaps(labels: list[tuple[Span, str, str]]) -> list[list[tuple[Span, str, str]]]:
    """Labels of one line in groups that do not overlap."""
    groups: list[list[tuple[Span, str, str]]] = []
    for label in labels:
        for group in groups:
            if all(label[0].end <= other[0].start or other[0].end <= label[0].start for other in group):
                group.append(label)
                break
        else:
            groups.append([label])
    return groups


def picture(verdict: str, path: str, lines: list[str], fault: Fault, style: Style) -> str:
    """The fault as rustc and Elm show one: the program's line, the place, the lines that matter with their marks, and help."""
    number = fault.span.line
    labels: dict[int, list[tuple[Span, str, str]]] = {number: [(fault.span, "^", with_articles(fault.words))]}
    for other in fault.others:
        label = other.span, "-", with_articles(other.words)
        if label not in labels.setdefault(other.span.line, []):
            labels[other.span.line].append(label)
    pad = " " * len(str(max(labels)))
    bar = style.paint("blue", "|")
    out = [style.paint("bold", verdict), "%s%s %s:%d:%d" % (pad, style.paint("blue", "-->"), path, number, fault.span.start + 1), "%s %s" % (pad, bar)]
    before = 0
    for at in sorted(labels):
        if before and at > before + 1:
            out.append(style.paint("blue", "..."))
        before = at
        line = lines[at - 1] if at <= len(lines) else ""
        shown = window(line, [span for span, _, _ in labels[at]])
        out.append("%s %s %s" % (style.paint("blue", str(at).rjust(len(pad))), bar, shown.text))
        for group in without_overlaps(labels[at]):
            out += ["%s %s %s" % (pad, bar, row) for row in marks(shown, group, style)]
    out += ["%s %s %s" % (pad, style.paint("blue", "="), step) for step in fault.steps]
    out += ["%s %s %s: %s" % (pad, style.paint("blue", "="), style.paint("cyan", "help"), with_articles(text)) for text in fault.help]
    return "\n".join(visible_escapes(line) for line in out) + "\n"


def visible_escapes(line: str) -> str:
    """A line without characters that can't be written, its own colours kept."""
    return "".join("\N{REPLACEMENT CHARACTER}" if unicodedata.category(c) == "Cs" else c for c in line)

