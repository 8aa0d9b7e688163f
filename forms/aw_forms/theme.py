"""Colours of pictures, for light and for dark screens, and text in pictures."""
from __future__ import annotations

import re
from xml.sax.saxutils import escape, quoteattr

FONT = "DejaVu Sans, Verdana, Liberation Sans, sans-serif"
CONTROLS = re.compile("[\x00-\x08\x0b-\x1f\x7f-\x9f\ud800-\udfff￾￿]")
LIGHT = {
    "paper": "#ffffff", "ink": "#1f2328", "soft": "#59636e", "line": "#6e7781", "box": "#f6f8fa", "edge": "#d0d7de",
    "done": "#dafbe1", "done_line": "#1a7f37", "open": "#fff8c5", "open_line": "#9a6700", "blank": "#bc4c00",
    "call": "#0550ae", "ask": "#6e7781", "tell": "#1a7f37", "late": "#bc4c00", "bad": "#cf222e", "bad_box": "#ffebe9", "fold": "#eaeef2",
}
DARK = {
    "paper": "#0d1117", "ink": "#e6edf3", "soft": "#9198a1", "line": "#8b949e", "box": "#161b22", "edge": "#30363d",
    "done": "#12261e", "done_line": "#3fb950", "open": "#2b2111", "open_line": "#d29922", "blank": "#f0883e",
    "call": "#79c0ff", "ask": "#8b949e", "tell": "#56d364", "late": "#f0883e", "bad": "#ff7b72", "bad_box": "#3c1618", "fold": "#21262d",
}
RULES = """
text {{ fill: {ink}; stroke: none; font-family: %s; }}
.soft, text.soft {{ fill: {soft}; }}
text.blank {{ fill: {blank}; font-weight: bold; }}
text.open_name {{ fill: {open_line}; font-weight: bold; }}
.paper, .graph > polygon, #a_graph0 polygon {{ fill: {paper}; stroke: none; }}
.node polygon, .node path, .node ellipse, .node polyline {{ fill: {box}; stroke: {line}; }}
.done polygon, .done path {{ fill: {done}; stroke: {done_line}; }}
.open polygon, .open path {{ fill: {open}; stroke: {open_line}; stroke-width: 2; }}
.fold polygon, .fold path {{ fill: {fold}; stroke: {edge}; stroke-dasharray: 4 3; }}
.bad polygon, .bad path {{ fill: {bad_box}; stroke: {bad}; stroke-width: 2; }}
.field ellipse {{ fill: {paper}; stroke: {soft}; }}
.cluster polygon, .cluster path {{ fill: none; stroke: {edge}; }}
.edge path {{ stroke: {line}; fill: none; }}
.edge polygon {{ stroke: {line}; fill: {line}; }}
.call path, .call line {{ stroke: {call}; }} .call polygon, .call > text {{ stroke: {call}; fill: {call}; }} .call > text {{ stroke: none; }}
.ask path, .ask line {{ stroke: {ask}; }} .ask polygon, .ask > text {{ stroke: {ask}; fill: {ask}; }} .ask > text {{ stroke: none; }}
.tell path, .tell line {{ stroke: {tell}; }} .tell polygon, .tell > text {{ stroke: {tell}; fill: {tell}; }} .tell > text {{ stroke: none; }}
.late path, .late line {{ stroke: {late}; }} .late polygon, .late > text {{ stroke: {late}; fill: {late}; }} .late > text {{ stroke: none; }}
.round path, .round line {{ stroke: {bad}; stroke-width: 2; }} .round polygon, .round > text {{ stroke: {bad}; fill: {bad}; }} .round > text {{ stroke: none; }}
.life {{ stroke: {edge}; stroke-width: 2; }}
.number {{ paint-order: stroke; stroke: {paper} !important; stroke-width: 3; }}
.head {{ fill: {box}; stroke: {line}; }}
.band {{ fill: {fold}; stroke: none; }}
.event {{ fill: {ink}; stroke: none; }}
.lost {{ stroke: {bad}; stroke-width: 2; fill: none; }}
""" % FONT


def style(theme: str) -> str:
    """The style sheet of a picture: for light screens, for dark ones, or as the screen of the reader is."""
    light, dark = RULES.format(**LIGHT), RULES.format(**DARK)
    if theme == "auto":
        return "<style>%s@media (prefers-color-scheme: dark) {%s}\n</style>" % (light, dark)
    return "<style>%s</style>" % (dark if theme == "dark" else light)


def text_in(words: str) -> str:
    """Words as text of a picture; what no picture may hold is shown as a sign."""
    return escape(CONTROLS.sub("\N{REPLACEMENT CHARACTER}", words))


def attribute(words: str) -> str:
    """Words as the value of an attribute, with its quotation marks."""
    return quoteattr(CONTROLS.sub("\N{REPLACEMENT CHARACTER}", words))


def shortened(words: str, most: int) -> str:
    """The beginning of long words."""
    return words if len(words) <= most else words[:most - 1] + "…"
