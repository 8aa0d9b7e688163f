"""Edits of the examples, and whether the companion reads each as the program does. Run in processes of its own, to be quick."""
from __future__ import annotations

import re
import sys
from pathlib import Path

TOP = Path(__file__).resolve().parent.parent.parent
sys.dont_write_bytecode = True
sys.path.insert(0, str(TOP / "forms"))

from aw_forms.answers import ANSWER, not_taken  # noqa: E402
from aw_forms.lexing import decoded  # noqa: E402
from aw_forms.lint import findings  # noqa: E402
from aw_forms.program import ask  # noqa: E402
from aw_forms.report import Style, line_words, picture  # noqa: E402
from aw_forms.verdict import check_lines, read, warnings  # noqa: E402

BASES = [path.read_bytes() for path in sorted((TOP / "examples").rglob("*.aw"))]
PIECES = re.compile(rb'"[^"\n]*"|[a-z0-9_#/.]+|\n|[ \t]+|.', re.DOTALL)
BYTES = b'abz019_#/.(){}<>,:=;%"\\- \t\r\n\x00\x7f\xc3\xa9A\''
WORDS = [b"role", b"con", b"sort", b"start", b"offer", b"use", b"type", b"shape", b"carry", b"depends", b"free", b"rule", b"schedule", b"schedule 2", b"choose",
         b"settle", b"deliver 0", b"list", b"num", b"text", b"0", b"1", b"2", b"9", b"18446744073709551616", b'"x"', b"x", b"()", b"<>", b"{}", b"ok", b"a#1/b.1"]
Edit = tuple[int, int, int]
SCALE = 2**32


def place(drawn: int, count: int) -> int:
    """A drawn number as a place among some."""
    return drawn * count // SCALE


def kind_of(piece: bytes) -> int:
    """Which pieces may take the place of which: names of names, numbers of numbers, marks of marks, texts of values."""
    return 0 if piece[:1].islower() else 1 if piece[:1].isdigit() or piece[:1] == b'"' else 2 if piece in b"(){}<>,:=;" else 3


def exchanged(text: bytes, first: int, second: int) -> bytes:
    """A token, but for the first of a line, is replaced by another one of its kind in the same text."""
    parts = PIECES.findall(text)
    places = [at for at, part in enumerate(parts) if kind_of(part) < 3 and at and parts[at - 1] != b"\n"]
    if not places:
        return text
    at = places[place(first, len(places))]
    others = [parts[other] for other in places if kind_of(parts[other]) == kind_of(parts[at])] + ([b"0", b"2", b"9"] if kind_of(parts[at]) == 1 else [])
    parts[at] = others[place(second, len(others))]
    return b"".join(parts)


def edited(text: bytes, edit: Edit) -> bytes:
    """One edit of a text: a byte, a token or a line is dropped, doubled, swapped, moved or replaced, or a token by another of its kind."""
    what, first, second = edit
    if what >= 15:
        return exchanged(text, first, second)
    unit = what % 3
    parts = [text[i:i + 1] for i in range(len(text))] if unit == 0 else PIECES.findall(text) if unit == 1 else text.split(b"\n")
    if not parts:
        return text
    i, j = place(first, len(parts)), place(second, len(parts))
    action = what // 3 % 5
    if action == 0:
        del parts[i]
    elif action == 1:
        parts.insert(i, parts[i])
    elif action == 2:
        parts[i], parts[j] = parts[j], parts[i]
    elif action == 3:
        parts.insert(j, parts.pop(i))
    else:
        others = [BYTES[k:k + 1] for k in range(len(BYTES))] if unit == 0 else WORDS
        parts[i] = others[place(second, len(others))]
    return (b"\n" if unit == 2 else b"").join(parts)


def disagreement(drawn: tuple[int, list[Edit]]) -> str:
    """How the companion reads an edited example otherwise than the program, or nothing."""
    base, edits = drawn
    text = BASES[base % len(BASES)]
    for edit in edits:
        text = edited(text, edit)
    return difference(text)


def difference(text: bytes) -> str:
    """How the companion reads a text otherwise than the program, or nothing. Shows what it finds, too, so that no words fail."""
    reading = read(decoded(text))
    every = read(decoded(text), True)
    if every.faults[:1] and every.faults[0][0] != (reading.faults or [("", None)])[0][0]:
        return "%r: going on changes the first fault" % text
    found = [("lint", fault) for fault in findings(reading.spec)] if not reading.faults else []
    for verdict, fault in every.faults + found + (warnings(reading) if not reading.faults else []):
        shown = picture(verdict, "x", reading.lines, fault, Style()) + line_words("x", fault.span, verdict, fault)
        columns = len(reading.lines[fault.span.line - 1])
        if not (0 <= fault.span.start <= columns and fault.span.start < fault.span.end <= columns + 1) or not shown:
            return "%r: the place %r is not on its line" % (text, fault.span)
    written = ask(["check"], text).output
    own = "".join(line + "\n" for line in check_lines(reading))
    if own != written:
        return "%r: check writes %r, the companion reads %r" % (text, written, own)
    if reading.schedule is None or not written.startswith("accepted"):
        return ""
    played = ask(["plain"], text)
    fault_line = played.line if played.status == 5 else ""
    own = reading.faults[0][0] if reading.faults else ""
    if not reading.faults:
        left = [line for line in played.output.split("\n") if ANSWER.fullmatch(line) and not line.endswith(": taken")]
        if [line for line, _ in not_taken(reading, played.output)] != left:
            return "%r: choices that are not taken are %r" % (text, left)
    return "" if own == fault_line else "%r: plain writes %r, the companion reads %r" % (text, fault_line, own)


def disagreements(drawn: list[tuple[int, list[Edit]]]) -> list[str]:
    """All that are not read alike."""
    return [words for words in map(disagreement, drawn) if words]
