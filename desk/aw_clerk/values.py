"""Values as `aw_book` writes them, and as the bytes of a choice."""
from __future__ import annotations

import re
import struct
from collections.abc import Iterator
from dataclasses import dataclass, field

from aw_offices.frames import DEEPEST, LONGEST_TEXT, MOST_SYMBOLS

TOKEN = re.compile(r'"((?:[^"\\]|\\.)*)"|\?([a-z][a-z0-9_]*#\d+[^ ,()<>{}]*)|([a-z][a-z0-9_]*)|(\d+)|([(){}<>,])|[ ]+')
PAIR = re.compile(r"\\(.)")
UNSHOWN = re.compile("[\x00-\x09\x0b-\x1f\x7f-\x9f\u202a-\u202e\u2066-\u2069\ud800-\udfff]")
MOST_SHOWN = 400
LARGEST = (1 << 64) - 1
TEXT, NUMBER, WORD, BLANK, MORE = "text", "number", "word", "blank", "more"


@dataclass(slots=True)
class Value:
    """A text, a number, a word with its parts, or a blank, whose word is the reference of what has not come; `more` stands for what is not shown."""

    kind: str
    word: str
    parts: list["Value"] = field(default_factory=list)

    def words(self) -> str:
        """As a schedule writes it."""
        found, todo = [], [(self, "")]
        while todo:
            value, behind = todo.pop()
            if value.kind == TEXT:
                found.append('"%s"' % value.word.replace("\\", "\\\\").replace('"', '\\"').replace("\n", "\\n") + behind)
            elif value.parts:
                found.append(value.word + "(")
                ends = [", "] * (len(value.parts) - 1) + [")" + behind]
                todo += reversed(list(zip(value.parts, ends)))
            else:
                found.append(("?" if value.kind == BLANK else "") + value.word + behind)
        return "".join(found)

    def blanks(self) -> Iterator[str]:
        """The references of what has not come, from left to right."""
        todo = [self]
        while todo:
            value = todo.pop()
            if value.kind == BLANK:
                yield value.word
            todo += reversed(value.parts)


def readable(text: str) -> str:
    """A text as it can be shown: bytes that are no UTF-8, and signs that drive a terminal or turn what stands behind them round, are written as `\\xHH` or `\\uHHHH`."""
    return UNSHOWN.sub(lambda sign: "\\u%04x" % ord(sign[0]) if 0xff < ord(sign[0]) < 0xd800 else "\\x%02x" % (ord(sign[0]) & 0xff), text)


def text_of(inside: str) -> str:
    """What stands between quotation marks."""
    return PAIR.sub(lambda pair: {"n": "\n"}.get(pair[1], pair[1]), inside)


def groups_of(text: str) -> list[list[Value]]:
    """The lists of a line behind the name of its task, each with its values. Of what is larger than a page shows, the rest is left out."""
    groups: list[list[Value]] = []
    open_lists: list[list[Value]] = []
    count, at = 0, 0
    while at < len(text):
        token = TOKEN.match(text, at)
        if token is None:
            raise ValueError("no value at byte %d of a line" % at)
        at = token.end()
        inside, ref, word, number, mark = token.groups()
        if mark in ("{", "<") or (mark == "(" and not open_lists):
            count = 0
            open_lists.append([])
            groups.append(open_lists[-1])
        elif mark == "(":
            shown = bool(open_lists[-1]) and open_lists[-1][-1].kind == WORD
            open_lists.append(open_lists[-1][-1].parts if shown else [])
        elif mark in (")", "}", ">"):
            open_lists.pop()
        elif mark is None and token[0].strip():
            count += 1
            if count <= MOST_SHOWN:
                open_lists[-1].append(value_of(inside, ref, word, number))
            elif count == MOST_SHOWN + 1:
                open_lists[-1].append(Value(MORE, "…"))
    return groups


def value_of(inside: str | None, ref: str | None, word: str | None, number: str | None) -> Value:
    """The value of a token."""
    if inside is not None:
        return Value(TEXT, text_of(inside))
    if ref is not None:
        return Value(BLANK, ref)
    return Value(WORD, word) if word is not None else Value(NUMBER, number or "")


class Unfit(Exception):
    """Why something that was entered can't be sent, as a sentence."""


def grounds(values: list[Value], words: list[str]) -> bytes:
    """The bytes of what is entered, with their count; `words` are the constructors in the order of their declarations."""
    found, symbols = [bytes([len(values)])], 0
    todo = [(value, 1) for value in reversed(values)]
    while todo:
        value, depth = todo.pop()
        symbols += 1
        if depth > DEEPEST or symbols > MOST_SYMBOLS:
            raise Unfit("What was entered is too large: at most %d words, numbers and texts, %d within one another." % (MOST_SYMBOLS, DEEPEST))
        if value.kind == TEXT:
            data = value.word.encode("utf-8", "surrogateescape")
            if len(data) > LONGEST_TEXT:
                raise Unfit("A text has %d bytes, and %d are the most; a letter like ø or 好 takes two to four." % (len(data), LONGEST_TEXT))
            found.append(b"\3" + struct.pack(">H", len(data)) + data)
        elif value.kind == NUMBER:
            found.append(b"\2" + struct.pack(">Q", int(value.word)))
        else:
            found.append(b"\1" + struct.pack(">HB", words.index(value.word), len(value.parts)))
            todo += [(part, depth + 1) for part in reversed(value.parts)]
    return b"".join(found)
