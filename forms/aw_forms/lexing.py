"""The tokens of a line, with their places."""
from __future__ import annotations

import re
from dataclasses import dataclass
from enum import Enum

from .places import Fault, Span

NAME = re.compile(r"[a-z][a-z0-9_]{0,63}")
NUMBER = re.compile(r"0|[1-9][0-9]*")
STEP = re.compile(r"([a-z][a-z0-9_]{0,63})\.([1-8])")
WORD = re.compile(r"[a-z0-9_#/.]+")
TEXT = re.compile(r'"(?:[^"\\\x00-\x1f\x7f]|\\["\\n])*"')
BLANKS = " \t\r"
MARKS = "(){}<>,:=;"
LARGEST = 2**64 - 1
LONGEST_NAME = 64
LONGEST_TEXT = 1024
PAIRS = {'\\"': '"', "\\\\": "\\", "\\n": "\n"}
FIRST_WORDS = ("role", "con", "sort", "start", "offer", "use", "type", "shape", "carry", "depends", "free", "rule", "schedule", "choose", "deliver", "settle", "list")
WORD_PROCESSOR_QUOTES = "“”„‟‘’‚«»"


class Kind(Enum):
    """What a token is."""

    NAME = "name"
    NUMBER = "number"
    NODE = "name of a task"
    TEXT = "text"
    MARK = "mark"


@dataclass(frozen=True, slots=True)
class Token:
    """A token of a line."""

    kind: Kind
    text: str
    span: Span

    def is_mark(self, mark: str) -> bool:
        """Whether it is this mark."""
        return self.kind is Kind.MARK and self.text == mark

    @property
    def number(self) -> int:
        """The number that it spells."""
        return int(self.text)


def lines_of(text: str) -> list[str]:
    """The lines of a text. What follows the last line feed is a line only where it has at least one byte."""
    lines = text.split("\n")
    return lines[:-1] if lines[-1] == "" else lines


def decoded(data: bytes) -> str:
    """Bytes as characters. Bytes that are no UTF-8 are kept, each as one character."""
    return data.decode("utf-8", "surrogateescape")


def encoded(text: str) -> bytes:
    """The bytes that were decoded."""
    return text.encode("utf-8", "surrogateescape")


def is_passed_over(line: str) -> bool:
    """A line of blanks alone, or a comment."""
    bare = line.lstrip(BLANKS)
    return bare == "" or bare.startswith("%")


def is_number(word: str) -> bool:
    """Digits without a leading zero, and not past the largest number."""
    return NUMBER.fullmatch(word) is not None and len(word) <= 20 and int(word) <= LARGEST


def node_parts(word: str) -> tuple[str, int, list[tuple[str, int]]] | None:
    """The start sort, the case and the steps of a task's name, where the word is one."""
    root, *steps = word.split("/")
    sort, mark, case = root.partition("#")
    if not mark or not NAME.fullmatch(sort) or not is_number(case):
        return None
    found = [STEP.fullmatch(step) for step in steps]
    if not all(found):
        return None
    return sort, int(case), [(step[1], int(step[2])) for step in found if step]


def kind_of_word(word: str) -> Kind | None:
    """The kind of a word, where it is a token as a whole."""
    if NAME.fullmatch(word):
        return Kind.NAME
    if is_number(word):
        return Kind.NUMBER
    return Kind.NODE if node_parts(word) else None


def content_of(text: str) -> str:
    """The content of a text between its quotation marks, its pairs read."""
    return re.sub(r"\\.", lambda pair: PAIRS[pair[0]], text[1:-1])


def tokens_of(line: str, number: int) -> list[Token]:
    """The tokens of a line; raises a fault at the first place where there is none."""
    found: list[Token] = []
    at = 0
    while at < len(line):
        if line[at] in BLANKS:
            at += 1
            continue
        token = token_at(line, number, at)
        found.append(token)
        at = token.span.end
    return found


def token_at(line: str, number: int, at: int) -> Token:
    """The token that begins at a place which is no blank."""
    first = line[at]
    if first in MARKS:
        return Token(Kind.MARK, first, Span(number, at, at + 1))
    if first == '"':
        text = TEXT.match(line, at)
        if text is None or len(encoded(content_of(text[0]))) > LONGEST_TEXT:
            raise text_fault(line, number, at, text)
        return Token(Kind.TEXT, text[0], Span(number, at, text.end()))
    word = WORD.match(line, at)
    if word is None:
        raise character_fault(line, number, at)
    kind = kind_of_word(word[0])
    if kind is None:
        raise word_fault(word[0], Span(number, at, word.end()))
    return Token(kind, word[0], Span(number, at, word.end()))


def text_fault(line: str, number: int, at: int, text: re.Match[str] | None) -> Fault:
    """Why there is no text at a quotation mark."""
    if text is not None:
        length = len(encoded(content_of(text[0])))
        return Fault("token", Span(number, at, text.end()), "this text has %d bytes, and %d are the most" % (length, LONGEST_TEXT),
                     ["split it into two values, or say it in fewer words"])
    good = re.match(r'"(?:[^"\\\x00-\x1f\x7f]|\\["\\n])*', line[at:])
    end = at + len(good[0]) if good else at + 1
    if end >= len(line.rstrip("\r")):
        return Fault("token", Span(number, at, at + 1), "this text is not closed", ['put `"` after its last letter; a text ends on the line on which it begins'])
    if line[end] == "\\":
        pair = line[end:end + 2]
        return Fault("token", Span(number, end, end + len(pair)), "a backslash is followed by `\"`, `\\` or `n`, and by nothing else",
                     ["write `\\\\` where the backslash itself is meant"])
    name = "a tab" if line[end] == "\t" else "the byte 0x%02X" % (ord(line[end]) & 0xFF)
    return Fault("token", Span(number, end, end + 1), "%s may not be in a text" % name, ["write a space in its place" if name == "a tab" else "take it out"])


def character_fault(line: str, number: int, at: int) -> Fault:
    """Why no token begins with a character."""
    first = line[at]
    here = Span(number, at, at + 1)
    if first == "-" and line[at:at + 2] == "--" and not line[:at].strip(BLANKS):
        return Fault("token", Span(number, at, at + 2), "this begins no comment", ["a comment begins with `%`"])
    if first == "%":
        return Fault("token", Span(number, at, len(line)), "a comment follows other words", ["a comment is a line of its own: put it above this line"])
    if first in WORD_PROCESSOR_QUOTES:
        return Fault("token", here, "this is the quotation mark of a word processor", ['texts are between plain quotation marks: "like this"'])
    if first == "'":
        return Fault("token", here, "texts are not between single quotation marks", ['write `"` in place of each `\'`'])
    if first.isupper() and first.isascii():
        word = re.match(r"[A-Za-z0-9_]+", line[at:])
        name = word[0] if word else first
        if name.lower() in FIRST_WORDS and not line[:at].strip(BLANKS):
            return Fault("token", Span(number, at, at + len(name)), "the words at the beginning of a line have small letters", ["write `%s`" % name.lower()])
        return Fault("token", Span(number, at, at + len(name)), "names have small letters only",
                     ['write `%s`, or `"%s"` where a text is meant' % (name.lower(), name)])
    if first == "-":
        return minus_fault(line, number, at)
    if first.isascii() and first.isprintable():
        return Fault("token", here, "`%s` is in no token" % first, ["outside of texts there are small letters, digits, `_` and the marks ( ) < > { } , : = ;"])
    if first.isprintable():
        return Fault("token", here, "`%s` is in no name" % first, ["names have the letters a to z; in a text each letter is allowed"])
    return Fault("token", here, "the byte 0x%02X is in no token" % (ord(first) & 0xFF), ["take it out"])


def minus_fault(line: str, number: int, at: int) -> Fault:
    """Why there is no minus at a place."""
    left = re.search(r"[a-z0-9_]*$", line[:at])
    right = re.match(r"-([a-z0-9_]*)", line[at:])
    before, behind = left[0] if left else "", right[1] if right else ""
    span = Span(number, at - len(before), at + 1 + len(behind))
    if before and before[0].isdigit() and behind[:1].isdigit():
        date = re.match(r"[0-9-]+", line[span.start:])
        whole = date[0] if date else before
        return Fault("token", Span(number, span.start, span.start + len(whole)), "a number has digits alone", ['write a date as a text: `"%s"`' % whole])
    if before and behind:
        return Fault("token", span, "a name has small letters, digits and `_`", ["write `%s_%s`" % (before, behind)])
    if behind[:1].isdigit():
        return Fault("token", Span(number, at, at + 1 + len(behind)), "there are no negative numbers", ["give what is below zero a constructor of its own, as `con owed 1`"])
    return Fault("token", Span(number, at, at + 1), "`-` is in no token", ["write `_` in a name"])


def word_fault(word: str, span: Span) -> Fault:
    """Why a word is no token."""
    if re.fullmatch(r"0\d+", word):
        return Fault("token", span, "a number has no leading zero", ['write `%s`, or `"%s"` where the zeros matter' % (word.lstrip("0") or "0", word)])
    if re.fullmatch(r"\d+\.\d+", word):
        return Fault("token", span, "there are no fractions", ['write whole numbers of a smaller unit, as cents, or a text: `"%s"`' % word])
    if re.fullmatch(r"\d+", word):
        return Fault("token", span, "the largest number is 18,446,744,073,709,551,615", ['write it as a text: `"%s"`' % word])
    if word[0] == "#" or not word.strip("/"):
        return Fault("token", span, "`%s` begins no comment" % word[0], ["a comment begins with `%`, and is a line of its own"])
    if "#" in word:
        return task_fault(word, span)
    if re.fullmatch(r"[a-z][a-z0-9_]*", word):
        return Fault("token", span, "this name has %d letters, and %d are the most" % (len(word), LONGEST_NAME), ["shorten it"])
    if word[0].isdigit():
        other = re.sub(r"[^a-z0-9_]", "_", word)
        return Fault("token", span, "`%s` is neither a number nor a name" % word, ["a name begins with a letter, as `n%s`; a text is between quotation marks" % other])
    if word[0] == "_":
        return Fault("token", span, "a name begins with a letter", ["write `%s`; where nothing is to be done with a value any name will do" % (word.lstrip("_") or "x")])
    return Fault("token", span, "`%s` is no name, no number and no name of a task" % word,
                 ["a name has small letters, digits and `_`, as `%s`" % re.sub(r"[^a-z0-9_]", "_", word)])


def task_fault(word: str, span: Span) -> Fault:
    """Why a word with `#` names no task."""
    at = span.start
    root, *steps = word.split("/")
    sort, _, case = root.partition("#")
    if not NAME.fullmatch(sort):
        return Fault("token", Span(span.line, at, at + max(1, len(sort))), "the name of a task begins with the name of a start sort", ["as `claim#1`"])
    if not is_number(case):
        return Fault("token", Span(span.line, at + len(sort) + 1, at + max(len(root), len(sort) + 2)), "after `#` comes the number of the case, without a leading zero", ["as `%s#1`" % sort])
    at += len(root)
    for step in steps:
        rule, dot, child = step.partition(".")
        where = Span(span.line, at + 1, at + 1 + max(1, len(step)))
        if dot and NAME.fullmatch(rule) and child in ("0", "9"):
            return Fault("token", where, "the subtasks of a rule are counted from 1 to 8", ["look at the rule `%s` for the position of the subtask" % rule])
        if not STEP.fullmatch(step):
            return Fault("token", where, "each step of a task's name is a rule, a point and the position of a subtask", ["as `%s.1`" % (rule if NAME.fullmatch(rule) else "rule")])
        at += 1 + len(step)
    return Fault("token", span, "this is no name of a task", ["as `claim#1/open_claim.2`"])
