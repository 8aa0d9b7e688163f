"""Places in a text, and faults at them."""
from __future__ import annotations

import difflib
import re
from collections.abc import Iterable
from dataclasses import dataclass, field


@dataclass(frozen=True, slots=True)
class Span:
    """Some columns of a line: the line is counted from 1, columns from 0."""

    line: int
    start: int
    end: int

    def to(self, other: "Span") -> "Span":
        """From the beginning of this span to the end of another one on the same line."""
        return Span(self.line, self.start, max(self.end, other.end))


@dataclass(frozen=True, slots=True)
class Label:
    """Words at a place."""

    span: Span
    words: str


@dataclass(slots=True)
class Fault(Exception):
    """What is wrong: its kind as the program tells it, the place, what was expected and found, other places, and how to mend it."""

    kind: str
    span: Span
    words: str
    help: list[str] = field(default_factory=list)
    others: list[Label] = field(default_factory=list)
    steps: list[str] = field(default_factory=list)

    def with_help(self, *lines: str) -> "Fault":
        """The same with more lines of help; empty ones are left away."""
        self.help.extend(line for line in lines if line)
        return self

    def beside(self, span: Span | None, words: str) -> "Fault":
        """The same with one more place that matters, where there is one."""
        if span is not None:
            self.others.append(Label(span, words))
        return self


def near(word: str, words: Iterable[str]) -> str | None:
    """The one of some words that is spelled most alike, where one is near."""
    known = sorted(set(words))
    swapped = [other for other in known if sorted(other) == sorted(word) and other != word]
    close = swapped or difflib.get_close_matches(word, known, 1, 0.6)
    return close[0] if close else None


def did_you_mean(word: str, words: Iterable[str]) -> str:
    """A question about the nearest word, or nothing."""
    other = near(word, words)
    return "did you mean `%s`?" % other if other else ""


def listed(words: Iterable[str], most: int = 8) -> str:
    """Some words as a list in a sentence."""
    every = list(words)
    shown = ["`%s`" % word for word in every[:most]]
    if len(every) > most:
        return "%s and %d more" % (", ".join(shown), len(every) - most)
    return " and ".join([", ".join(shown[:-1]), shown[-1]] if len(shown) > 1 else shown)


def with_articles(words: str) -> str:
    """Words in which `an` comes before a vowel."""
    return re.sub(r"\b([Aa]) (?=`[aeio])", r"\1n ", words)


def counted(number: int, one: str, many: str = "") -> str:
    """A number with its noun."""
    words = {0: "no", 1: "one"}
    return "%s %s" % (words.get(number, number), one if number == 1 else many or one + "s")

