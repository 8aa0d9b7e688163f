"""Cases that are spread over several systems by their number: which lie here, and where the others lie."""
from __future__ import annotations

from dataclasses import dataclass

from aw_forms.command import read_file
from aw_forms.program import Sorry

HERE, FAULTY = "here", 65
LARGEST = (1 << 64) - 1
LINE = "a line is FIRST LAST WHERE, as `1 999999 here` or `1000000 1999999 https://desk.example`"


@dataclass(frozen=True, slots=True, order=True)
class Span:
    """Numbers in a row, and where their cases lie."""

    first: int
    last: int
    where: str


@dataclass(frozen=True, slots=True)
class Spread:
    """Which numbers lie where. Without a file all of them lie here."""

    spans: tuple[Span, ...] = (Span(0, LARGEST, HERE),)

    def where(self, number: int) -> str:
        """Where the case of a number lies: `here`, the place of another system, or nothing where it lies in none."""
        return next((span.where for span in self.spans if span.first <= number <= span.last), "")

    def is_here(self, number: int) -> bool:
        """Whether the case of a number lies here."""
        return self.where(number) == HERE

    def next_here(self, number: int) -> int | None:
        """The first number from this one on whose case lies here."""
        return next((max(number, span.first) for span in self.spans if span.where == HERE and number <= span.last), None)

    def elsewhere(self, number: int) -> str:
        """Why the case of a number is not begun here, in a sentence; nothing where it may be."""
        where = self.where(number)
        if where == HERE:
            return ""
        return "Cases with the number %d lie at %s." % (number, where) if where else "Cases with the number %d lie in none of the systems." % number


def span(line: str, number: int, name: str) -> Span:
    """The numbers of a line."""
    words = line.split()
    if len(words) != 3 or not all(word.isascii() and word.isdigit() and len(word) <= 20 for word in words[:2]):
        raise Sorry("Line %d of %s can't be read: %s." % (number, name, LINE), FAULTY)
    found = Span(int(words[0]), int(words[1]), words[2].rstrip("/"))
    if not found.first <= found.last <= LARGEST:
        raise Sorry("Line %d of %s has no numbers: the first is to be at most the last, and that at most %d." % (number, name, LARGEST), FAULTY)
    return found


def spread(name: str | None) -> Spread:
    """What a file says; without one every case lies here."""
    if name is None:
        return Spread()
    lines = read_file(name).decode("utf-8", "replace").splitlines()
    found = sorted(span(line, number, name) for number, line in enumerate(lines, 1) if line.strip() and not line.lstrip().startswith("%"))
    for before, behind in zip(found, found[1:]):
        if behind.first <= before.last:
            raise Sorry("%s says of the number %d twice where its case lies." % (name, behind.first), FAULTY)
    if not any(some.where == HERE for some in found):
        raise Sorry("%s says of no number that its case lies `here`." % name, FAULTY)
    return Spread(tuple(found))
