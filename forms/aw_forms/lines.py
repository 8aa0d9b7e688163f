"""The forms of lines, of specifications and of schedules, with the place of each word."""
from __future__ import annotations

from dataclasses import dataclass, field

from .lexing import Token
from .places import Span


@dataclass(slots=True)
class Term:
    """A number, a text, a bare name, or a name with parts in parentheses (`parts` is then a list, maybe an empty one)."""

    head: Token
    parts: list["Term"] | None = None
    end: int = 0

    @property
    def name(self) -> str:
        """The word at its front."""
        return self.head.text

    @property
    def span(self) -> Span:
        """The whole term."""
        return Span(self.head.span.line, self.head.span.start, max(self.end, self.head.span.end))


def walk(terms: list[Term]) -> list[tuple[Term, int]]:
    """Each term within some terms with its depth, which is 1 outside, from left to right."""
    found = []
    stack = [(term, 1) for term in reversed(terms)]
    while stack:
        term, depth = stack.pop()
        found.append((term, depth))
        stack.extend((part, depth + 1) for part in reversed(term.parts or []))
    return found


@dataclass(slots=True)
class Line:
    """A line: its first word, and all its tokens."""

    tokens: list[Token]

    @property
    def word(self) -> Token:
        """The word with which it begins."""
        return self.tokens[0]

    @property
    def number(self) -> int:
        """Which line of the text it is, counted from 1."""
        return self.word.span.line

    @property
    def span(self) -> Span:
        """From its first word to its last."""
        return self.word.span.to(self.tokens[-1].span)


@dataclass(slots=True)
class RoleLine(Line):
    """`role NAME`"""

    name: Token


@dataclass(slots=True)
class ConLine(Line):
    """`con NAME NUMBER`"""

    name: Token
    parts: Token


@dataclass(slots=True)
class SortLine(Line):
    """`sort NAME ROLE TAKES GIVES`"""

    name: Token
    role: Token
    takes: Token
    gives: Token


@dataclass(slots=True)
class StartLine(Line):
    """`start SORT`"""

    sort: Token


@dataclass(slots=True)
class OfferLine(Line):
    """`offer SORT`"""

    sort: Token


@dataclass(slots=True)
class UseLine(Line):
    """`use ROLE SORT`"""

    role: Token
    sort: Token


@dataclass(slots=True)
class TypeLine(Line):
    """`type NAME`"""

    name: Token


@dataclass(slots=True)
class ShapeLine(Line):
    """`shape CON (TYPES) TYPE`"""

    con: Token
    parts: list[Token]
    own: Token


@dataclass(slots=True)
class CarryLine(Line):
    """`carry SORT (TYPES)<TYPES>`"""

    sort: Token
    takes: list[Token]
    gives: list[Token]


@dataclass(slots=True)
class DependsLine(Line):
    """`depends SORT I J`"""

    sort: Token
    value: Token
    result: Token


@dataclass(slots=True)
class FreeLine(Line):
    """`free`"""


@dataclass(slots=True)
class Child:
    """`SORT(TERMS)<NAMES>`"""

    sort: Token
    args: list[Term]
    names: list[Token]


@dataclass(slots=True)
class RuleLine(Line):
    """`rule NAME PARAMS : SORT(TERMS)<TERMS> = CHILDREN`"""

    name: Token
    params: list[Token]
    sort: Token
    patterns: list[Term]
    results: list[Term]
    children: list[Child] = field(default_factory=list)

    def uses(self) -> list[Term]:
        """The terms in which variables are only used: arguments of children, then results."""
        return [term for child in self.children for term in child.args] + self.results

    def terms(self) -> list[Term]:
        """All its terms."""
        return self.patterns + self.uses()


@dataclass(slots=True)
class ScheduleLine(Line):
    """`schedule` or `schedule 2`"""

    loads: bool


@dataclass(slots=True)
class StartEvent(Line):
    """`start SORT NUMBER`"""

    sort: Token
    case: Token


@dataclass(slots=True)
class ChooseEvent(Line):
    """`choose TASK RULE {TERMS}`"""

    node: Token
    rule: Token
    args: list[Term]


@dataclass(slots=True)
class DeliverEvent(Line):
    """`deliver NUMBER`"""

    message: Token


@dataclass(slots=True)
class SettleEvent(Line):
    """`settle`"""


@dataclass(slots=True)
class ListEvent(Line):
    """`list ROLE`"""

    role: Token
