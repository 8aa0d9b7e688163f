"""Which values no rule of a sort fits: usefulness of patterns (L. Maranget, "Warnings for pattern matching", 2007) over the shapes of a specification."""
from __future__ import annotations

from collections.abc import Iterator
from dataclasses import dataclass, field
from itertools import islice

from .lines import Term
from .specification import Specification, is_variable
from .value_types import takes_of

MOST_STEPS = 100_000


class Undecided(Exception):
    """There are too many combinations to look at."""


@dataclass(frozen=True, slots=True)
class Value:
    """A value that may have parts; the head `_` stands for every value of a type, and a literal with `besides` for all but these."""

    head: str
    kind: str
    parts: tuple["Value", ...] = ()
    besides: tuple[str, ...] = ()

    def __str__(self) -> str:
        """As it is written in a specification, with `_` for any value."""
        return "%s(%s)" % (self.head, ", ".join(map(str, self.parts))) if self.parts else self.head


@dataclass(slots=True)
class Values:
    """The values of the types of a specification."""

    spec: Specification
    makers: dict[str, list[tuple[str, list[str]]]] = field(default_factory=dict)
    smallest: dict[str, Value] = field(default_factory=dict)
    steps: int = 0

    def __post_init__(self) -> None:
        """Finds the constructors of each type, and a smallest value of each type that has one."""
        for name, shape in self.spec.shapes.items():
            self.makers.setdefault(shape.own.text, []).append((name, [token.text for token in shape.parts]))
        self.smallest = {"num": Value("0", "num"), "text": Value('""', "text")}
        found = True
        while found:
            found = False
            for kind, makers in self.makers.items():
                good = [(name, parts) for name, parts in makers if all(part in self.smallest for part in parts)]
                if kind not in self.smallest and good:
                    name, parts = min(good, key=lambda maker: len(maker[1]))
                    self.smallest[kind] = Value(name, kind, tuple(self.smallest[part] for part in parts))
                    found = True

    def example(self, value: Value) -> Value:
        """A value with a smallest one at each place where any may be."""
        if value.head == "_":
            return self.smallest[value.kind]
        return Value(value.head, value.kind, tuple(self.example(part) for part in value.parts))

    def constructors(self, kind: str) -> list[tuple[str, list[str]]]:
        """The constructors by which values of a type can be made."""
        return [(name, parts) for name, parts in self.makers.get(kind, []) if all(part in self.smallest for part in parts)]

    def unmatched(self, kinds: list[str], rows: list[list[Term | None]]) -> Iterator[list[Value]]:
        """Lists of values of some types that no row of patterns fits; None in a row is a pattern that fits each value."""
        self.steps += 1 + len(rows) // 16
        if self.steps > MOST_STEPS:
            raise Undecided
        if not kinds:
            if not rows:
                yield []
            return
        if kinds[0] not in self.smallest:
            return
        if all(row[0] is None for row in rows):
            for rest in self.unmatched(kinds[1:], [row[1:] for row in rows]):
                yield [Value("_", kinds[0]), *rest]
        elif kinds[0] in ("num", "text"):
            yield from self.literals(kinds, rows)
        else:
            yield from self.made(kinds, rows)

    def literals(self, kinds: list[str], rows: list[list[Term | None]]) -> Iterator[list[Value]]:
        """The same, where numbers or texts come first: any other one, and then each that is written."""
        written = sorted({row[0].name for row in rows if row[0] is not None})
        other = Value(other_than(kinds[0], written), kinds[0], (), tuple(written))
        for value in [other, *(Value(head, kinds[0]) for head in written)]:
            rest = [row[1:] for row in rows if row[0] is None or row[0].name == value.head]
            for found in self.unmatched(kinds[1:], rest):
                yield [value, *found]

    def made(self, kinds: list[str], rows: list[list[Term | None]]) -> Iterator[list[Value]]:
        """The same, where constructors come first."""
        for name, parts in self.constructors(kinds[0]):
            below = [(list(patterns_of(self.spec, row[0].parts or [])) if row[0] is not None else [None] * len(parts)) + row[1:]
                     for row in rows if row[0] is None or row[0].name == name]
            for found in self.unmatched([*parts, *kinds[1:]], below):
                yield [Value(name, kinds[0], tuple(found[:len(parts)])), *found[len(parts):]]


def patterns_of(spec: Specification, terms: list[Term]) -> list[Term | None]:
    """Patterns, a variable as None."""
    return [None if is_variable(spec, term) else term for term in terms]


def other_than(kind: str, written: list[str]) -> str:
    """A number or a text that is none of these."""
    number = 0
    while True:
        word = str(number) if kind == "num" else '"%s"' % ("" if number == 0 else "text" if number == 1 else "text %d" % number)
        if word not in written:
            return word
        number += 1


def uncovered(spec: Specification, sort: str, most: int = 3) -> list[list[Value]]:
    """Some lists of values that a task of a sort may be given and that no rule fits; the types are those of its carry."""
    values = Values(spec)
    rows = [patterns_of(spec, rule.patterns) for rule in spec.rules_of(sort)]
    try:
        return list(islice(values.unmatched(takes_of(spec, sort), rows), most))
    except RecursionError:
        raise Undecided from None


def whole(spec: Specification, values: list[Value]) -> list[Value]:
    """The same values, with a smallest one where any may be."""
    every = Values(spec)
    return [every.example(value) for value in values]


