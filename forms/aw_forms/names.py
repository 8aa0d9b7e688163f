"""Faults of names and tables: one line too many, a name that is declared already, and one that is not declared."""
from __future__ import annotations

from collections.abc import Collection, Iterator, Sized

from .lexing import Token
from .limits import MOST
from .lines import Line
from .places import Fault, did_you_mean, listed
from .specification import Specification


def past_table(spec: Specification, line: Line, table: Sized, what: str) -> Iterator[Fault]:
    """One more than a table may hold."""
    most = MOST[line.word.text]
    if len(table) >= most:
        yield Fault("limit", line.span, "this is %s number %d, and %d are the most" % (what, len(table) + 1, most))


def declared_already(token: Token, what: str, other: Line | None) -> Iterator[Fault]:
    """What a name names is declared already."""
    if other is not None:
        yield Fault("double", token.span, "the %s `%s` is declared already" % (what, token.text), ["take one of them away, or give it another name"]).beside(
            other.span, "first declared here")


def stands_already(line: Line, other: Line | None) -> Iterator[Fault]:
    """The same line is above."""
    if other is not None:
        yield Fault("double", line.span, "this is already at line %d" % other.number, ["take one of them away"]).beside(other.span, "it is here")


def not_declared(spec: Specification, token: Token, what: str, table: Collection[str], line: str = "") -> Iterator[Fault]:
    """No such name is declared above."""
    if token.text in table:
        return
    fault = Fault("unknown", token.span, "no %s `%s` is declared above this line" % (what, token.text))
    other = did_you_mean(token.text, table)
    known = "declared %s: %s" % ("are" if len(table) > 1 else "is", listed(table)) if table else ""
    yield fault.with_help(other, known if not other else "", spec.where_to_add(line) if line and not other else "")
