"""The faults of a line of a specification, by their kinds, with their places."""
from __future__ import annotations

from collections.abc import Callable, Iterator

from .lexing import Token
from .limits import EACH
from .lines import (CarryLine, ConLine, DependsLine, FreeLine, Line, OfferLine, RoleLine, RuleLine, ShapeLine, SortLine, StartLine, TypeLine, UseLine)
from .names import declared_already, not_declared, past_table, stands_already
from .places import Fault, counted, listed
from .reading import ORDER
from .rule_faults import rule_faults
from .specification import Specification


def faults(spec: Specification, line: Line) -> Iterator[Fault]:
    """The faults of a line after the lines before it, by their kinds: the first is the one that is told."""
    order = order_fault(spec, line)
    if order is not None:
        yield order
    yield from FAULTS_OF[type(line)](spec, line)


def order_fault(spec: Specification, line: Line) -> Fault | None:
    """A line of a later form comes before."""
    rank = ORDER.index(line.word.text)
    if rank >= spec.stage:
        return None
    later = next(other for other in spec.lines if ORDER.index(other.word.text) > rank)
    first = "a `%s` line comes after a `%s` line" % (line.word.text, later.word.text)
    return Fault("order", line.word.span, first, ["move it to above line %d" % later.number, "the forms of lines come in the order %s" % ", ".join(ORDER)]).beside(
        later.span, "this line comes later in the order of forms")


def past_number(token: Token, what: str, mend: str) -> Iterator[Fault]:
    """A number of parts, of values or of results past 8."""
    if token.number > EACH:
        yield Fault("limit", token.span, "%s, and %d are the most" % (what, EACH), [mend])


def role_faults(spec: Specification, line: RoleLine) -> Iterator[Fault]:
    """What is wrong with a role."""
    yield from past_table(spec, line, spec.roles, "role")
    yield from declared_already(line.name, "role", spec.roles.get(line.name.text))


def con_faults(spec: Specification, line: ConLine) -> Iterator[Fault]:
    """What is wrong with a constructor."""
    yield from past_table(spec, line, spec.cons, "constructor")
    yield from past_number(line.parts, "`%s` has %s parts" % (line.name.text, line.parts.text), "put some of them into a constructor of their own, which is one part")
    yield from declared_already(line.name, "constructor", spec.cons.get(line.name.text))


def sort_faults(spec: Specification, line: SortLine) -> Iterator[Fault]:
    """What is wrong with a sort."""
    yield from past_table(spec, line, spec.sorts, "sort")
    mend = "put some of them into a constructor, which is one value"
    yield from past_number(line.takes, "a `%s` is given %s values" % (line.name.text, line.takes.text), mend)
    yield from past_number(line.gives, "a `%s` gives back %s results" % (line.name.text, line.gives.text), mend)
    yield from declared_already(line.name, "sort", spec.sorts.get(line.name.text))
    yield from not_declared(spec, line.role, "role", spec.roles, "role %s" % line.role.text)


def start_faults(spec: Specification, line: StartLine) -> Iterator[Fault]:
    """What is wrong with a start."""
    sort = spec.sorts.get(line.sort.text)
    if sort is not None:
        yield from stands_already(line, spec.starts.get(line.sort.text))
    yield from not_declared(spec, line.sort, "sort", spec.sorts)
    if sort is not None and sort.takes.number > 0:
        empty = [name for name in spec.sorts if spec.takes(name) == 0]
        fault = Fault("inherits", line.sort.span, "a case begins with nothing above it, and a `%s` is given %s" % (line.sort.text, counted(sort.takes.number, "value")))
        yield fault.beside(sort.takes.span, "declared here").with_help(
            "start with a sort that is given no value: %s" % listed(empty) if empty else "add a sort that is given no value, with a rule that makes a `%s`" % line.sort.text)


def offer_faults(spec: Specification, line: OfferLine) -> Iterator[Fault]:
    """What is wrong with an offer."""
    yield from not_declared(spec, line.sort, "sort", spec.sorts)
    yield from stands_already(line, spec.offers.get(line.sort.text))


def use_faults(spec: Specification, line: UseLine) -> Iterator[Fault]:
    """What is wrong with a use."""
    swapped = line.role.text in spec.sorts and line.sort.text in spec.roles
    if swapped and line.role.text not in spec.roles:
        yield Fault("unknown", line.role.span, "`%s` is a sort and `%s` a role" % (line.role.text, line.sort.text), ["write `use %s %s`" % (line.sort.text, line.role.text)])
    yield from not_declared(spec, line.role, "role", spec.roles)
    yield from not_declared(spec, line.sort, "sort", spec.sorts)
    yield from stands_already(line, spec.uses.get((line.role.text, line.sort.text)))


def type_faults(spec: Specification, line: TypeLine) -> Iterator[Fault]:
    """What is wrong with a type."""
    yield from past_table(spec, line, spec.types, "type")
    if line.name.text in ("num", "text"):
        yield Fault("double", line.name.span, "the type `%s` is there from the start" % line.name.text, ["take this line away"])
    yield from declared_already(line.name, "type", spec.types.get(line.name.text))


def unknown_types(spec: Specification, tokens: list[Token]) -> Iterator[Fault]:
    """Names of types that are none."""
    for token in tokens:
        often = {"string": "text", "str": "text", "int": "num", "integer": "num", "number": "num"}.get(token.text)
        if token.text not in spec.type_names() and often:
            yield Fault("unknown", token.span, "no type `%s` is declared above this line" % token.text, ["did you mean `%s`?" % often])
        yield from not_declared(spec, token, "type", dict.fromkeys(spec.type_names()), "type %s" % token.text)


def shape_faults(spec: Specification, line: ShapeLine) -> Iterator[Fault]:
    """What is wrong with a shape."""
    con = spec.cons.get(line.con.text)
    if con is not None and line.con.text in spec.shapes:
        other = spec.shapes[line.con.text]
        yield Fault("double", line.con.span, "`%s` has a shape already" % line.con.text, ["take one of them away"]).beside(other.span, "its shape")
    yield from not_declared(spec, line.con, "constructor", spec.cons)
    yield from unknown_types(spec, [*line.parts, line.own])
    if con is not None and con.parts.number != len(line.parts):
        words = "`%s` has %s, and %s here" % (line.con.text, counted(con.parts.number, "part"), types_stand(len(line.parts)))
        yield Fault("arity", line.con.span, words).beside(con.span, "declared here")


def types_stand(number: int) -> str:
    """How many types are somewhere."""
    return "%s %s" % (counted(number, "type"), "is" if number == 1 else "are")


def carry_faults(spec: Specification, line: CarryLine) -> Iterator[Fault]:
    """What is wrong with a carry."""
    sort = spec.sorts.get(line.sort.text)
    if sort is not None and line.sort.text in spec.carries:
        other = spec.carries[line.sort.text]
        yield Fault("double", line.sort.span, "`%s` has a carry already" % line.sort.text, ["take one of them away"]).beside(other.span, "its carry")
    yield from not_declared(spec, line.sort, "sort", spec.sorts)
    yield from unknown_types(spec, [*line.takes, *line.gives])
    if sort is None:
        return
    for have, want, what in ((line.takes, sort.takes, "is given %s"), (line.gives, sort.gives, "gives back %s")):
        if len(have) != want.number:
            noun = counted(want.number, "value" if want is sort.takes else "result")
            yield Fault("arity", line.sort.span, "a `%s` %s, and %s here" % (line.sort.text, what % noun, types_stand(len(have)))).beside(want.span, "declared here")


def depends_faults(spec: Specification, line: DependsLine) -> Iterator[Fault]:
    """What is wrong with a dependence."""
    sort = spec.sorts.get(line.sort.text)
    if sort is not None:
        yield from stands_already(line, spec.depends.get((line.sort.text, line.value.number, line.result.number)))
    yield from not_declared(spec, line.sort, "sort", spec.sorts)
    if sort is None:
        return
    for token, most, what in ((line.value, sort.takes, "value that it is given"), (line.result, sort.gives, "result")):
        if not 1 <= token.number <= most.number:
            reason = "positions are counted from 1" if token.number == 0 else "a `%s` has %s" % (line.sort.text, counted(most.number, what, what.replace("value that it is", "values that it is").replace("result", "results")))
            yield Fault("arity", token.span, reason).beside(most.span, "declared here")


def free_faults(spec: Specification, line: FreeLine) -> Iterator[Fault]:
    """What is wrong with a line `free`."""
    yield from stands_already(line, spec.free)


FAULTS_OF: dict[type[Line], Callable[..., Iterator[Fault]]] = {
    RoleLine: role_faults, ConLine: con_faults, SortLine: sort_faults, StartLine: start_faults, OfferLine: offer_faults, UseLine: use_faults,
    TypeLine: type_faults, ShapeLine: shape_faults, CarryLine: carry_faults, DependsLine: depends_faults, FreeLine: free_faults, RuleLine: rule_faults,
}
