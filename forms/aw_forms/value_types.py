"""Types of a specification: the first place that does not fit, and the types of fields."""
from __future__ import annotations

from dataclasses import dataclass

from .lexing import Kind, Token
from .lines import RuleLine, Term, walk
from .places import Fault
from .specification import Specification, is_variable


@dataclass(frozen=True, slots=True)
class Occurrence:
    """An inherited value or a result: of the left side (0), or of a child by its position."""

    child: int
    result: bool
    number: int

    def __str__(self) -> str:
        """As the program prints it."""
        return "%d.%s%d" % (self.child, "out" if self.result else "in", self.number)


def takes_of(spec: Specification, sort: str) -> list[str]:
    """The types of what a sort is given."""
    carry = spec.carries.get(sort)
    return [token.text for token in carry.takes] if carry else []


def gives_of(spec: Specification, sort: str) -> list[str]:
    """The types of what a sort gives back."""
    carry = spec.carries.get(sort)
    return [token.text for token in carry.gives] if carry else []


def shape_of(spec: Specification, term: Term) -> tuple[list[str], str | None]:
    """The types of the parts of what is at the front of a term, and its own type; none where it has no shape."""
    if term.head.kind is Kind.NUMBER:
        return [], "num"
    if term.head.kind is Kind.TEXT:
        return [], "text"
    shape = spec.shapes.get(term.name)
    return ([token.text for token in shape.parts], shape.own.text) if shape else ([], None)


def placed(spec: Specification, terms: list[Term], types: list[str]) -> list[tuple[Term, str]]:
    """Each term within some terms with the type of its place, from left to right, as far as shapes tell it."""
    found = []
    stack = list(reversed(list(zip(terms, types))))
    while stack:
        term, place = stack.pop()
        found.append((term, place))
        stack.extend(reversed(list(zip(term.parts or [], shape_of(spec, term)[0]))))
    return found


def variable_types(spec: Specification, rule: RuleLine) -> dict[str, str]:
    """The types of the variables of a rule; a field that is used nowhere has none."""
    types = {}
    for term, place in placed(spec, rule.patterns, takes_of(spec, rule.sort.text)):
        if is_variable(spec, term):
            types[term.name] = place
    for child in rule.children:
        types.update((token.text, kind) for token, kind in zip(child.names, gives_of(spec, child.sort.text)))
    for token in rule.params:
        first = field_type(spec, rule, token)
        if first:
            types[token.text] = first
    return types


def field_type(spec: Specification, rule: RuleLine, field: Token) -> str | None:
    """The type of the first place of a field: first in results, then in the arguments of children."""
    sides = [(rule.results, gives_of(spec, rule.sort.text)), *((child.args, takes_of(spec, child.sort.text)) for child in rule.children)]
    for terms, types in sides:
        for term, place in placed(spec, terms, types):
            if is_variable(spec, term) and term.name == field.text:
                return place
    return None


def misfit(spec: Specification, term: Term, place: str, types: dict[str, str | None] | None) -> tuple[Term, str] | None:
    """The first part of a term that is not of the type of its place, with that type. Without types of variables each of them fits."""
    for part, kind in placed(spec, [term], [place]):
        if is_variable(spec, part):
            if types is not None and types.get(part.name) != kind:
                return part, kind
        elif shape_of(spec, part)[1] != kind:
            return part, kind
    return None


def sides_of(spec: Specification, rule: RuleLine) -> list[tuple[int, bool, list[Term], list[str]]]:
    """The lists of terms of a rule in the order in which they are looked at: child, whether results, terms, types."""
    sort = rule.sort.text
    children = [(at, False, child.args, takes_of(spec, child.sort.text)) for at, child in enumerate(rule.children, 1)]
    return [(0, False, rule.patterns, takes_of(spec, sort)), (0, True, rule.results, gives_of(spec, sort)), *children]


def rule_misfit(spec: Specification, rule: RuleLine) -> tuple[Occurrence, Term, str] | None:
    """The first occurrence of a rule whose term is not of its type, with the part that is not and the type of its place."""
    types: dict[str, str | None] = dict(variable_types(spec, rule))
    for child, result, terms, places in sides_of(spec, rule):
        patterns = child == 0 and not result
        for number, (term, place) in enumerate(zip(terms, places), 1):
            found = misfit(spec, term, place, None if patterns else types)
            if found:
                return Occurrence(child, result, number), *found
    return None


def type_fault(spec: Specification) -> tuple[str, Fault] | None:
    """The line that the program writes of the first fault of types, and where it is."""
    if not spec.typed:
        return None
    for name, con in spec.cons.items():
        if name not in spec.shapes:
            types = "".join(", TYPE" for _ in range(con.parts.number))[2:]
            return "bad types con %s" % name, Fault("types", con.name.span, "`%s` has no shape, and in a typed specification each constructor has one" % name, [
                spec.where_to_add("shape %s (%s) TYPE" % (name, types)) + ", with its types"])
    for name, sort in spec.sorts.items():
        if name not in spec.carries:
            takes, gives = (", ".join(["TYPE"] * token.number) for token in (sort.takes, sort.gives))
            return "bad types sort %s" % name, Fault("types", sort.name.span, "`%s` has no carry, and in a typed specification each sort has one" % name, [
                spec.where_to_add("carry %s (%s)<%s>" % (name, takes, gives)) + ", with its types"])
    for rule in spec.rules.values():
        found = rule_misfit(spec, rule)
        if found:
            return "bad types rule %s at %s" % (rule.name.text, found[0]), misfit_fault(spec, rule, *found)
    return None


def misfit_fault(spec: Specification, rule: RuleLine, at: Occurrence, part: Term, place: str) -> Fault:
    """The fault of a term that is not of the type of its place."""
    if is_variable(spec, part):
        have = variable_types(spec, rule).get(part.name)
        words = "expected a `%s`, found `%s`, which is a `%s`" % (place, part.name, have) if have else "expected a `%s`, and `%s` has no type" % (place, part.name)
    else:
        have = shape_of(spec, part)[1]
        words = "expected a `%s`, found a `%s`" % (place, have)
    fault = Fault("types", part.span, words)
    outer = next((term for term, _ in walk(rule.terms()) if part in (term.parts or []) and any(other is part for other in term.parts or [])), None)
    if outer is not None and outer.name in spec.shapes:
        fault.beside(spec.shapes[outer.name].span, "the types of the parts of `%s`" % outer.name)
    else:
        sort = rule.sort.text if at.child == 0 else rule.children[at.child - 1].sort.text
        fault.beside(spec.carries[sort].span, "what a `%s` is given and gives back" % sort)
    if is_variable(spec, part):
        enters = next((token for token in entering_tokens(spec, rule) if token.text == part.name), None)
        if enters is not None and enters.span != part.head.span:
            fault.beside(enters.span, "a `%s`" % have if have else "it enters here")
    makers = [name for name, shape in spec.shapes.items() if shape.own.text == place]
    return fault.with_help("a `%s` is made by %s" % (place, " or ".join("`%s`" % name for name in makers[:6])) if makers and place not in ("num", "text") else "",
                           "a `text` is between quotation marks" if place == "text" and part.head.kind is Kind.NUMBER else "")


def entering_tokens(spec: Specification, rule: RuleLine) -> list[Token]:
    """Where the variables of a rule enter."""
    patterns = [term.head for term, _ in walk(rule.patterns) if is_variable(spec, term)]
    return [*patterns, *rule.params, *(name for child in rule.children for name in child.names)]
