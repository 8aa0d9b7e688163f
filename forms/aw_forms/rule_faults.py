"""The faults of a rule, by their kinds, with their places."""
from __future__ import annotations

from collections.abc import Callable, Iterator, Sequence

from .lexing import Kind, Token
from .limits import EACH, NESTING, SYMBOLS, VARIABLES
from .lines import Child, ConLine, RuleLine, SortLine, Term, walk
from .names import declared_already, not_declared, past_table
from .places import Fault, counted, did_you_mean
from .specification import Specification, entering, variables


def rule_faults(spec: Specification, line: RuleLine) -> Iterator[Fault]:
    """What is wrong with a rule."""
    yield from past_table(spec, line, spec.rules, "rule")
    yield from past_counts(line)
    yield from past_terms(line)
    yield from past_variables(spec, line)
    yield from declared_already(line.name, "rule", spec.rules.get(line.name.text))
    yield from clashes(spec, line)
    yield from unknown_names(spec, line)
    yield from arities(spec, line)
    yield from twice(spec, line)
    yield from never(spec, line)
    if all(sort.text in spec.sorts for sort in (line.sort, *(child.sort for child in line.children))):
        yield from faces(spec, line)


def past_counts(line: RuleLine) -> Iterator[Fault]:
    """More than 8 fields, patterns, results or subtasks."""
    lists: list[tuple[Sequence[Term | Token | Child], str]] = [
        (line.patterns, "patterns"), (line.results, "results"), (line.params, "fields"), (line.children, "subtasks")]
    for items, what in lists:
        if len(items) > EACH:
            ninth = items[EACH]
            span = ninth.sort.span if isinstance(ninth, Child) else ninth.span
            yield Fault("limit", span, "this rule has %d %s, and %d are the most" % (len(items), what, EACH),
                        ["hand some on to a subtask, which has a form of its own" if what in ("fields", "subtasks") else "put some of them into a constructor, which is one value"])


def past_terms(line: RuleLine) -> Iterator[Fault]:
    """More than 256 symbols, or a term deeper than 32."""
    every = walk(line.terms())
    deep = next((term for term, depth in every if depth > NESTING), None)
    if deep is not None:
        yield Fault("limit", deep.head.span, "this is %d deep, and %d is the most" % (NESTING + 1, NESTING), ["let a subtask build what is inside"])
    if len(every) > SYMBOLS:
        ordered = sorted((term for term, _ in every), key=lambda term: term.head.span.start)
        yield Fault("limit", ordered[SYMBOLS].head.span, "this rule has %d symbols in its terms, and %d are the most; this is the first past them" % (len(every), SYMBOLS),
                    ["let a subtask build a part of it"])


def past_variables(spec: Specification, line: RuleLine) -> Iterator[Fault]:
    """More than 64 variables."""
    names = entering(spec, line)
    if len(names) > VARIABLES:
        yield Fault("limit", names[VARIABLES].span, "this rule has %d variables, and %d are the most; this is the first past them" % (len(names), VARIABLES))


def clashes(spec: Specification, line: RuleLine) -> Iterator[Fault]:
    """A field, or the name of a result, is the name of a constructor."""
    for token, what in [*((token, "field") for token in line.params), *((token, "result") for child in line.children for token in child.names)]:
        if token.text in spec.cons:
            yield Fault("clash", token.span, "`%s` is a constructor, so no %s can have this name" % (token.text, what), ["choose another name, as `%s_given`" % token.text[:57]]).beside(
                spec.cons[token.text].name.span, "the constructor")


def unknown_names(spec: Specification, line: RuleLine) -> Iterator[Fault]:
    """A sort, or a constructor with parentheses, is not declared."""
    yield from not_declared(spec, line.sort, "sort", spec.sorts)
    for child in line.children:
        yield from not_declared(spec, child.sort, "sort", spec.sorts)
    for term, _ in sorted(walk(line.terms()), key=lambda pair: pair[0].head.span.start):
        if term.parts is not None and term.name not in spec.cons:
            fault = Fault("unknown", term.head.span, "no constructor `%s` is declared; with parentheses it can be nothing else" % term.name)
            other = did_you_mean(term.name, spec.cons)
            yield fault.with_help(other, "" if other else spec.where_to_add("con %s %d" % (term.name, len(term.parts))))


def arities(spec: Specification, line: RuleLine) -> Iterator[Fault]:
    """Another number of parts, of values or of results."""
    sort = spec.sorts.get(line.sort.text)
    yield from arity_of(sort, line.sort, len(line.patterns), "is given", "value", lambda sort: sort.takes)
    yield from arity_of(sort, line.sort, len(line.results), "gives back", "result", lambda sort: sort.gives)
    for child in line.children:
        below = spec.sorts.get(child.sort.text)
        yield from arity_of(below, child.sort, len(child.args), "is given", "value", lambda sort: sort.takes)
        yield from arity_of(below, child.sort, len(child.names), "gives back", "result", lambda sort: sort.gives)
    for term, _ in sorted(walk(line.terms()), key=lambda pair: pair[0].head.span.start):
        con = spec.cons.get(term.name) if term.head.kind is Kind.NAME else None
        if con is not None and con.parts.number != len(term.parts or []):
            yield parts_fault(term, con)


def arity_of(sort: SortLine | None, token: Token, have: int, verb: str, noun: str, number: Callable[[SortLine], Token]) -> Iterator[Fault]:
    """Another number of values or of results than a sort has."""
    if sort is not None and number(sort).number != have:
        want = number(sort)
        words = "a `%s` %s %s, and %s %s here" % (token.text, verb, counted(want.number, noun), counted(have, noun), "is" if have == 1 else "are")
        yield Fault("arity", token.span, words).beside(want.span, "declared here")


def parts_fault(term: Term, con: ConLine) -> Fault:
    """A constructor with another number of parts."""
    have, want = len(term.parts or []), con.parts.number
    words = "`%s` has %s, and %s %s here" % (term.name, counted(want, "part"), counted(have, "part"), "is" if have == 1 else "are")
    fault = Fault("arity", term.span, words).beside(con.span, "declared here")
    if term.parts is None:
        return fault.with_help("where a variable is meant, give it a name that no constructor has")
    return fault


def twice(spec: Specification, line: RuleLine) -> Iterator[Fault]:
    """A variable enters at two places."""
    seen: dict[str, Token] = {}
    for token in entering(spec, line):
        if token.text in seen:
            other = seen[token.text]
            later, first = (token, other) if token.span.start > other.span.start else (other, token)
            yield Fault("twice", later.span, "`%s` names two values" % token.text,
                        ["give each a name of its own; two values are not compared by naming them alike"]).beside(first.span, "the other one")
        seen[token.text] = token


def never(spec: Specification, line: RuleLine) -> Iterator[Fault]:
    """A variable that is used enters nowhere."""
    names = {token.text for token in entering(spec, line)}
    for token in sorted(variables(spec, line.uses()), key=lambda token: token.span.start):
        if token.text not in names:
            other = did_you_mean(token.text, [*names, *(name for name, con in spec.cons.items() if con.parts.number == 0)])
            fields = ", ".join([*(param.text for param in line.params), token.text])
            fault = Fault("never", token.span, "nothing says what `%s` is: no value that the task is given, no field, no result of a subtask, and no constructor" % token.text)
            yield fault.with_help(other, "where the user is to enter it, make it a field: `rule %s {%s} : ..`" % (line.name.text, fields))


def faces(spec: Specification, line: RuleLine) -> Iterator[Fault]:
    """A subtask is of another role's sort, which the rule's role does not use, or which is not offered."""
    role = spec.role_of(line.sort.text)
    for child in line.children:
        other = spec.role_of(child.sort.text)
        if other == role:
            continue
        where = spec.sorts[child.sort.text]
        if (role, child.sort.text) not in spec.uses:
            yield Fault("notused", child.sort.span, "this rule is of role %s, `%s` is work of role %s, and %s does not use it" % (role, child.sort.text, other, role),
                        [spec.where_to_add("use %s %s" % (role, child.sort.text))]).beside(where.role.span, "its role")
        elif child.sort.text not in spec.offers:
            yield Fault("notoffered", child.sort.span, "`%s` is work of role %s, which does not offer it to other roles" % (child.sort.text, other),
                        [spec.where_to_add("offer %s" % child.sort.text)]).beside(where.role.span, "its role")
