"""Which values of a rule lead to which: dependences of sorts, circles with the way round, roles checked apart, and waiting."""
from __future__ import annotations

from collections import deque
from collections.abc import Iterable
from dataclasses import dataclass

from .lexing import Token
from .lines import RuleLine, Term
from .places import Fault, Span, counted
from .specification import Specification, is_variable, variables
from .value_types import Occurrence

Pair = tuple[int, int]
Relation = dict[str, dict[Pair, str]]


@dataclass(frozen=True, slots=True)
class Edge:
    """From one occurrence to another: by a variable, or through a subtask by one of its rules (or by a line `depends`)."""

    begin: Occurrence
    end: Occurrence
    variable: str = ""
    through: str = ""


def enters_at(spec: Specification, rule: RuleLine) -> dict[str, tuple[Occurrence, Token]]:
    """At which occurrence each variable enters; fields enter at none."""
    found = {}
    for number, pattern in enumerate(rule.patterns, 1):
        for token in variables(spec, [pattern]):
            found[token.text] = (Occurrence(0, False, number), token)
    for at, child in enumerate(rule.children, 1):
        for number, token in enumerate(child.names, 1):
            found[token.text] = (Occurrence(at, True, number), token)
    return found


def text_edges(spec: Specification, rule: RuleLine) -> list[Edge]:
    """The edges of a rule by its variables."""
    enters = enters_at(spec, rule)
    places: list[tuple[Occurrence, Term]] = [(Occurrence(0, True, number), term) for number, term in enumerate(rule.results, 1)]
    for at, child in enumerate(rule.children, 1):
        places += [(Occurrence(at, False, number), term) for number, term in enumerate(child.args, 1)]
    return [Edge(enters[token.text][0], end, variable=token.text) for end, term in places for token in variables(spec, [term]) if token.text in enters]


def child_edges(rule: RuleLine, relation: Relation) -> list[Edge]:
    """The edges of a rule through its subtasks."""
    return [Edge(Occurrence(at, False, i), Occurrence(at, True, j), through=why)
            for at, child in enumerate(rule.children, 1) for (i, j), why in sorted(relation.get(child.sort.text, {}).items())]


def way(edges: Iterable[Edge], begin: Occurrence, end: Occurrence) -> list[Edge] | None:
    """A shortest way of one edge at least, where there is one."""
    leaving: dict[Occurrence, list[Edge]] = {}
    for edge in edges:
        leaving.setdefault(edge.begin, []).append(edge)
    came: dict[Occurrence, Edge] = {}
    todo = deque([begin])
    while todo:
        for edge in leaving.get(todo.popleft(), []):
            if edge.end in came:
                continue
            came[edge.end] = edge
            if edge.end == end:
                return back(came, begin, end)
            todo.append(edge.end)
    return None


def back(came: dict[Occurrence, Edge], begin: Occurrence, end: Occurrence) -> list[Edge]:
    """The edges by which an occurrence was reached."""
    steps = [came[end]]
    while steps[-1].begin != begin:
        steps.append(came[steps[-1].begin])
    return steps[::-1]


def reached(edges: Iterable[Edge], begin: Occurrence) -> set[Occurrence]:
    """All occurrences to which a way leads."""
    leaving: dict[Occurrence, list[Occurrence]] = {}
    for edge in edges:
        leaving.setdefault(edge.begin, []).append(edge.end)
    found: set[Occurrence] = set()
    todo = [begin]
    while todo:
        for end in leaving.get(todo.pop(), []):
            if end not in found:
                found.add(end)
                todo.append(end)
    return found


def closed(spec: Specification, rules: list[RuleLine], relation: Relation) -> Relation:
    """The least relation that holds a given one and is closed under some rules."""
    texts = {rule.name.text: text_edges(spec, rule) for rule in rules}
    makers: dict[str, list[RuleLine]] = {}
    for rule in rules:
        for sort in {child.sort.text for child in rule.children}:
            makers.setdefault(sort, []).append(rule)
    todo = {rule.name.text: rule for rule in rules}
    while todo:
        rule = todo.pop(next(iter(todo)))
        edges = texts[rule.name.text] + child_edges(rule, relation)
        own = relation.setdefault(rule.sort.text, {})
        before = len(own)
        for i in range(1, len(rule.patterns) + 1):
            for end in reached(edges, Occurrence(0, False, i)):
                if end.child == 0 and end.result:
                    own.setdefault((i, end.number), "rule `%s`" % rule.name.text)
        if len(own) > before:
            todo.update((other.name.text, other) for other in makers.get(rule.sort.text, []))
    return relation


def dependences(spec: Specification) -> Relation:
    """Which result of each sort depends on which value that it is given."""
    return closed(spec, list(spec.rules.values()), {})


def first_circle(spec: Specification, rules: Iterable[RuleLine], relation: Relation) -> tuple[RuleLine, list[Edge]] | None:
    """The first rule with an occurrence that leads back to itself, and the way round from the least such one."""
    for rule in rules:
        edges = text_edges(spec, rule) + child_edges(rule, relation)
        begins = sorted({edge.begin for edge in edges}, key=lambda at: (at.child, at.result, at.number))
        for begin in begins:
            found = way(edges, begin, begin)
            if found:
                return rule, found
    return None


# roles checked apart
def declared_elsewhere(spec: Specification, role: str) -> Relation:
    """What lines `depends` say of the sorts of other roles."""
    found: Relation = {}
    for (sort, i, j), line in spec.depends.items():
        if spec.role_of(sort) != role:
            found.setdefault(sort, {})[i, j] = "line %d" % line.number
    return found


def role_answer(spec: Specification, role: str) -> tuple[str, RuleLine | None, list[Edge], tuple[str, int, int] | None]:
    """What `check` says of a role by its own rules: the line; a rule with the way round a circle, or an excess."""
    rules = [rule for rule in spec.rules.values() if spec.role_of(rule.sort.text) == role]
    relation = closed(spec, rules, declared_elsewhere(spec, role))
    circle = first_circle(spec, rules, relation)
    if circle:
        return "role %s circular %s at %s" % (role, circle[0].name.text, circle[1][0].begin), *circle, None
    for sort in spec.sorts:
        for i, j in sorted(relation.get(sort, {})):
            if spec.role_of(sort) == role and sort in spec.offers and (sort, i, j) not in spec.depends:
                return "role %s exceeds %s %d %d" % (role, sort, i, j), None, [], (sort, i, j)
    return "role %s ok" % role, None, [], None


# waiting
def looks_at(spec: Specification, sort: str) -> dict[int, RuleLine]:
    """The inherited values of a sort at which a pattern looks, each with the first rule that does."""
    found: dict[int, RuleLine] = {}
    for rule in spec.rules_of(sort):
        for number, pattern in enumerate(rule.patterns, 1):
            if not is_variable(spec, pattern):
                found.setdefault(number, rule)
    return found


def waiting(spec: Specification) -> Relation:
    """Which result of each sort may have to wait for which value that it is given."""
    seed: Relation = {}
    for sort in spec.sorts:
        for number, rule in looks_at(spec, sort).items():
            for j in range(1, spec.gives(sort) + 1):
                seed.setdefault(sort, {})[number, j] = "rule `%s`, which looks at it" % rule.name.text
    return closed(spec, list(spec.rules.values()), seed)


# words
def occurrence_words(rule: RuleLine, at: Occurrence) -> str:
    """An occurrence in words."""
    if at.child == 0:
        return "result %d of the task itself" % at.number if at.result else "value %d given to the task itself" % at.number
    child = rule.children[at.child - 1].sort.text
    return "result %d of subtask %d (`%s`)" % (at.number, at.child, child) if at.result else "value %d given to subtask %d (`%s`)" % (at.number, at.child, child)


def occurrence_span(rule: RuleLine, at: Occurrence) -> Span:
    """Where an occurrence is in its rule."""
    if at.child == 0:
        return (rule.results if at.result else rule.patterns)[at.number - 1].span
    child = rule.children[at.child - 1]
    return child.names[at.number - 1].span if at.result else child.args[at.number - 1].span


def step_words(rule: RuleLine, edge: Edge) -> str:
    """One step of a way round in words."""
    begin, end = occurrence_words(rule, edge.begin), occurrence_words(rule, edge.end)
    if edge.variable:
        return "%s is called `%s`, and goes into %s" % (begin, edge.variable, end)
    return "%s goes into %s, by %s" % (begin, end, edge.through)


def circle_fault(spec: Specification, rule: RuleLine, steps: list[Edge], kind: str) -> Fault:
    """A circle as a fault at its first occurrence, with the way round."""
    if kind == "wait circle":
        words = "a task that needs this may wait for itself"
        mend = "one of these steps has to go: let a rule that looks at a value take a variable in its place, or hand the value to another task"
    else:
        words = "this value needs itself"
        mend = "one of these steps has to go: a rule gives a result that does without the value, or a subtask is not given it"
    fault = Fault(kind, occurrence_span(rule, steps[0].begin), words, [mend])
    fault.steps = ["the way round has %s:" % counted(len(steps), "step")] + ["%d. %s" % (number, step_words(rule, edge)) for number, edge in enumerate(steps, 1)]
    shown = {steps[0].begin}
    for edge in steps:
        if edge.end not in shown:
            shown.add(edge.end)
            fault.beside(occurrence_span(rule, edge.end), "")
    for edge in steps:
        if edge.through.startswith("rule `"):
            other = spec.rules[edge.through.split("`")[1]]
            if other is not rule:
                fault.beside(other.name.span, "leads from value %d to result %d" % (edge.begin.number, edge.end.number))
    return fault
