"""The dependences of a rule: what it is given, its fields, its subtasks and its results, and which goes into which."""
from __future__ import annotations

from .dependences import child_edges, dependences, first_circle, text_edges
from .graph import Graph, marked, rows, strong
from .lines import RuleLine
from .specification import Specification, variables
from .theme import shortened
from .value_types import Occurrence


def rule_picture(spec: Specification, rule: RuleLine, text: list[str]) -> Graph:
    """The picture of a rule; the way round a circle is marked."""
    graph = Graph("LR", "The dependences of the rule %s" % rule.name.text)
    relation = dependences(spec)
    circle = first_circle(spec, [rule], relation)
    round_way = set(circle[1]) if circle else set()
    on_circle = {edge.begin for edge in round_way}
    add_places(spec, graph, rule, text, on_circle)
    for token in rule.params:
        graph.node("field " + token.text, marked(token.text), "field", "the user enters %s" % token.text, "ellipse")
    for edge in dict.fromkeys(text_edges(spec, rule)):
        graph.edge(str(edge.begin), str(edge.end), "round" if edge in round_way else "", edge.variable, "by `%s`" % edge.variable)
    for edge in child_edges(rule, relation):
        graph.edge(str(edge.begin), str(edge.end), "round" if edge in round_way else "tell", "", "the result depends on it, by %s" % edge.through, dashed=True)
    for name, end in field_edges(spec, rule):
        graph.edge("field " + name, str(end), "ask", "", "the field %s goes here" % name)
    return graph


def field_edges(spec: Specification, rule: RuleLine) -> list[tuple[str, Occurrence]]:
    """Where each field goes."""
    fields = {token.text for token in rule.params}
    places = [(Occurrence(0, True, number), term) for number, term in enumerate(rule.results, 1)]
    places += [(Occurrence(at, False, number), term) for at, child in enumerate(rule.children, 1) for number, term in enumerate(child.args, 1)]
    return [(name, place) for place, term in places for name in dict.fromkeys(token.text for token in variables(spec, [term])) if name in fields]


def add_places(spec: Specification, graph: Graph, rule: RuleLine, text: list[str], on_circle: set[Occurrence]) -> None:
    """A node for each value and each result, those of a subtask in a frame."""
    line = text[rule.number - 1]

    def place(at: Occurrence, words: str, start: int, end: int) -> str:
        """A node for one occurrence."""
        written = line[start:end]
        graph.node(str(at), rows([marked(words, "soft"), marked(shortened(written, 40))]), "bad" if at in on_circle else "", written)
        return str(at)

    given = [place(Occurrence(0, False, n), "given, %d" % n, term.span.start, term.span.end) for n, term in enumerate(rule.patterns, 1)]
    if given:
        graph.cluster("given", "a %s is given" % rule.sort.text, given)
    for at, child in enumerate(rule.children, 1):
        inside = [place(Occurrence(at, False, n), "given, %d" % n, term.span.start, term.span.end) for n, term in enumerate(child.args, 1)]
        inside += [place(Occurrence(at, True, n), "result %d" % n, token.span.start, token.span.end) for n, token in enumerate(child.names, 1)]
        if not inside:
            graph.node("child %d" % at, marked(child.sort.text), "", "nothing is given, and nothing comes back")
            inside = ["child %d" % at]
        role = spec.role_of(child.sort.text)
        graph.cluster("child%d" % at, "%s %s" % (strong("%d. %s" % (at, child.sort.text)), marked("by %s" % role, "soft")), inside)
    results = [place(Occurrence(0, True, n), "result %d" % n, term.span.start, term.span.end) for n, term in enumerate(rule.results, 1)]
    if results:
        graph.cluster("results", "a %s gives back" % rule.sort.text, results)
    if not (given or results or rule.children):
        graph.node("rule", marked("nothing is given, made or given back"), "", "")


