"""Who sends what to whom: the picture of roles, their sorts, and what goes between them."""
from __future__ import annotations

from .graph import Graph, marked, rows, strong
from .lines import Term, walk
from .specification import Specification, is_variable, variables

MOST_SORTS = 14
Sources = dict[tuple[str, bool, int], set[str]]


def own_words(spec: Specification, term: Term, params: set[str]) -> bool:
    """Whether a term has something of its own: a constructor, a number, a text or a field."""
    return any(not is_variable(spec, part) or part.name in params for part, _ in walk([term]))


def sources(spec: Specification) -> Sources:
    """Which roles may have made a part of each value that a sort is given, and of each result: the least sets that the rules lead to."""
    found: Sources = {}
    changed = True
    while changed:
        changed = False
        for rule in spec.rules.values():
            role = spec.role_of(rule.sort.text)
            known: dict[str, set[str]] = {}
            for number, pattern in enumerate(rule.patterns, 1):
                for token in variables(spec, [pattern]):
                    known[token.text] = found.get((rule.sort.text, False, number), set())
            for child in rule.children:
                for number, token in enumerate(child.names, 1):
                    known[token.text] = {spec.role_of(child.sort.text)} | found.get((child.sort.text, True, number), set())
            params = {token.text for token in rule.params}
            places = [((rule.sort.text, True, number), term) for number, term in enumerate(rule.results, 1)]
            places += [((child.sort.text, False, number), term) for child in rule.children for number, term in enumerate(child.args, 1)]
            for place, term in places:
                made = set().union(*(known.get(token.text, set()) for token in variables(spec, [term])), {role} if own_words(spec, term, params) else set())
                if not made <= found.setdefault(place, set()):
                    found[place] |= made
                    changed = True
    return found


def told(spec: Specification) -> dict[tuple[str, str], set[str]]:
    """Which role may tell which other what: `values of SORT` that it is given, `result of SORT`."""
    every = sources(spec)
    found: dict[tuple[str, str], set[str]] = {}
    for (sort, result, _), roles in every.items():
        if not result:
            for role in roles - {spec.role_of(sort)}:
                found.setdefault((role, spec.role_of(sort)), set()).add("values for %s" % sort)
    for rule in spec.rules.values():
        role = spec.role_of(rule.sort.text)
        for child in rule.children:
            if spec.role_of(child.sort.text) == role:
                continue
            for number in range(1, len(child.names) + 1):
                for other in ({spec.role_of(child.sort.text)} | every.get((child.sort.text, True, number), set())) - {role}:
                    found.setdefault((other, role), set()).add("result of %s" % child.sort.text)
    return found


def called(spec: Specification) -> dict[tuple[str, str], list[str]]:
    """Which role gives tasks of which sorts to which other."""
    found: dict[tuple[str, str], list[str]] = {}
    for rule in spec.rules.values():
        for child in rule.children:
            pair = spec.role_of(rule.sort.text), spec.role_of(child.sort.text)
            if pair[0] != pair[1] and child.sort.text not in found.setdefault(pair, []):
                found[pair].append(child.sort.text)
    return found


def few(words: list[str], most: int) -> str:
    """Some words on a line each, and how many more there are."""
    return "\n".join(words[:most] + (["and %d more" % (len(words) - most)] if len(words) > most else []))


def office(spec: Specification, role: str) -> list[str]:
    """The rows of a role: its name, and its sorts."""
    cells = [strong(role)]
    own = [name for name, sort in spec.sorts.items() if sort.role.text == role]
    order = sorted(own, key=lambda name: (name not in spec.starts, name not in spec.offers))
    for name in order[:MOST_SORTS]:
        signs = ["a case begins so"] * (name in spec.starts) + ["offered"] * (name in spec.offers)
        cells.append(name + (" " + marked("(%s)" % ", ".join(signs), "soft") if signs else ""))
    if len(order) > MOST_SORTS:
        cells.append(marked("and %d more" % (len(order) - MOST_SORTS), "soft"))
    return cells


def offices(spec: Specification, most: int) -> Graph:
    """The picture."""
    graph = Graph("TB", "Who sends what to whom")
    for role in spec.roles:
        graph.node(role, rows(office(spec, role)), "role", "role %s" % role)
    calls, tells = called(spec), told(spec)
    crowded = len(calls) + len(tells) > most
    for (begin, end), sorts in calls.items():
        graph.edge(begin, end, "call", few(sorts, 1 if crowded else 6), "%s gives tasks to %s: %s" % (begin, end, ", ".join(sorts)))
    for (begin, end), what in sorted(tells.items()) if not crowded else []:
        graph.edge(begin, end, "tell", few(sorted(what), 4), "%s tells %s: %s" % (begin, end, ", ".join(sorted(what))), dashed=True)
    for role, sort in spec.uses:
        pair = role, spec.role_of(sort)
        if sort not in calls.get(pair, []) and pair[0] != pair[1]:
            graph.edge(role, pair[1], "ask", "may use %s" % sort, "no rule of %s does" % role, dashed=True)
    left = "%d arrows of values are left away: --most 0 draws them" % len(tells)
    graph.legend("solid: gives a task; " + (left if crowded else "dashed: tells values, as soon as they are known"))
    return graph
