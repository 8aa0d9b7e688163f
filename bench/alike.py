#!/usr/bin/env python3
"""What the table of drawn runs has to write: reads crates/table_undivided/stdin on standard input, and knows nothing of the program.
It reads the specifications, draws the choices, and answers them as docs/MODEL.md has the undivided run: a taken choice puts
the results of its node in the place of their holes, in as many rounds as there are results."""

import re
import sys

sys.dont_write_bytecode = True
from draws import MASK, Draws

TOKEN = re.compile(r'\s*(?:(?P<name>[a-z][a-z0-9_]*)|(?P<number>\d+)|(?P<text>"[^"]*")|(?P<mark>[(){}<>:;=,]))')


def tokens(line):
    at, out, line = 0, [], line.rstrip()
    while at < len(line):
        found = TOKEN.match(line, at)
        out.append((found.lastgroup, found.group(found.lastgroup)))
        at = found.end()
    return out


class Line:
    """The tokens of a line, from the next one on."""

    def __init__(self, line):
        self.rest = tokens(line)[::-1]

    def take(self):
        return self.rest.pop()[1]

    def number(self):
        return int(self.take())

    def eats(self, mark):
        if self.rest and self.rest[-1] == ("mark", mark):
            self.rest.pop()
            return True
        return False

    def items(self, item, close):
        out = []
        while not self.eats(close):
            out.append(item())
            self.eats(",")
        return out

    def behind(self, mark, item, close):
        return self.items(item, close) if self.eats(mark) else []

    def term(self):
        kind, word = self.rest.pop()
        if kind == "number":
            return ("number", int(word)), []
        if kind == "text":
            return ("text", word[1:-1]), []
        return ("name", word), self.behind("(", self.term, ")")


class Rule:
    def __init__(self, line):
        self.name = line.take()
        self.params = line.behind("{", line.take, "}")
        line.eats(":")
        self.sort = line.take()
        self.patterns = line.behind("(", line.term, ")")
        self.results = line.behind("<", line.term, ">")
        self.children = []
        while line.eats("=") or line.eats(";"):
            self.children.append((line.take(), line.behind("(", line.term, ")"), line.behind("<", line.take, ">")))


class Grammar:
    def __init__(self, lines):
        self.arity, self.gives, self.starts, self.rules = {}, {}, set(), []
        for line in map(Line, lines):
            word = line.take()
            if word == "con":
                name = line.take()
                self.arity[name] = line.number()
            elif word == "sort":
                name, _, _ = line.take(), line.take(), line.take()
                self.gives[name] = line.number()
            elif word == "start":
                self.starts.add(line.take())
            elif word == "rule":
                self.rules.append(Rule(line))
        self.cons = list(self.arity)
        self.starts = [sort for sort in self.gives if sort in self.starts]
        self.place_of_sort = {sort: place for place, sort in enumerate(self.gives)}
        self.place_of_rule = {rule.name: place for place, rule in enumerate(self.rules)}

    def is_variable(self, head):
        return head[0] == "name" and head[1] not in self.arity


# Values are holes ("hole", node, number) and ("made", head, parts); a node is (sort, case, steps).


def node_text(node):
    return "%s#%d" % node[:2] + "".join("/%s.%d" % step for step in node[2])


def ref_text(hole):
    return "%s:r%d" % (node_text(hole[1]), hole[2])


def value_text(value):
    if value[0] == "hole":
        return "?" + ref_text(value)
    kind, word = value[1]
    head = '"%s"' % word if kind == "text" else str(word)
    return head + ("(%s)" % listed(value[2]) if value[2] else "")


def listed(values):
    return ", ".join(map(value_text, values))


class Row:
    def __init__(self, run, node, sort, inherited):
        self.node, self.sort, self.inherited, self.state = node, sort, inherited, None
        self.results = holes(node, run.grammar.gives[sort])
        steps = tuple((run.grammar.place_of_rule[rule], child) for rule, child in node[2])
        self.place = (run.grammar.place_of_sort[node[0]], node[1], steps)

    def line(self):
        state = "%s {%s}" % (self.state[0], listed(self.state[1])) if self.state else "open"
        return "%s %s (%s) <%s>\n" % (node_text(self.node), state, listed(self.inherited), listed(self.results))


def holes(node, count):
    return [("hole", node, number) for number in range(1, count + 1)]


class Run:
    """The undivided run."""

    def __init__(self, grammar):
        self.grammar, self.rows, self.lines = grammar, {}, []

    def in_order(self):
        return sorted(self.rows.values(), key=lambda row: row.place)

    def start(self, sort, case):
        node = (sort, case, ())
        if node in self.rows:
            return "known"
        self.rows[node] = Row(self, node, sort, [])
        return "taken"

    def match(self, term, value, bound):
        head, parts = term
        if self.grammar.is_variable(head):
            bound[head[1]] = value
            return None
        if value[0] == "hole":
            return "waits " + ref_text(value)
        if head != value[1] or len(parts) != len(value[2]):
            return []
        return self.match_all(parts, value[2], bound)

    def match_all(self, terms, values, bound):
        for number, (term, value) in enumerate(zip(terms, values), 1):
            found = self.match(term, value, bound)
            if isinstance(found, list):
                return [number, *found]
            if found is not None:
                return found
        return None

    def fill(self, term, env):
        head, parts = term
        if self.grammar.is_variable(head):
            return env[head[1]]
        return ("made", head, tuple(self.fill(part, env) for part in parts))

    def choose(self, node, rule, args):
        row = self.rows.get(node)
        if row is None:
            return "unknown"
        if row.state:
            return "developed"
        if rule.sort != row.sort:
            return "wrong rule"
        if len(args) != len(rule.params):
            return "arguments"
        env = {}
        found = self.match_all(rule.patterns, row.inherited, env)
        if isinstance(found, list):
            return "mismatch " + ".".join(map(str, found))
        if found is not None:
            return found
        if len(node[2]) == 250 and rule.children:
            return "deep"
        env.update(zip(rule.params, args))
        self.develop(row, rule, args, env)
        return "taken"

    def develop(self, row, rule, args, env):
        below = [(row.node[0], row.node[1], row.node[2] + ((rule.name, child),)) for child in range(1, len(rule.children) + 1)]
        for child, (_, _, names) in zip(below, rule.children):
            env.update(zip(names, holes(child, len(names))))
        for child, (sort, terms, _) in zip(below, rule.children):
            self.rows[child] = Row(self, child, sort, [self.fill(term, env) for term in terms])
        row.state = (rule.name, args)
        results = [self.fill(term, env) for term in rule.results]
        for _ in results:
            self.put(row.node, results)

    def put(self, node, results):
        done = {}

        def put(value):
            if value[0] == "hole":
                return results[value[2] - 1] if value[1] == node else value
            if id(value) not in done:
                done[id(value)] = value, ("made", value[1], tuple(map(put, value[2])))
            return done[id(value)][1]

        for row in self.rows.values():
            row.inherited = [put(value) for value in row.inherited]
            row.results = [put(value) for value in row.results]

    def text(self):
        rows = self.in_order()
        return "".join(self.lines) + "artifacts %d\n" % len(rows) + "".join(row.line() for row in rows)


class DrawnChoices(Draws):
    """The choices that are drawn from a seed."""

    def among(self, things):
        return things[self.draw(len(things))]

    def value(self, grammar):
        kind = self.draw(3)
        if kind == 0:
            return ("made", ("number", self.draw(3)), ())
        if kind == 1:
            return ("made", ("text", "ab"[self.draw(2)]), ())
        if not grammar.cons:
            return ("made", ("number", 0), ())
        con = self.among(grammar.cons)
        return ("made", ("name", con), tuple(("made", ("number", self.draw(2)), ()) for _ in range(grammar.arity[con])))

    def values(self, grammar, count):
        return [self.value(grammar) for _ in range(count)]

    def start(self, run, cases):
        return self.among(run.grammar.starts), self.draw(cases)

    def choice(self, run, cases):
        """A start, (sort, case), or (node, rule, arguments)."""
        kind, rows = self.draw(10), run.in_order()
        pending = [row for row in rows if row.state is None]
        if kind == 0 or kind == 1 and not rows or kind > 2 and not pending:
            return self.start(run, cases)
        if kind == 1:
            node, rule = self.among(rows).node, self.among(run.grammar.rules)
            return node, rule, self.values(run.grammar, self.draw(3))
        if kind == 2:
            node, rule = (self.among(run.grammar.starts), cases, ()), self.among(run.grammar.rules)
            return node, rule, self.values(run.grammar, len(rule.params))
        row = self.among(pending)
        rules = [rule for rule in run.grammar.rules if rule.sort == row.sort]
        if not rules:
            return self.start(run, cases)
        rule = self.among(rules)
        return row.node, rule, self.values(run.grammar, len(rule.params))


KINDS = {
    "taken": "taken",
    "known": "known",
    "unknown": "not here",
    "developed": "developed",
    "wrong rule": "wrong rule",
    "arguments": "arguments",
    "waits": "waiting",
    "mismatch": "mismatch",
    "circle": "circle",
    "deep": "too deep",
}


def make(run, choice):
    """Makes a choice, and gives the kind of its answer."""
    if len(choice) == 2:
        answer, text = run.start(*choice), "start %s %d" % choice
    else:
        node, rule, args = choice
        answer, text = run.choose(node, rule, args), "choose %s %s" % (node_text(node), rule.name)
    run.lines.append("%s: %s\n" % (text, answer))
    return answer if answer in KINDS else answer.split()[0]

DEEP = "too large", "#1 open (12) <?#1:r1>", "copied and let go"


def told(lines):
    seed, runs, choices, cases = map(int, lines[0].split())
    grammar, draws = Grammar(lines[1:]), DrawnChoices(seed)
    counts, length, number = dict.fromkeys(KINDS, 0), 0, 14695981039346656037
    for _ in range(runs):
        run = Run(grammar)
        for _ in range(choices):
            counts[make(run, draws.choice(run, cases))] += 1
        text = run.text().encode()
        length += len(text)
        for byte in text:
            number = (number ^ byte) * 1099511628211 & MASK
    answers = ", ".join("%s %d" % (KINDS[kind], count) for kind, count in counts.items())
    yield "choices %d: %s" % (runs * choices, answers)
    yield "bytes %d, as a number %d" % (length, number)
    yield "runs %d, alike %d" % (runs, runs)


def main():
    sys.setrecursionlimit(100_000)
    for entry in sys.stdin.read().split("=== ")[1:]:
        name, *lines = entry.splitlines()
        print("=== " + name)
        for line in told(lines):
            print(line)
    # the table ends with what is told of a deep value, which was worked out by hand
    print("=== a row up to a limit, and a deep value")
    for line in DEEP:
        print(line)


main()
