#!/usr/bin/env python3
"""trial.py N: the specification of the trial, and the schedule that is drawn from N.

  trial.py N                 writes the specification, the line `schedule`, the events of all turns and the last settling
  trial.py --counts N        writes the counts of the turns instead: starts, choices, taken, messages, repeats
  trial.py --compare BIN N.. runs `BIN trial N` and `BIN replay` of the schedule, and compares both with the counts

It draws as docs/SCHEDULE.md says. To know which nodes are open and how many messages were sent it has workspaces of its own, which are
written from docs/PROTOCOL.md and are no part of the program. Ends with 1 where something differs."""
import bisect
import subprocess
import sys

SPECIFICATION = """role front
role lab
role desk
role store
con ok 0
con pair 2
con item 2
sort case front 0 1
sort test lab 1 1
sort note desk 2 1
sort keep store 1 1
start case
offer test
offer note
offer keep
use front test
use front note
use lab note
use desk keep
rule begin {n} : case()<pair(a, b)> = test(item(n, ok))<a> ; note(a, n)<b>
rule measure {v} : test(item(x, y))<pair(x, v)>
rule refer : test(item(x, ok))<b> = note(x, x)<b>
rule write {t} : note(pair(x, y), z)<item(x, t)>
rule file : note(x, y)<k> = keep(pair(x, y))<k>
rule hold : keep(x)<x>
rule split : keep(pair(x, y))<pair(a, b)> = keep(x)<a> ; keep(y)<b>
"""

# Sorts are 0 case, 1 test, 2 note, 3 keep; the role of each has the same number. A variable is a text, and what has parts is a tuple.
TURNS, DEEPEST = 2000, 250
OK = ("ok",)


class Rule:
    def __init__(self, name, sort, patterns, params, results, children):
        self.name, self.sort, self.patterns = name, sort, patterns
        self.params, self.results, self.children = params, results, children


RULES = [
    Rule("begin", 0, [], ["n"], [("pair", "a", "b")], [(1, [("item", "n", OK)], "a"), (2, ["a", "n"], "b")]),
    Rule("measure", 1, [("item", "x", "y")], ["v"], [("pair", "x", "v")], []),
    Rule("refer", 1, [("item", "x", OK)], [], ["b"], [(2, ["x", "x"], "b")]),
    Rule("write", 2, [("pair", "x", "y"), "z"], ["t"], [("item", "x", "t")], []),
    Rule("file", 2, ["x", "y"], [], ["k"], [(3, [("pair", "x", "y")], "k")]),
    Rule("hold", 3, ["x"], [], ["x"], []),
    Rule("split", 3, [("pair", "x", "y")], [], [("pair", "a", "b")], [(3, ["x"], "a"), (3, ["y"], "b")]),
]

# A node is its case and its steps, each a rule and a child. A reference is a node, 0 for a result or 1 for a part, and a number. Both are in
# the order of tuples. A body is ("same", reference), ("number", n), or a constructor and its references.


def sort_of(node):
    case, steps = node
    if not steps:
        return 0
    rule, child = steps[-1]
    return RULES[rule].children[child - 1][0]


def home(reference):
    return sort_of(reference[0])


def node_text(node):
    case, steps = node
    return f"case#{case}" + "".join(f"/{RULES[rule].name}.{child}" for rule, child in steps)


def references_in(body):
    return body[1:] if body[0] != "number" else ()


class Making:
    """The equations and subtasks of one choice."""

    def __init__(self, node, number, argument, bound):
        self.node, self.parts, self.equations, self.children = node, 0, [], []
        rule, names = RULES[number], dict(bound)
        for name in rule.params:
            names[name] = self.next_part()
            self.equations.append((names[name], ("number", argument)))
        for child, (_, _, name) in enumerate(rule.children, 1):
            names[name] = (self.below(number, child), 0, 1)
        for child, (_, args, _) in enumerate(rule.children, 1):
            self.children.append((self.below(number, child), [self.argument(arg, names) for arg in args]))
        for j, result in enumerate(rule.results, 1):
            self.define((node, 0, j), result, names)

    def below(self, rule, child):
        return (self.node[0], self.node[1] + ((rule, child),))

    def next_part(self):
        self.parts += 1
        return (self.node, 1, self.parts)

    def argument(self, term, names):
        if isinstance(term, str):
            return names[term]
        left = self.next_part()
        self.apply(left, term, names)
        return left

    def define(self, left, term, names):
        if isinstance(term, str):
            self.equations.append((left, ("same", names[term])))
        else:
            self.apply(left, term, names)

    def apply(self, left, term, names):
        place = len(self.equations)
        self.equations.append(None)
        self.equations[place] = (left, (term[0],) + tuple(self.argument(part, names) for part in term[1:]))


class Site:
    def __init__(self, role):
        self.role, self.inherited, self.developed = role, {}, set()
        self.equations, self.asked, self.watchers = {}, set(), {}

    def chase(self, reference):
        for _ in range(len(self.equations) + 1):
            body = self.equations.get(reference)
            if body is None or body[0] != "same":
                return body
            reference = body[1]
        return None

    def binds(self, pattern, reference, bound):
        """Whether a pattern is met; its variables are bound to references."""
        if isinstance(pattern, str):
            bound[pattern] = reference
            return True
        body = self.chase(reference)
        if body is None or body[0] != pattern[0] or len(body) != len(pattern):
            return False
        return all(self.binds(part, body[k], bound) for k, part in enumerate(pattern) if k > 0)

    def asks(self, mentioned):
        found = sorted({r for r in mentioned if home(r) != self.role and r not in self.equations and r not in self.asked})
        self.asked.update(found)
        return [(home(r), ("ask", r, self.role)) for r in found]

    def choose(self, node, number, argument):
        """The messages of a choice; None where it is refused."""
        rule, bound = RULES[number], {}
        if not all(self.binds(p, r, bound) for p, r in zip(rule.patterns, self.inherited[node])):
            return None
        if len(node[1]) == DEEPEST and rule.children:
            return None
        made = Making(node, number, argument, bound)
        self.developed.add(node)
        self.equations.update(made.equations)
        calls, mentioned = [], []
        for child, references in made.children:
            if sort_of(child) == self.role:
                self.inherited[child] = references
                mentioned += references
            else:
                calls.append((sort_of(child), ("call", child, references)))
        tells = [(role, ("tell", left, body)) for left, body in made.equations for role in sorted(self.watchers.get(left, ()))]
        mentioned += [r for _, body in made.equations for r in references_in(body)]
        return calls + tells + self.asks(mentioned)

    def receive(self, message):
        """The messages that a message brings about; None where it is held already."""
        if message[0] == "call":
            if message[1] in self.inherited:
                return None
            self.inherited[message[1]] = message[2]
            return self.asks(message[2])
        if message[0] == "ask":
            watchers = self.watchers.setdefault(message[1], set())
            if message[2] in watchers:
                return None
            watchers.add(message[2])
            body = self.equations.get(message[1])
            return [] if body is None else [(message[2], ("tell", message[1], body))]
        if message[1] in self.equations:
            return None
        self.equations[message[1]] = message[2]
        return self.asks(references_in(message[2]))


class Trial:
    def __init__(self, number):
        self.state, self.sites = number, [Site(role) for role in range(4)]
        self.messages, self.delivered, self.open, self.lines = [], [], [], []
        self.starts = self.choices = self.taken = self.repeats = 0

    def draw(self, most):
        self.state = (self.state * 6364136223846793005 + 1442695040888963407) % 2**64
        return (self.state >> 33) % most

    def opens(self, site, before):
        for node in list(site.inherited)[before:]:
            bisect.insort(self.open, node)

    def send(self, messages):
        self.messages += messages
        self.delivered += [False] * len(messages)

    def start(self):
        site = self.sites[0]
        before = len(site.inherited)
        site.inherited[(self.starts, ())] = []
        self.opens(site, before)
        self.lines.append(f"start case {self.starts}")
        self.starts += 1

    def choose(self):
        if not self.open:
            return
        node = self.open[self.draw(len(self.open))]
        rules = [number for number, rule in enumerate(RULES) if rule.sort == sort_of(node)]
        number = rules[self.draw(len(rules))]
        argument = self.draw(100) if RULES[number].params else None
        given = "" if argument is None else f" {{{argument}}}"
        self.lines.append(f"choose {node_text(node)} {RULES[number].name}{given}")
        site = self.sites[sort_of(node)]
        before = len(site.inherited)
        sent = site.choose(node, number, argument)
        self.choices += 1
        if sent is not None:
            self.taken += 1
            self.open.remove(node)
            self.opens(site, before)
            self.send(sent)

    def deliver(self, number):
        role, message = self.messages[number]
        self.delivered[number] = True
        site = self.sites[role]
        before = len(site.inherited)
        sent = site.receive(message)
        if sent is None:
            self.repeats += 1
        else:
            self.opens(site, before)
            self.send(sent)

    def turn(self):
        what = self.draw(8)
        if what == 0:
            self.start()
        elif what <= 3:
            self.choose()
        elif self.messages:
            number = self.draw(len(self.messages))
            self.lines.append(f"deliver {number}")
            self.deliver(number)

    def run(self):
        for _ in range(TURNS):
            self.turn()
        self.lines.append("settle")
        number = 0
        while number < len(self.messages):
            if not self.delivered[number]:
                self.deliver(number)
            number += 1
        return self

    def schedule(self):
        return SPECIFICATION + "schedule\n" + "".join(line + "\n" for line in self.lines)

    def counts(self):
        return {
            "starts": self.starts,
            "choices": self.choices,
            "taken": self.taken,
            "messages": len(self.messages),
            "repeats": self.repeats,
        }


def run_program(program, words, text):
    return subprocess.run([program] + words, input=text.encode(), stdout=subprocess.PIPE, check=False).stdout


def compare(program, number):
    """Whether `trial` and `replay` of the program agree with these counts and with each other."""
    made = Trial(number).run()
    output = run_program(program, ["replay"], made.schedule())
    head, _, lines = output.rpartition(b"\nartifacts ")
    count, _, artifacts = lines.partition(b"\n")
    wanted = {"trial": number, **made.counts(), "artifacts": int(count or 0), "bytes": len(artifacts)}
    told = run_program(program, ["trial", str(number)], "").decode()
    if told == "".join(f"{name} {n}\n" for name, n in wanted.items()):
        return True
    print(f"trial {number}: wanted {wanted}, told {told!r}")
    return False


def main(words):
    if len(words) >= 3 and words[0] == "--compare":
        numbers = [int(word) for word in words[2:]]
        wrong = [number for number in numbers if not compare(words[1], number)]
        print(f"{len(numbers) - len(wrong)} of {len(numbers)} trials agree")
        return 1 if wrong else 0
    if len(words) == 2 and words[0] == "--counts":
        for name, count in Trial(int(words[1])).run().counts().items():
            print(name, count)
        return 0
    if len(words) == 1 and words[0].isdigit():
        sys.stdout.write(Trial(int(words[0])).run().schedule())
        return 0
    print(__doc__)
    return 2


if __name__ == "__main__":
    sys.exit(main(sys.argv[1:]))
