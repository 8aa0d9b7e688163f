"""Inputs that grow, and inputs at the limits. Each is a function of its size alone, so that every run measures the same
bytes.

An `Input` has the family that it belongs to, its size in the family's unit, the commands that are measured, the bytes,
and the status that the language calls for. Statuses are worked out by hand from docs/SCHEDULE.md and docs/LANGUAGE.md.
"""
from dataclasses import dataclass

INPUT_LIMIT = 16_777_216
LONGEST_NAME = 64

DONE, BAD_SPECIFICATION, CIRCULAR, BAD_SCHEDULE, TOO_LARGE, NO_MEMORY, TOO_LONG = 0, 3, 4, 5, 6, 10, 11


@dataclass
class Input:
    family: str
    size: int
    unit: str
    commands: tuple
    make: object
    status: int

    def data(self):
        return self.make()


BOTH = ("replay", "plain")
CHECK = ("check",)
REPLAY = ("replay",)
PLAIN = ("plain",)


def text(lines):
    return ("\n".join(lines) + "\n").encode()


def filled(head, line_of, limit=INPUT_LIMIT):
    """The head, and then as many of the lines 0, 1, 2 .. as the limit leaves room for."""
    pieces, room, number = [head], limit - len(head), 0
    while True:
        line = line_of(number)
        if len(line) > room:
            return b"".join(pieces)
        pieces.append(line)
        room -= len(line)
        number += 1


# Cases apart from each other.

VISITS = text(["role desk", "con memo 1", "sort visit desk 0 1", "start visit",
               "rule close {note} : visit()<memo(note)>", "schedule"])


def visit(case):
    return b"start visit %d\nchoose visit#%d close {%d}\n" % (case, case, case)


def visits(count):
    """A start and a choice for each of so many cases, in rising order."""
    return VISITS + b"".join(visit(case) for case in range(count))


def visits_to_the_limit():
    return filled(VISITS, visit)


def falling_starts(count):
    """Starts alone, each before all that are held."""
    return VISITS + b"".join(b"start visit %d\n" % (count - case) for case in range(count))


def starts_twice(count):
    """Starts, and then the same starts, which are known."""
    line = b"".join(b"start visit %d\n" % case for case in range(count))
    return VISITS + line + line


# Cases of two roles, whose messages are delivered one after the other.

CLINIC = ["role clinic", "role lab", "con blood 1", "con report 2", "con found 2", "con none 0", "sort visit clinic 0 1",
          "sort test lab 1 1", "start visit", "offer test", "use clinic test",
          "rule admit {who} : visit()<report(who, r)> = test(blood(who))<r>",
          "rule analyse {v} : test(blood(w))<found(w, v)>", "rule skip : test(x)<none>"]


def by_post(count, end="schedule"):
    """Visits that each send a test to the laboratory, and everything settled: six deliveries a visit, and two with loads."""
    lines = CLINIC + [end]
    for case in range(count):
        lines += ["start visit %d" % case, 'choose visit#%d admit {"Ada"}' % case]
    return text(lines + ["settle"])


def chains(count, steps=249, roles=8):
    """Cases whose task is handed on from role to role, so many steps deep, the post delivered after each step. What is entered first
    goes down, and what comes back up is made of it."""
    lines = ["role r%d" % k for k in range(roles)] + ["con top 1", "sort case r0 0 1"]
    lines += ["sort t%d r%d 1 1" % (k, k) for k in range(roles)] + ["start case"]
    lines += ["offer t%d" % k for k in range(roles)]
    lines += ["use r%d t%d" % (k, (k + 1) % roles) for k in range(roles)]
    lines += ["rule g {v} : case()<y> = t0(v)<y>"]
    for k in range(roles):
        lines += ["rule m%d : t%d(x)<y> = t%d(x)<y>" % (k, k, (k + 1) % roles), "rule e%d : t%d(x)<top(x)>" % (k, k)]
    lines += ["schedule"]
    for case in range(count):
        node = "case#%d/g.1" % case
        lines += ["start case %d" % case, 'choose case#%d g {"v"}' % case, "settle"]
        for step in range(steps - 1):
            lines += ["choose %s m%d" % (node, step % roles), "settle"]
            node += "/m%d.1" % (step % roles)
        lines += ["choose %s e%d" % (node, (steps - 1) % roles), "settle"]
    return text(lines)


VERDICTS = ["role front", "role judge", "role desk", "con granted 1", "con denied 0", "con paid 1", "con none 0",
            "sort case front 0 1", "sort verdict judge 0 1", "sort payment desk 1 1", "start case", "offer verdict",
            "offer payment", "use front verdict", "use front payment",
            "rule open : case()<p> = verdict()<v> ; payment(v)<p>", "rule grant {n} : verdict()<granted(n)>",
            "rule pay : payment(granted(n))<paid(n)>", "rule close : payment(denied)<none>", "schedule"]


def late_values(count):
    """Tasks with two rules that wait for a value which comes once all tasks are there."""
    lines = list(VERDICTS)
    for case in range(count):
        lines += ["start case %d" % case, "choose case#%d open" % case]
    lines += ["settle"] + ["choose case#%d/open.1 grant {%d}" % (case, case) for case in range(count)]
    lines += ["settle"] + ["choose case#%d/open.2 pay" % case for case in range(count)]
    return text(lines + ["settle"])


HANDED = ["role desk", "con ok 0", "sort case desk 0 1", "sort judge desk 0 1", "sort many desk 1 0", "sort wait desk 1 0", "start case",
          "rule open : case()<v> = judge()<v> ; many(v)<>", "rule hand : judge()<v> = judge()<v>", "rule say : judge()<ok>",
          "rule fork : many(v)<> = many(v)<> ; many(v)<>", "rule leaf : many(v)<> = wait(v)<>", "rule go : wait(ok)<>", "schedule",
          "start case 1", "choose case#1 open"]


def handed(tasks, times):
    """So many tasks that wait for one result, which is handed on, unchanged, so many times."""
    lines, waiting = list(HANDED), [("case#1/open.2", tasks)]
    while waiting:
        node, leaves = waiting.pop()
        if leaves == 1:
            lines.append("choose %s leaf" % node)
        else:
            lines.append("choose %s fork" % node)
            waiting += [(node + "/fork.2", leaves - leaves // 2), (node + "/fork.1", leaves // 2)]
    judge = "case#1/open.1"
    return text(lines + ["choose %s hand" % (judge + "/hand.1" * time) for time in range(times)])


# One case.

TREE = text(["role desk", "con leaf 0", "con pair 2", "sort task desk 0 1", "start task",
             "rule fork : task()<pair(a, b)> = task()<a> ; task()<b>",
             "rule stop : task()<leaf>", "schedule", "start task 1"])


def forks(count):
    """The choices that fork a task and those below it, level by level."""
    names, lines = ["task#1"], []
    for number in range(count):
        node = names[number]
        lines.append("choose %s fork" % node)
        names += [node + "/fork.1", node + "/fork.2"]
    return text(lines)


def tree(count):
    """A balanced tree of so many forks in one case, each fork before those below it."""
    return TREE + forks(count)


SILENT_TREE = text(["role desk", "sort task desk 0 0", "start task",
                    "rule fork : task()<> = task()<> ; task()<>", "schedule", "start task 1"])


def silent_tree(count):
    """The same tree where no task gives a result."""
    return SILENT_TREE + forks(count)


# Values.

def nested(depth, inside):
    """A written term: so many constructors of one part round a term."""
    return "c(" * depth + inside + ")" * depth


RELAY = text(["role desk", "con z 0", "con c 1", "sort top desk 0 1", "sort task desk 1 1", "start top",
              "rule go : top()<y> = task(z)<y>",
              "rule fork : task(x)<z1> = task(x)<y> ; task(y)<z1>",
              "rule grow : task(x)<%s>" % nested(31, "x"), "schedule", "start top 1", "choose top#1 go"])


def relay(count):
    """A value that passes through so many tasks, in each of which it gets 31 constructors deeper."""
    lines = []
    waiting = [("top#1/go.1", count)]
    while waiting:
        node, leaves = waiting.pop()
        if leaves == 1:
            lines.append("choose %s grow" % node)
        else:
            lines.append("choose %s fork" % node)
            waiting.append((node + "/fork.2", leaves - leaves // 2))
            waiting.append((node + "/fork.1", leaves // 2))
    return RELAY + text(lines)


DOUBLING = ["role desk", "con z 0", "con d 2", "sort s desk 0 1", "sort t desk 1 1", "start s",
            "rule go : s()<y> = t(z)<y>", "rule more : t(x)<y> = t(d(x, x))<y>", "rule end : t(x)<x>",
            "schedule", "start s 1", "choose s#1 go"]


def doubled(times):
    """A value without holes that is doubled so many times, and given back."""
    node, lines = "s#1/go.1", []
    for _ in range(times):
        lines.append("choose %s more" % node)
        node += "/more.1"
    lines.append("choose %s end" % node)
    return text(DOUBLING + lines)


HOLE_DOUBLING = ["role desk", "con z 0", "con d 2", "sort s desk 0 1", "sort t desk 1 1", "sort u desk 0 1", "start s",
                 "rule go : s()<y> = u()<h> ; t(h)<y>", "rule more : t(x)<y> = t(d(x, x))<y>",
                 "rule end : t(x)<z>", "rule late : u()<z>", "schedule", "start s 1", "choose s#1 go"]


def doubled_hole(times):
    """A result that is still missing, doubled so many times, and never given."""
    node, lines = "s#1/go.2", []
    for _ in range(times):
        lines.append("choose %s more" % node)
        node += "/more.1"
    return text(HOLE_DOUBLING + lines)


SELF_FED = text(["role desk", "con ok 0", "con c 1", "sort top desk 0 1", "sort s desk 8 8", "start top",
                 "rule go : top()<y1> = s(y2, y3, y4, y5, y6, y7, y8, ok)<y1, y2, y3, y4, y5, y6, y7, y8>",
                 "rule body : s(a, b, e, f, g, h, i, j)<c(a), c(b), c(e), c(f), c(g), c(h), c(i), ok>", "schedule"])


def self_fed(count):
    """So many nodes that are fed by seven of their own results each."""
    return SELF_FED + b"".join(
        b"start top %d\nchoose top#%d go\nchoose top#%d/go.1 body\n" % (case, case, case) for case in range(count))


TEXTS = text(["role desk", "con z 0", "con d 8", "sort s desk 0 1", "sort t desk 1 1", "start s",
              "rule go {a} : s()<y> = t(d(a, a, a, a, a, a, a, a))<y>", "rule end : t(x)<x>", "schedule"])


def long_texts(count):
    """So many cases with a text of 1,024 bytes that stands at eight places."""
    return TEXTS + b"".join(
        b'start s %d\nchoose s#%d go {"%s"}\nchoose s#%d/go.1 end\n' % (case, case, b"x" * 1024, case)
        for case in range(count))


# Worklists.

def lists(starts, repeats):
    """So many open tasks, and then so many worklists of them."""
    return VISITS + b"".join(b"start visit %d\n" % case for case in range(starts)) + b"list desk\n" * repeats


NO_RULES = text(["role desk", "sort visit desk 0 0", "start visit", "schedule"])


OTHER_RULES = text(["role desk", "sort visit desk 0 0", "sort call desk 0 0", "start visit"]
                   + ["rule q%d : call()<>" % number for number in range(1024)] + ["schedule"])


def empty_lists(starts, repeats, head=NO_RULES):
    """So many open tasks that no rule develops, and then so many worklists, which are empty."""
    return head + b"".join(b"start visit %d\n" % case for case in range(starts)) + b"list desk\n" * repeats


WIDEST_VALUE = "d(" + ", ".join(["d(%s)" % ", ".join(["z"] * 8)] * 8) + ")"
WIDEST_PATTERNS = ", ".join("d(%s)" % ", ".join("d(%s)" % ", ".join(["%s"] * 8) for _ in range(8)) for _ in range(3))


def widest_guard(last):
    """An open task of which the only rule has three patterns of 73 symbols, which fit, and the last symbol of the third
    of them is a variable or else a number, which does not."""
    patterns = WIDEST_PATTERNS % tuple(["z"] * 191 + [last])
    return text(["role r", "con z 0", "con d 8", "sort s r 0 0", "sort t r 3 0", "start s",
                 "rule go {a} : s()<> = t(a, a, a)<>", "rule wide : t(%s)<>" % patterns, "schedule", "start s 1",
                 "choose s#1 go {%s}" % WIDEST_VALUE])


def widest_lists(repeats):
    """So many worklists of one task, whose item is ready."""
    return widest_guard("x") + b"list r\n" * repeats


def widest_mismatches(repeats):
    """So many choices that differ at the last symbol."""
    return widest_guard("7") + b"choose s#1/go.1 wide\n" * repeats


DEEP_HOLES = ["role r", "con d 8", "sort s r 0 0", "sort t r 8 0", "sort u r 0 8", "start s",
              "rule n : s()<> = s()<>", "rule w : s()<> = " + " ; ".join(["s()<>"] * 8),
              "rule f : s()<> = u()<a, b, e, f, g, h, i, j> ; " + " ; ".join(
                  "t(%s)<>" % ", ".join(["d(a, b, e, f, g, h, i, j)"] * count + ["0"] * (8 - count))
                  for count in (8, 8, 8, 4)), "schedule", "start s 1"]


def deep_holes(count, fans=4):
    """So many choices some 210 steps down, each of which hands 224 missing results to its children."""
    node, lines = "s#1", []
    for _ in range(206):
        lines.append("choose %s n" % node)
        node += "/n.1"
    level = [node]
    for _ in range(fans):
        lines += ["choose %s w" % above for above in level]
        level = ["%s/w.%d" % (above, child) for above in level for child in range(1, 9)]
    lines += ["choose %s f" % leaf for leaf in level[:count]]
    return text(DEEP_HOLES + lines)


# Names of nodes.

def chain_of_steps(steps, rule, count):
    """So many choices on a node of so many steps which is not held."""
    head = text(["role desk", "sort task desk 0 0", "start task", "rule %s : task()<> = task()<>" % rule, "schedule"])
    line = ("choose task#1" + ("/%s.1" % rule) * steps + " %s\n" % rule).encode()
    return head + line * count


def deepest_case(last):
    """A case that is developed to 250 steps, and then a choice on its last node: with a child, or with none."""
    head = text(["role desk", "sort task desk 0 0", "start task", "rule more : task()<> = task()<>",
                 "rule stop : task()<>", "schedule", "start task 0"])
    lines, node = [], "task#0"
    for _ in range(250):
        lines.append("choose %s more" % node)
        node += "/more.1"
    lines.append("choose %s %s" % (node, last))
    return head + text(lines)


# Specifications.

def longest(letter, number):
    """A name of 64 bytes."""
    return letter + str(number).rjust(LONGEST_NAME - 1, "_")


def short(letter, number):
    """A short name."""
    return "%s%d" % (letter, number)


def declarations(name):
    """64 roles, 1,024 constructors, 256 sorts, and all offers and uses. The names are made by `name`."""
    roles = [name("r", number) for number in range(64)]
    sorts = [name("s", number) for number in range(256)]
    lines = ["role " + role for role in roles]
    lines += ["con %s %d" % (name("c", number), 1 if number == 0 else 8) for number in range(1024)]
    lines += ["sort %s %s 8 6" % (sort, roles[number % 64]) for number, sort in enumerate(sorts)]
    lines += ["offer " + sort for sort in sorts]
    lines += ["use %s %s" % (role, sort) for role in roles for sort in sorts]
    return text(lines)


def widest_rule(name, number):
    """A rule of 256 symbols and 64 variables: 8 patterns, 8 parameters, and 8 children with 6 results each. The symbols
    are 8 in the patterns, 8 in the arguments of each child, and 184 in the results."""
    patterns = [name("x", i) for i in range(8)]
    params = ", ".join(name("p", i) for i in range(8))
    children = []
    for child in range(8):
        args = [patterns[(i + child) % 8] for i in range(8)]
        names = [name("y", 6 * child + i) for i in range(6)]
        children.append("%s(%s)<%s>" % (name("s", (number + 1 + child) % 256), ", ".join(args), ", ".join(names)))
    inside = "%s(%s)" % (name("c", 1 + number % 1023), params)
    around = name("c", 0) + "("
    results = [around * depth + inside + ")" * depth for depth in (20, 22, 22, 22, 22, 22)]
    return "rule %s {%s} : %s(%s)<%s> = %s\n" % (name("q", number), params, name("s", number % 256),
                                                ", ".join(patterns), ", ".join(results), " ; ".join(children))


def at_all_limits(name, rules):
    """A specification at its limits, with so many rules."""
    return declarations(name) + b"".join(widest_rule(name, number).encode() for number in range(rules))


def longest_names():
    """The same with names of 64 bytes, and as many rules as the limit of the input leaves room for."""
    return filled(declarations(longest), lambda number: widest_rule(longest, number).encode())


def ring(sorts, sinks, fault):
    """Relations that grow by one pair at a time: a ring of sorts, each of whose rules takes over the pairs of the next
    sort, and the last of which turns them, seven ways at the inherited values and eight at the results. So many other
    rules have seven children and give nothing; the last of them is circular, if `fault`."""
    values = range(1, 9)
    lines = ["role r"]
    lines += ["sort s%d r 8 8" % number for number in range(sorts)] + ["sort w r 8 0"]
    patterns = ", ".join("x%d" % i for i in values)
    lines.append("rule seed : s0(%s)<%s>" % (patterns, ", ".join(["x1"] + ["0"] * 7)))
    for number in range(sorts):
        if number == 0:
            args = [i % 7 + 1 if i < 8 else 8 for i in values]
            results = [j % 8 + 1 for j in values]
        else:
            args = results = list(values)
        lines.append("rule t%d : s%d(%s)<%s> = s%d(%s)<%s>" % (
            number, number, patterns, ", ".join("y%d" % j for j in results), (number - 1) % sorts,
            ", ".join("x%d" % i for i in args), ", ".join("y%d" % j for j in values)))
    for number in range(sinks):
        lines.append(sink(number, sorts, patterns, fault and number == sinks - 1))
    return text(lines)


def sink(number, sorts, patterns, fault):
    """Seven children, each of which takes the results of the one behind it."""
    children = []
    for child in range(7):
        behind = 0 if fault and child == 6 else child + 1
        args = ["x%d" % i if behind == 7 else "y%d_%d" % (behind, i) for i in range(1, 9)]
        names = ["y%d_%d" % (child, j) for j in range(1, 9)]
        children.append("s%d(%s)<%s>" % ((number * 7 + child) % sorts, ", ".join(args), ", ".join(names)))
    return "rule u%d : w(%s)<> = %s" % (number, patterns, " ; ".join(children))


# Bytes.

def one_line(begin, piece, end):
    """A line that fills the input: a beginning, pieces, and an end."""
    count = (INPUT_LIMIT - len(begin) - len(end)) // len(piece)
    return begin + piece * count + end


def one_list_of_terms():
    """A rule line whose only list has millions of terms."""
    return one_line(b"rule r : t(", b"a,", b"a)<>")


def deep_term(depth, closed):
    """A written term of a depth, whose parentheses are closed or not."""
    return b"con c 1\nrule r : t(" + b"c(" * depth + b"x" + (b")" * depth if closed else b"") + b")<>\n"


def deep_argument(depth):
    """An argument of a depth, in a schedule."""
    head = text(["role r", "con c 1", "con z 0", "sort t r 0 0", "start t", "rule g {x} : t()<>", "schedule"])
    return head + b"choose t#1 g {" + b"c(" * depth + b"z" + b")" * depth + b"}\n"


def lines_of(line):
    return line * (INPUT_LIMIT // len(line))


def schedule_of(line):
    """A schedule of one line again and again, up to the limit."""
    return VISITS + line * ((INPUT_LIMIT - len(VISITS)) // len(line))


LONG_NAMES = text(["role r", "sort %s r 0 0" % ("s" * 64), "start %s" % ("s" * 64),
                   "rule %s : %s()<>" % ("q" * 64, "s" * 64), "schedule"])


def long_names():
    """Starts and choices whose names are as long as they may be."""
    sort, rule = b"s" * 64, b"q" * 64
    return filled(LONG_NAMES, lambda case: b"start %s %d\nchoose %s#%d %s\n" % (sort, case, sort, case, rule))


def growing_cases():
    for count in (1_000, 10_000, 30_000, 100_000):
        yield Input("starts with a choice each", count, "cases", BOTH, lambda count=count: visits(count), DONE)
    yield Input("starts with a choice each", 0, "cases, 16 MiB", BOTH, visits_to_the_limit, DONE)
    for count in (1_000, 10_000, 30_000, 100_000):
        yield Input("visits whose tests go by post", count, "cases", REPLAY, lambda count=count: by_post(count), DONE)
    for count in (10_000, 30_000, 100_000):
        yield Input("the same with loads", count, "cases", REPLAY, lambda count=count: by_post(count, "schedule 2"), DONE)
    for count in (1, 3, 10):
        yield Input("chains of 250 steps over eight roles", count, "cases", REPLAY, lambda count=count: chains(count), DONE)
    for count in (1_000, 10_000, 30_000):
        yield Input("rules that wait for a late value", count, "cases", REPLAY, lambda count=count: late_values(count), DONE)
    for count in (1_000, 3_000, 10_000, 30_000):
        yield Input("starts in falling order", count, "cases", REPLAY, lambda count=count: falling_starts(count), DONE)
    for count in (10_000, 100_000):
        yield Input("starts, each twice", count, "cases", REPLAY, lambda count=count: starts_twice(count), DONE)
    for count in (100, 300, 1_000):
        yield Input("one case, each task gives a result", count, "forks", REPLAY, lambda count=count: tree(count), DONE)
    for count in (1_000, 10_000, 30_000):
        yield Input("one case without results", count, "forks", REPLAY, lambda count=count: silent_tree(count), DONE)


def growing_values():
    for count, status in ((10, DONE), (100, DONE), (300, DONE), (1_000, TOO_LARGE)):
        yield Input("a value 31 deeper in each task", count, "tasks", REPLAY, lambda count=count: relay(count), status)
    for times, status in ((10, DONE), (16, DONE), (40, TOO_LARGE), (200, TOO_LARGE)):
        yield Input("a value doubled", times, "times", BOTH, lambda times=times: doubled(times), status)
    for times, status in ((10, DONE), (14, DONE), (18, DONE), (22, TOO_LARGE), (40, TOO_LARGE), (200, TOO_LARGE)):
        yield Input("a missing value doubled", times, "times", REPLAY, lambda times=times: doubled_hole(times), status)
    for count in (1_000, 10_000, 100_000):
        yield Input("nodes fed by their own results", count, "cases", REPLAY, lambda count=count: self_fed(count), DONE)
    for count in (100, 1_000, 2_500):
        yield Input("texts of 1,024 bytes at eight places", count, "cases", REPLAY,
                    lambda count=count: long_texts(count), DONE)


def growing_lists():
    for repeats in (1, 10, 30):
        yield Input("worklists of 10,000 tasks", repeats, "lists", REPLAY,
                    lambda repeats=repeats: lists(10_000, repeats), DONE)
    yield Input("worklists of 10,000 tasks", 10_000, "lists", REPLAY, lambda: lists(10_000, 10_000), TOO_LARGE)
    for repeats in (100, 1_000, 10_000):
        yield Input("empty worklists of 10,000 tasks", repeats, "lists", REPLAY,
                    lambda repeats=repeats: empty_lists(10_000, repeats), DONE)
    for repeats in (10, 100):
        yield Input("the same beside 1,024 rules of another sort", repeats, "lists", REPLAY,
                    lambda repeats=repeats: empty_lists(10_000, repeats, OTHER_RULES), DONE)
    for repeats in (1_000, 10_000, 100_000):
        yield Input("worklists of one task with 219 symbols in its patterns", repeats, "lists", REPLAY,
                    lambda repeats=repeats: widest_lists(repeats), DONE)
    for repeats in (1_000, 10_000, 100_000):
        yield Input("choices that differ at the last of 219 symbols", repeats, "choices", PLAIN,
                    lambda repeats=repeats: widest_mismatches(repeats), DONE)
    for count, status in ((100, DONE), (1_000, TOO_LARGE), (4_000, TOO_LARGE)):
        yield Input("missing results handed down deep in a case", count, "choices", REPLAY,
                    lambda count=count: deep_holes(count), status)


def growing():
    """Inputs that grow in size."""
    yield from growing_cases()
    yield from growing_values()
    yield from growing_lists()


def at_limits():
    """Specifications, and names of nodes, at their limits."""
    for rules in (256, 512, 1024):
        yield Input("a specification at all limits", rules, "rules", CHECK,
                    lambda rules=rules: at_all_limits(short, rules), DONE)
    yield Input("the same in the longest names", INPUT_LIMIT, "bytes", CHECK, longest_names, DONE)
    for sorts, sinks in ((16, 64), (32, 128), (64, 256), (128, 512), (255, 768)):
        yield Input("relations that grow pair by pair", sorts + sinks + 1, "rules", CHECK,
                    lambda sorts=sorts, sinks=sinks: ring(sorts, sinks, False), DONE)
    yield Input("the same, the last rule circular", 1024, "rules", CHECK, lambda: ring(255, 768, True), CIRCULAR)
    for count in (100, 1_000):
        yield Input("choices on a name of 250 steps", count, "lines", REPLAY,
                    lambda count=count: chain_of_steps(250, "q" * 60, count), DONE)
    yield Input("a choice on a name of 251 steps", 1, "line", REPLAY,
                lambda: chain_of_steps(251, "q" * 60, 1), BAD_SCHEDULE)
    yield Input("a case of 250 steps, then one with a child", 250, "steps", BOTH, lambda: deepest_case("more"), DONE)
    yield Input("a case of 250 steps, then one without", 250, "steps", BOTH, lambda: deepest_case("stop"), DONE)


def filling_tokens():
    size = INPUT_LIMIT
    yield Input("16 MiB: one name", size, "bytes", CHECK, lambda: b"a" * size, BAD_SPECIFICATION)
    yield Input("16 MiB: one number", size, "bytes", CHECK, lambda: b"1" * size, BAD_SPECIFICATION)
    yield Input("16 MiB: one text", size, "bytes", CHECK, lambda: one_line(b'"', b"x", b'"'), BAD_SPECIFICATION)
    yield Input("16 MiB: one text that is not closed", size, "bytes", CHECK, lambda: one_line(b'"', b"x", b""),
                BAD_SPECIFICATION)
    yield Input("16 MiB: one name of a node", size, "bytes", CHECK, lambda: one_line(b"a#1", b"/b.1", b""),
                BAD_SPECIFICATION)
    yield Input("16 MiB: a choice on one name of a node", size, "bytes", REPLAY,
                lambda: one_line(VISITS + b"choose visit#1", b"/b.1", b" close"),
                BAD_SCHEDULE)
    yield Input("16 MiB: one comment", size, "bytes", CHECK, lambda: one_line(b"%", b"x", b""), DONE)
    yield Input("16 MiB: one line of blanks", size, "bytes", CHECK, lambda: b" " * size, DONE)
    yield Input("16 MiB: one line of marks", size, "bytes", CHECK, lambda: b"(" * size, BAD_SPECIFICATION)
    yield Input("16 MiB: one line of names", size, "bytes", CHECK, lambda: b"a " * (size // 2), BAD_SPECIFICATION)


def filling_lines():
    size = INPUT_LIMIT
    yield Input("16 MiB: one list of terms", size, "bytes", CHECK, one_list_of_terms, BAD_SPECIFICATION)
    yield Input("16 MiB: empty lines", size, "lines", BOTH, lambda: b"\n" * size, DONE)
    yield Input("16 MiB: empty lines of a schedule", size, "bytes", REPLAY, lambda: schedule_of(b"\n"), DONE)
    yield Input("16 MiB: comments", size, "bytes", CHECK, lambda: lines_of(b"%\n"), DONE)
    yield Input("16 MiB: the longest names", size, "bytes", REPLAY, long_names, DONE)
    yield Input("16 MiB: settle lines", size, "bytes", REPLAY, lambda: schedule_of(b"settle\n"), DONE)
    yield Input("16 MiB: deliver lines", size, "bytes", REPLAY, lambda: schedule_of(b"deliver 7\n"), DONE)
    yield Input("16 MiB: list lines", size, "bytes", REPLAY, lambda: schedule_of(b"list desk\n"), DONE)
    yield Input("16 MiB: zeros", size, "bytes", CHECK, lambda: b"\0" * size, BAD_SPECIFICATION)
    yield Input("16 MiB and a byte", size + 1, "bytes", CHECK, lambda: b"\n" * (size + 1), TOO_LONG)


def deep_terms():
    for depth in (10_000, 100_000, 1_000_000, 5_500_000):
        yield Input("a written term", depth, "deep", CHECK, lambda depth=depth: deep_term(depth, True),
                    BAD_SPECIFICATION)
    yield Input("a written term that is not closed", 8_000_000, "deep", CHECK, lambda: deep_term(8_000_000, False),
                BAD_SPECIFICATION)
    yield Input("a written argument", 1_000_000, "deep", REPLAY, lambda: deep_argument(1_000_000), BAD_SCHEDULE)


def filling():
    """Inputs of 16 MiB, or nearly."""
    yield from filling_tokens()
    yield from filling_lines()
    yield from deep_terms()


def slow():
    """Larger ones of the kinds that grow fast, or that take much memory."""
    yield Input("starts in falling order", 100_000, "cases", REPLAY, lambda: falling_starts(100_000), DONE)
    yield Input("one case, each task gives a result", 3_000, "forks", REPLAY, lambda: tree(3_000), DONE)
    yield Input("one case without results", 100_000, "forks", REPLAY, lambda: silent_tree(100_000), DONE)
    yield Input("a missing value doubled", 22, "times", REPLAY, lambda: doubled_hole(22), TOO_LARGE)
    yield Input("a missing value doubled", 40, "times", REPLAY, lambda: doubled_hole(40), TOO_LARGE)
    yield Input("empty worklists of 10,000 tasks", 100_000, "lists", REPLAY, lambda: empty_lists(10_000, 100_000), DONE)
    yield Input("the same beside 1,024 rules of another sort", 1_000, "lists", REPLAY,
                lambda: empty_lists(10_000, 1_000, OTHER_RULES), DONE)
    yield Input("missing results handed down deep in a case", 14_000, "choices", REPLAY,
                lambda: deep_holes(14_000, 5), TOO_LARGE)
