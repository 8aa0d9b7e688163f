"""Drawn specifications without faults of lines: dependences, circles, roles checked apart and waiting are read as the program reads them."""
from __future__ import annotations

import os
import random
from collections import Counter

import edits
from conftest import tool

from aw_forms.verdict import check_lines, read

NUMBER = int(os.environ.get("FORMS_DRAWN", "800"))


def specification(drawn: random.Random) -> str:
    """Some roles, sorts and rules whose values are wired at random, with lines `depends` and `free` now and then."""
    roles = ["r%d" % number for number in range(drawn.randint(1, 3))]
    sorts = [("s%d" % number, drawn.choice(roles), drawn.randint(0, 2), drawn.randint(0, 2)) for number in range(drawn.randint(2, 5))]
    lines = ["role %s" % role for role in roles] + ["con ok 0", "con box 1"]
    lines += ["sort %s %s %d %d" % sort for sort in sorts]
    lines += ["offer %s" % name for name, _, _, _ in sorts]
    lines += ["use %s %s" % (role, name) for role in roles for name, home, _, _ in sorts if home != role]
    positions = [(name, i, j) for name, _, takes, gives in sorts for i in range(1, takes + 1) for j in range(1, gives + 1)]
    if drawn.random() < 0.6:
        lines += ["depends %s %d %d" % position for position in positions if drawn.random() < 0.6]
    if drawn.random() < 0.6:
        lines.append("free")
    for number in range(drawn.randint(1, 7)):
        lines.append(rule(drawn, "a%d" % number, sorts))
    return "\n".join(lines) + "\n"


def rule(drawn: random.Random, name: str, sorts: list[tuple[str, str, int, int]]) -> str:
    """A rule with up to three subtasks."""
    sort, _, takes, gives = drawn.choice(sorts)
    below = [drawn.choice(sorts) for _ in range(drawn.randint(0, 3))]
    patterns, known = [], []
    for at in range(takes):
        known.append("p%d" % at)
        patterns.append(drawn.choice(["p%d", "p%d", "box(p%d)"]) % at)
        if drawn.random() < 0.15:
            known.pop()
            patterns[-1] = "ok"
    names = [["v%d_%d" % (at, number) for number in range(child[3])] for at, child in enumerate(below)]
    known += [name for some in names for name in some] * 2

    def term() -> str:
        """A term that uses a variable, or none."""
        word = drawn.choice(known) if known and drawn.random() < 0.8 else "ok"
        return "box(%s)" % word if drawn.random() < 0.3 else word

    children = ["%s(%s)<%s>" % (child[0], ", ".join(term() for _ in range(child[2])), ", ".join(some)) for child, some in zip(below, names)]
    left = "rule %s : %s(%s)<%s>" % (name, sort, ", ".join(patterns), ", ".join(term() for _ in range(gives)))
    return left + (" = " + " ; ".join(children) if children else "")


def test_drawn_specifications_are_read_alike() -> None:
    """All lines of `check`, and each kind of them comes often."""
    drawn, seen = random.Random(os.urandom(8) if os.environ.get("FORMS_RANDOM") == "1" else 63), Counter()
    for _ in range(NUMBER):
        text = specification(drawn)
        assert edits.difference(text.encode()) == ""
        seen.update(" ".join(word for word in line.split() if word in ("accepted", "io", "circular", "exceeds", "ok", "joined", "wait", "free", "circle"))
                    for line in check_lines(read(text)))
    assert all(seen[kind] > NUMBER // 100 for kind in ("accepted", "circular", "io", "exceeds", "ok", "joined", "wait free", "wait circle")), seen


def test_the_way_round_is_told() -> None:
    """Each step of a way round a circle begins where the one before ended, and the last ends where the first began."""
    drawn, told = random.Random(7), 0
    while told < 40:
        text = specification(drawn)
        done = tool("aw_explain", "-", data=text.encode())
        if not done.stdout.startswith("circular"):
            continue
        told += 1
        steps = [line.split("= ", 1)[1] for line in done.stdout.split("\n") if " = " in line and line.split("= ", 1)[1][:1].isdigit()]
        ends = [(step.split(". ", 1)[1].split(" goes into ")[0].split(" is called ")[0], step.split(" goes into ")[-1] if " is called " not in step else step.split("goes into ")[-1])
                for step in steps]
        ends = [(begin, end.split(", by ")[0]) for begin, end in ends]
        assert ends and all(before[1] == after[0] for before, after in zip(ends, ends[1:] + ends[:1])), done.stdout
