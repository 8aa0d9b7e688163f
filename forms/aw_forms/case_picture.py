"""Cases as trees of tasks: open tasks and blanks are marked, and what there is too much of is folded."""
from __future__ import annotations

import heapq

from .graph import Graph, marked, rows, strong
from .places import counted
from .specification import Specification
from .theme import shortened
from .transcript import BLANK, Task, role_of, sort_of

LONGEST = 44
DEEPEST = 12


def case_picture(spec: Specification, roots: list[Task], most: int) -> Graph:
    """The picture of some cases; at most so many tasks are shown, those that lead to open ones first."""
    shown = chosen(roots, most)
    graph = Graph(direction(roots, shown), "Cases as trees of tasks")
    for task in in_order(roots, shown):
        graph.node(task.name, rows(cells(spec, task)), "open" if task.is_open else "done", whole(task))
        for below in task.below:
            if id(below) in shown:
                graph.edge(task.name, below.name, "", "", below.name)
        fold(graph, task.name, [below for below in task.below if id(below) not in shown])
    fold(graph, "", [task for task in roots if id(task) not in shown])
    if not roots:
        graph.node("none", marked("no case has begun"), "fold")
    graph.aligned([task.name for task in roots if id(task) in shown] + ["fold "] * any(id(task) not in shown for task in roots))
    return graph


def chosen(roots: list[Task], most: int) -> set[int]:
    """Which tasks are shown: case by case those on the way to open tasks, the upper ones first, and then finished ones."""
    opened = open_counts(roots)
    waiting = sum(opened[id(task)] > 0 for task in roots)
    each = max(6, most // max(1, min(waiting or len(roots), 8)))
    heap = [(opened[id(task)] == 0, case, 0, case, task) for case, task in enumerate(roots)]
    heapq.heapify(heap)
    shown: set[int] = set()
    taken: dict[int, int] = {}
    number = len(heap)
    while heap and len(shown) < most:
        _, case, depth, _, task = heapq.heappop(heap)
        if taken.get(case, 0) >= each:
            continue
        taken[case] = taken.get(case, 0) + 1
        shown.add(id(task))
        for below in task.below if depth + 1 < DEEPEST or most > len(opened) else []:
            number += 1
            heapq.heappush(heap, (opened[id(below)] == 0, case, depth + 1, number, below))
    for task in in_order(roots, shown):
        hidden = [below for below in task.below if id(below) not in shown]
        if len(hidden) == 1 and not hidden[0].below:
            shown.add(id(hidden[0]))
    return shown


def direction(roots: list[Task], shown: set[int]) -> str:
    """Downwards where the picture is deep, to the right where it is wide: what does not fit is scrolled downwards."""
    levels, leaves = 1, 0
    todo = [(task, 1) for task in roots if id(task) in shown]
    while todo:
        task, level = todo.pop()
        below = [(other, level + 1) for other in task.below if id(other) in shown]
        levels, leaves = max(levels, level), leaves + (not below)
        todo += below
    return "TB" if leaves * 4 <= levels * 5 else "LR"


def open_counts(roots: list[Task]) -> dict[int, int]:
    """How many open tasks are in the tree of each task."""
    order = []
    todo = list(roots)
    while todo:
        task = todo.pop()
        order.append(task)
        todo += task.below
    found: dict[int, int] = {}
    for task in reversed(order):
        found[id(task)] = task.is_open + sum(found[id(below)] for below in task.below)
    return found


def in_order(roots: list[Task], shown: set[int]) -> list[Task]:
    """The shown tasks, those above before those below."""
    found, todo = [], list(reversed(roots))
    while todo:
        task = todo.pop()
        if id(task) in shown:
            found.append(task)
            todo += reversed(task.below)
    return found


def fold(graph: Graph, above: str, tasks: list[Task]) -> None:
    """One node for tasks that are not shown."""
    if not tasks:
        return
    every, opened = map(sum, zip(*(task.count() for task in tasks)))
    lines = [strong("… %s folded" % counted(*(len(tasks), "case") if not above else (every, "task")))]
    if not above:
        lines.append(marked("with %s" % counted(every, "task"), "soft"))
    lines.append(marked("%d open" % opened, "open_name") if opened else marked("all finished", "soft"))
    name = "fold " + above
    graph.node(name, rows(lines), "fold", ", ".join(task.name for task in tasks[:20]) + (", .." if len(tasks) > 20 else ""))
    if above:
        graph.edge(above, name, "", "", "", dashed=True)


def cells(spec: Specification, task: Task) -> list[str]:
    """The rows of a task: its rule, its name, what was entered, what it is given, what it gives back."""
    step = task.name.rpartition("/")[2]
    title = "open" if task.is_open else task.rule
    found = [marked(title, "open_name") if task.is_open else strong(title)]
    found.append("%s %s" % (marked(shortened(sort_of(spec, task.name), LONGEST)), marked("by %s, %s" % (role_of(spec, task.name), step if "/" in task.name else task.name), "soft")))
    fields = [token.text for token in spec.rules[task.rule].params] if task.rule in spec.rules else []
    found += [marked(name + " ", "soft") + value(text) for name, text in zip(fields, task.entered)]
    found += [marked("given ", "soft") + value(text) for text in task.given]
    found += [marked("result ", "soft") + value(text) for text in task.results]
    return found


def value(text: str) -> str:
    """A value, its blanks as boxes."""
    found, at, room = [], 0, LONGEST
    for blank in BLANK.finditer(text):
        before = text[at:blank.start()]
        if len(before) >= room:
            break
        found += [marked(before), marked("▢", "blank")] if before else [marked("▢", "blank")]
        room -= len(before) + 1
        at = blank.end()
    rest = shortened(BLANK.sub("▢", text[at:]), max(2, room))
    return "".join(found) + (marked(rest) if rest else "") or " "


def whole(task: Task) -> str:
    """All that is known of a task, for those who point at it."""
    title = "open" if task.is_open else "%s {%s}" % (task.rule, ", ".join(task.entered))
    return "%s %s (%s) <%s>" % (task.name, title, ", ".join(task.given), ", ".join(task.results))
