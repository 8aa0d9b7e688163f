"""The tasks of an office, as `aw_book tasks` writes them."""
from __future__ import annotations

import re
from dataclasses import dataclass, field

from .values import LARGEST, Value, groups_of

NODE = re.compile(r"([a-z][a-z0-9_]*)#(0|[1-9][0-9]{0,19})((?:/[a-z][a-z0-9_]*\.[1-8])*)")
REF = re.compile(r"(.*):([rp])(\d+)")


@dataclass(slots=True)
class Task:
    """A task: its name, the rule that was chosen or none, and how its rules stand while it is open. Its values are read when they are asked for."""

    name: str
    rule: str
    text: str
    states: dict[str, str] = field(default_factory=dict)

    @property
    def case(self) -> str:
        """The case that it belongs to."""
        return self.name.partition("/")[0]

    @property
    def is_open(self) -> bool:
        """Whether nobody has decided it yet."""
        return not self.rule

    @property
    def ready(self) -> list[str]:
        """The rules that can be chosen now."""
        return [rule for rule, state in self.states.items() if state == "ready"]

    def values(self) -> tuple[list[Value], list[Value], list[Value]]:
        """What was entered, what it was given, and what it gives back."""
        groups = groups_of(self.text)
        if self.is_open:
            groups.insert(0, [])
        return groups[0], groups[1], groups[2]


def steps_of(name: str) -> tuple[str, int, list[tuple[str, int]]] | None:
    """The sort, the number and the steps of a task's name; nothing where it is none."""
    found = NODE.fullmatch(name)
    if found is None or int(found[2]) > LARGEST:
        return None
    return found[1], int(found[2]), [(rule, int(child)) for rule, _, child in (step.partition(".") for step in found[3].split("/")[1:])]


def tasks_of(lines: list[str]) -> dict[str, Task]:
    """The tasks in some lines, by name: first a line for each task, then one for each rule of an open one."""
    found: dict[str, Task] = {}
    for line in lines:
        first, _, rest = line.partition(" ")
        if first == "item":
            name, rule, state = rest.split(" ", 2)
            if name in found:
                found[name].states[rule] = state
        else:
            rule, _, values = rest.partition(" ")
            found[first] = Task(first, "" if rule == "open" else rule, values)
    return found
