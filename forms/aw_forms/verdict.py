"""Reads a whole input as the program does, and says what it will write: for places and pictures only. What the program writes decides."""
from __future__ import annotations

import re
from collections.abc import Iterator
from dataclasses import dataclass, field

from .dependences import Edge, circle_fault, dependences, first_circle, role_answer, waiting
from .lexing import is_passed_over, lines_of
from .line_faults import faults as line_faults
from .lines import Line, RuleLine, ScheduleLine
from .places import Fault
from .reading import schedule_line, specification_line
from .schedule import Schedule
from .schedule import faults as event_faults
from .specification import Specification, declare
from .value_types import type_fault

DECLARED = re.compile(r"[ \t\r]*(?:role|con|sort|type|rule)[ \t]+([A-Za-z0-9_-]+)")


@dataclass(slots=True)
class Reading:
    """What an input declares, and its faults in the order of their lines: the first words of each is what the program writes."""

    lines: list[str]
    spec: Specification
    schedule: Schedule | None = None
    schedule_at: int = 0
    faults: list[tuple[str, Fault]] = field(default_factory=list)
    unsure: set[str] = field(default_factory=set)

    def first(self, faults: Iterator[Fault]) -> Fault | None:
        """The first of the faults of a line; one at a name whose own line is faulty is passed over."""
        return next((fault for fault in faults if self.lines[fault.span.line - 1][fault.span.start:fault.span.end].split("(")[0] not in self.unsure), None)

    def add(self, part: str, number: int, fault: Fault) -> None:
        """Adds a fault of a line; what the line would have declared is unsure from there on."""
        self.faults.append(("bad %s line %d %s" % (part, number, fault.kind), fault))
        declared = DECLARED.match(self.lines[number - 1])
        if declared and part == "specification":
            self.unsure.add(declared[1].lower().replace("-", "_"))


def read(text: str, go_on: bool = False) -> Reading:
    """Reads an input up to its first fault, or, where it is to go on, up to its end."""
    lines = lines_of(text)
    reading = Reading(lines, Specification(lines))
    if not read_specification(reading, go_on):
        return reading
    whole_fault(reading)
    if reading.schedule is not None and (go_on or not reading.faults):
        read_schedule(reading, go_on)
    return reading


def read_specification(reading: Reading, go_on: bool) -> bool:
    """Reads the lines of the specification; whether the whole is to be looked at."""
    for number, line in enumerate(reading.lines, 1):
        if is_passed_over(line):
            continue
        try:
            found: Line = specification_line(line, number)
        except Fault as fault:
            reading.add("specification", number, fault)
            found = Line([])
        if isinstance(found, ScheduleLine):
            reading.schedule, reading.schedule_at = Schedule(found.loads), number
            break
        if found.tokens:
            told = reading.first(line_faults(reading.spec, found))
            if told is not None:
                reading.add("specification", number, told)
            declare(reading.spec, found)
        if reading.faults and not go_on:
            return False
    return not reading.faults or go_on


def whole_fault(reading: Reading) -> None:
    """Adds the first fault of types, and else the first circle, where each line is good."""
    if reading.faults:
        return
    spec = reading.spec
    typed = type_fault(spec)
    if typed is not None:
        reading.faults.append(typed)
        return
    circle = first_circle(spec, spec.rules.values(), dependences(spec))
    if circle is not None:
        reading.faults.append(("circular %s at %s" % (circle[0].name.text, circle[1][0].begin), circle_fault(spec, *circle, "circular")))


def read_schedule(reading: Reading, go_on: bool) -> None:
    """Reads the events of the schedule."""
    for number in range(reading.schedule_at + 1, len(reading.lines) + 1):
        line = reading.lines[number - 1]
        if is_passed_over(line):
            continue
        try:
            event = schedule_line(line, number)
            told = reading.first(event_faults(reading.spec, event))
            if told is not None:
                raise told
            if reading.schedule is not None:
                reading.schedule.events.append(event)
        except Fault as fault:
            reading.add("schedule", number, fault)
            if not go_on:
                return


def check_lines(reading: Reading) -> list[str]:
    """What `check` writes of an input."""
    first = next((words for words, fault in reading.faults if not words.startswith("bad schedule")), None)
    if first is not None:
        return [first]
    spec = reading.spec
    relation = dependences(spec)
    lines = ["accepted"] + ["io %s %d %d" % (sort, *pair) for sort in spec.sorts for pair in sorted(relation.get(sort, {}))]
    if spec.depends:
        roles = [role_answer(spec, role)[0] for role in spec.roles]
        lines += roles + (["joined"] if all(line.endswith(" ok") for line in roles) else [])
    if spec.free is not None:
        circle = wait_circle(spec)
        lines.append("wait circle %s at %s" % (circle[0].name.text, circle[1][0].begin) if circle else "wait free")
    return lines


def wait_circle(spec: Specification) -> tuple[RuleLine, list[Edge]] | None:
    """A rule in which a task may wait for itself, with the way round."""
    return first_circle(spec, spec.rules.values(), waiting(spec))


def warnings(reading: Reading) -> list[tuple[str, Fault]]:
    """What `check` tells of an accepted specification that is no fault and yet to be looked at, by its line."""
    spec, found = reading.spec, []
    for role in spec.roles if spec.depends else []:
        line, rule, steps, excess = role_answer(spec, role)
        if rule is not None:
            found.append((line, circle_fault(spec, rule, steps, "role circular")))
        if excess is not None:
            sort, i, j = excess
            fault = Fault("role exceeds", spec.sorts[sort].name.span, "result %d of `%s` depends on value %d, and no line `depends` says so to the other roles" % (j, sort, i))
            found.append((line, fault.with_help(spec.where_to_add("depends %s %d %d" % (sort, i, j)))))
    circle = wait_circle(spec) if spec.free is not None else None
    if circle is not None:
        found.append(("wait circle %s at %s" % (circle[0].name.text, circle[1][0].begin), circle_fault(spec, *circle, "wait circle")))
    return found

