"""Choices of a schedule that were not taken: why, at their places."""
from __future__ import annotations

import re
from dataclasses import dataclass, field

from .lexing import node_parts
from .lines import ChooseEvent, RuleLine, StartEvent, Term
from .places import Fault, counted, listed
from .schedule import step_spans
from .specification import Specification
from .transcript import Task, role_of, sort_of, tasks_of
from .verdict import Reading

ANSWER = re.compile(r"(?:start|choose) \S+ \S+: (.*)")
REFERENCE = re.compile(r"(.*):([rp])(\d+)")


@dataclass(slots=True)
class Taken:
    """What was taken so far: where each case began and each task was decided, and by which rule."""

    starts: dict[str, StartEvent] = field(default_factory=dict)
    choices: dict[str, ChooseEvent] = field(default_factory=dict)


def not_taken(reading: Reading, output: str) -> list[tuple[str, Fault]]:
    """Each start and each choice that was not taken, by its line of the transcript, with its place and the reason."""
    if reading.schedule is None:
        return []
    events = [event for event in reading.schedule.events if isinstance(event, (StartEvent, ChooseEvent))]
    lines = [line for line in output.split("\n") if ANSWER.fullmatch(line)]
    tasks = {task.name: task for root in tasks_of(output) for task in every(root)}
    taken, found = Taken(), []
    for event, line in zip(events, lines):
        said = ANSWER.fullmatch(line)
        answer = said[1] if said else ""
        if answer == "taken":
            note(taken, event)
        elif isinstance(event, StartEvent):
            earlier = taken.starts.get("%s#%d" % (event.sort.text, event.case.number))
            found.append((line, Fault("known", event.case.span, "this case has begun already", ["give the case another number"]).beside(earlier.span if earlier else None, "it began here")))
        else:
            found.append((line, reason(reading.spec, taken, tasks, event, answer)))
    return found


def every(root: Task) -> list[Task]:
    """All tasks of a tree."""
    found, todo = [], [root]
    while todo:
        found.append(todo.pop())
        todo += found[-1].below
    return found


def note(taken: Taken, event: StartEvent | ChooseEvent) -> None:
    """Notes what was taken."""
    if isinstance(event, StartEvent):
        taken.starts.setdefault("%s#%d" % (event.sort.text, event.case.number), event)
    else:
        taken.choices.setdefault(event.node.text, event)


def reason(spec: Specification, taken: Taken, tasks: dict[str, Task], event: ChooseEvent, answer: str) -> Fault:
    """Why a choice was not taken."""
    kind, _, more = answer.partition(" ")
    rule = spec.rules[event.rule.text]
    match kind:
        case "unknown":
            return not_here(spec, taken, event)
        case "developed":
            earlier = taken.choices.get(event.node.text)
            return Fault("developed", event.node.span, "this task is decided already").beside(earlier.span if earlier else None, "it was decided here")
        case "wrong":
            sort = sort_of(spec, event.node.text)
            own = [other.name.text for other in spec.rules_of(sort)]
            return Fault("wrong rule", event.rule.span, "`%s` is a rule of `%s`, and the task is a `%s`" % (event.rule.text, rule.sort.text, sort),
                         ["the rules of a `%s` are %s" % (sort, listed(own))] if own else []).beside(rule.sort.span, "the sort of the rule")
        case "arguments":
            return arguments(rule, event)
        case "waits":
            return waits(spec, taken, event, rule, more)
        case "mismatch":
            return mismatch(tasks.get(event.node.text), event, rule, more)
    return Fault(kind, event.rule.span, "a task of 250 steps has no subtasks" if kind == "deep" else "this is answered `%s`" % answer)


def not_here(spec: Specification, taken: Taken, event: ChooseEvent) -> Fault:
    """Why a task is not at its role."""
    parts, spans = node_parts(event.node.text), step_spans(event.node)
    steps = parts[2] if parts else []
    for depth in range(len(steps)):
        above = "/".join(event.node.text.split("/")[:depth + 1])
        choice = taken.choices.get(above)
        if depth == 0 and above not in taken.starts:
            return Fault("unknown", spans[0], "the case `%s` has not begun" % above)
        if choice is None:
            return Fault("unknown", spans[depth + 1], "`%s` is not decided yet, so it has no subtasks" % above, ["choose `%s` there first" % steps[depth][0]])
        if choice.rule.text != steps[depth][0]:
            return Fault("unknown", spans[depth + 1], "`%s` was decided by `%s`, so there is no such task" % (above, choice.rule.text)).beside(choice.span, "it was decided here")
    if not steps and event.node.text not in taken.starts:
        return Fault("unknown", event.node.span, "the case `%s` has not begun" % event.node.text)
    return Fault("unknown", event.node.span, "the message that brings this task to %s has not been delivered" % role_of(spec, event.node.text), ["a line `settle` above delivers all messages"])


def arguments(rule: RuleLine, event: ChooseEvent) -> Fault:
    """Another number of values than the rule has fields."""
    have = event.args[0].span.to(event.args[-1].span) if event.args else event.rule.span
    words = "`%s` has %s, and %s entered" % (rule.name.text, counted(len(rule.params), "field"), "no value is" if not event.args else "one value is" if len(event.args) == 1 else "%d values are" % len(event.args))
    fields = rule.params[0].span.to(rule.params[-1].span) if rule.params else rule.name.span
    return Fault("arguments", have, words, ["write `{%s}`" % ", ".join(token.text.upper() for token in rule.params)] if rule.params else ["write no braces"]).beside(fields, "the fields" if rule.params else "it has none")


def waits(spec: Specification, taken: Taken, event: ChooseEvent, rule: RuleLine, reference: str) -> Fault:
    """The rule asks for a value that is not there yet."""
    named = REFERENCE.fullmatch(reference)
    fault = Fault("waits", event.rule.span, "`%s` asks for a value that is not there yet: %s" % (event.rule.text, reference))
    if rule.patterns:
        fault.beside(rule.patterns[0].span.to(rule.patterns[-1].span), "what it asks for")
    if named is None or named[2] == "p" or named[1] in taken.choices:
        return fault.with_help("it is on its way: a line `settle` above delivers all messages")
    sort = sort_of(spec, named[1])
    return fault.with_help("it is result %s of `%s`, a `%s` of %s, which is to be decided first" % (named[3], named[1], sort, role_of(spec, named[1])))


def mismatch(task: Task | None, event: ChooseEvent, rule: RuleLine, place: str) -> Fault:
    """A value that the rule does not fit."""
    number, *path = [int(step) for step in place.split(".")]
    pattern: Term = rule.patterns[number - 1]
    for step in path:
        pattern = (pattern.parts or [])[step - 1]
    given = " is `%s`, and" % task.given[number - 1] if task and number <= len(task.given) else ""
    words = "value %d of this task%s does not fit what `%s` asks for" % (number, given, event.rule.text)
    return Fault("mismatch", event.rule.span, words, ["it never will: choose another rule of `%s`" % rule.sort.text]).beside(pattern.span, "it asks for this")
