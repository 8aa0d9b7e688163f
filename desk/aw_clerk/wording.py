"""The words of a specification for people: names of offices, tasks, rules and values, and what its author wrote above a line."""
from __future__ import annotations

from collections import Counter
from dataclasses import dataclass, field
from datetime import datetime

from aw_forms.lines import RuleLine, Term
from aw_forms.specification import Specification, is_variable
from aw_forms.transcript import sort_of
from aw_forms.value_types import gives_of, takes_of
from aw_forms.verdict import read
from aw_forms.program import Sorry

from .tasks import REF, Task, steps_of
from .values import BLANK, MORE, TEXT, NUMBER, Value, readable

FAULTY = 65
Place = tuple[str, str, int]
ANSWERS = {
    "taken": "Done.",
    "known": "There is a case with this number already. Nothing was sent on; choose another number.",
    "unknown": "This task is not here any more, or not yet. Nothing was changed.",
    "developed": "Somebody has already decided this task. Nothing was changed.",
    "wrong rule": "This can't be done at such a task. Nothing was changed.",
    "arguments": "Not every field was filled in. Nothing was changed.",
    "deep": "This case has as many steps as a case can have; what ends it without a further task can still be chosen.",
    "bad name": "A field has a value of another kind than it takes. Nothing was changed.",
}


def human(name: str) -> str:
    """A name as people write it."""
    return name.replace("_", " ")


def titled(name: str) -> str:
    """A name at the front of a line."""
    words = human(name)
    return words[:1].upper() + words[1:]


@dataclass(slots=True)
class Wording:
    """What a specification declares, with the names that its rules give most often to the parts of values."""

    spec: Specification
    notes: dict[tuple[str, str], str]
    labels: dict[Place, str] = field(default_factory=dict)

    @property
    def constructors(self) -> list[str]:
        """All constructors, in the order of their declarations."""
        return list(self.spec.cons)

    def role_at(self, number: int) -> str:
        """The name of a role."""
        return list(self.spec.roles)[number]

    def sort(self, task: str) -> str:
        """The sort of a task, by its name."""
        return sort_of(self.spec, task)

    def home(self, task: str) -> str:
        """The role of a task, by its name."""
        sort = self.spec.sorts.get(self.sort(task))
        return sort.role.text if sort else "?"

    def sender(self, task: str) -> str:
        """The role from which a task came: that of the task above, or its own where it begins a case."""
        return self.home(task.rpartition("/")[0] or task)

    def rules(self, task: str) -> list[RuleLine]:
        """The rules of a task's sort, in order."""
        return self.spec.rules_of(self.sort(task))

    def note(self, form: str, name: str) -> str:
        """What stands as a comment above the line that declares a name."""
        return self.notes.get((form, name), "")

    def given(self, task: str, number: int) -> str:
        """The label of a value that a task was given, counted from 0."""
        return self.labels.get(("in", self.sort(task), number), "")

    def result(self, task: str, number: int) -> str:
        """The label of a result, counted from 0."""
        return self.labels.get(("out", self.sort(task), number), "")

    def part(self, constructor: str, number: int) -> str:
        """The label of a part of a value, counted from 0."""
        return self.labels.get(("con", constructor, number), "")

    def owner(self, reference: str) -> tuple[str, str]:
        """Who is to say what a reference is, and at which task: the office, and the task's name."""
        found = REF.fullmatch(reference)
        task = found[1] if found else reference
        return self.home(task), task

    def missing(self, reference: str) -> str:
        """A blank in words."""
        role, task = self.owner(reference)
        return "not there yet: %s owes it, at %s" % (human(role), self.task(task))

    def task(self, name: str) -> str:
        """A task in words: its sort, and its case."""
        parts = steps_of(name)
        if parts is None:
            return name
        return "%s, %s %d" % (human(self.sort(name)), human(parts[0]), parts[1]) if parts[2] else "%s %d" % (human(parts[0]), parts[1])

    def answer(self, said: str, task: str = "") -> str:
        """What a node answered, in a sentence."""
        first, _, more = said.partition(" ")
        if first == "waits":
            return "Not yet: this waits for what %s owes. Nothing was changed." % human(self.owner(more)[0])
        if first in ("mismatch", "circle"):
            return "This does not fit what the task was given. Nothing was changed."
        return ANSWERS.get(said, "The office answered: %s." % readable(said))

    def state(self, task: Task, rule: RuleLine) -> str:
        """Why a rule can't be chosen now, in words; nothing where it can."""
        said = task.states.get(rule.name.text, "ready")
        first, _, more = said.partition(" ")
        if first == "waits":
            role, owing = self.owner(more)
            return "Waits for %s (%s)." % (human(role), self.task(owing))
        if first == "mismatch":
            return self.mismatch(task, rule, [int(step) for step in more.split(".")])
        if first == "circle":
            return "Two values were said to be each other, which no office of good faith sends: tell whoever runs the offices."
        return "" if said == "ready" else ANSWERS.get(said, said)

    def mismatch(self, task: Task, rule: RuleLine, place: list[int]) -> str:
        """What a rule asks for, and what there is instead."""
        pattern, given = rule.patterns[place[0] - 1], task.values()[1]
        value = given[place[0] - 1] if place[0] <= len(given) else None
        label = self.given(task.name, place[0] - 1)
        for step in place[1:]:
            label = self.part(pattern.name, step - 1)
            pattern = (pattern.parts or [])[step - 1]
            value = value.parts[step - 1] if value is not None and step <= len(value.parts) else None
        there = short(value) if value is not None else "something else"
        return "Only where %s is %s; here it is %s." % (human(label) or "the value", wanted(pattern), there)


def short(value: Value) -> str:
    """A value in a few words."""
    if value.kind == TEXT:
        return "“%s”" % readable(value.word if len(value.word) <= 40 else value.word[:37] + "…")
    return "missing" if value.kind == BLANK else value.word if value.kind in (NUMBER, MORE) else human(value.word)


def wanted(pattern: Term) -> str:
    """What a pattern asks for at its front."""
    return "“%s”" % readable(pattern.name[1:-1]) if pattern.name.startswith('"') else human(pattern.name)


def notes_of(lines: list[str]) -> dict[tuple[str, str], str]:
    """The comments right above each line of a specification, by its first two words."""
    notes: dict[tuple[str, str], str] = {}
    above: list[str] = []
    for line in lines:
        bare = line.strip(" \t\r")
        if bare.startswith("%"):
            above.append(readable(bare.lstrip("% ")))
            continue
        words = bare.replace("{", " ").replace(":", " ").split()
        if above and len(words) > 1:
            notes.setdefault((words[0], words[1]), " ".join(word for word in above if not word.startswith("aw_lint:")))
        above = []
    return notes


class Labels:
    """Votes of a specification's rules on what each part of a constructor, each value and each result of a sort is called. Where the rules give no
    name of more than one letter it is called as its type, and where it has none as the subtask that it comes from."""

    def __init__(self, spec: Specification) -> None:
        self.spec = spec
        self.votes: dict[Place, Counter[str]] = {}
        self.subtasks: dict[Place, Counter[str]] = {}
        for rule in spec.rules.values():
            self.rule(rule)

    def rule(self, rule: RuleLine) -> None:
        """The votes of a rule: the names of its variables; of one of a single letter that stands for a subtask's only result, the name of the subtask."""
        names = {child.names[0].text: child.sort.text for child in rule.children if len(child.names) == 1 and len(child.names[0].text) == 1}
        self.terms(rule.patterns, "in", rule.sort.text, {})
        self.terms(rule.results, "out", rule.sort.text, names)
        for child in rule.children:
            self.terms(child.args, "in", child.sort.text, names)
            for at, name in enumerate(child.names):
                self.vote(("out", child.sort.text, at), name.text)

    def terms(self, terms: list[Term], form: str, sort: str, names: dict[str, str]) -> None:
        """The votes of the variables within some terms."""
        todo: list[tuple[Term, Place]] = [(term, (form, sort, at)) for at, term in enumerate(terms)]
        while todo:
            term, place = todo.pop()
            if is_variable(self.spec, term):
                self.vote(place, term.name)
                if term.name in names:
                    self.subtasks.setdefault(place, Counter())[names[term.name]] += 1
            todo += [(part, ("con", term.name, at)) for at, part in enumerate(term.parts or [])]

    def vote(self, place: Place, name: str) -> None:
        """One vote; a single letter says nothing."""
        if len(name) > 1:
            self.votes.setdefault(place, Counter())[name] += 1

    def types(self) -> dict[Place, str]:
        """The types of places, but for numbers and texts."""
        found: dict[Place, str] = {}
        for name, shape in self.spec.shapes.items():
            found.update({("con", name, at): part.text for at, part in enumerate(shape.parts)})
        for name in self.spec.carries:
            found.update({("in", name, at): kind for at, kind in enumerate(takes_of(self.spec, name))})
            found.update({("out", name, at): kind for at, kind in enumerate(gives_of(self.spec, name))})
        return {place: kind for place, kind in found.items() if kind in self.spec.types}

    def most(self) -> dict[Place, str]:
        """For each place the name that it has most often."""
        return {**oftenest(self.subtasks), **self.types(), **oftenest(self.votes)}


def oftenest(votes: dict[Place, Counter[str]]) -> dict[Place, str]:
    """For each place the name with the most votes."""
    return {place: names.most_common(1)[0][0] for place, names in votes.items()}


def wording(text: str, name: str) -> Wording:
    """The words of a specification; says the first fault where it has one."""
    reading = read(text)
    told = next((words for words, _ in reading.faults if not words.startswith("bad schedule")), None)
    if told is not None:
        raise Sorry("%s is no specification that the program accepts (%s); `aw_explain %s` shows where." % (name, told, name), FAULTY)
    return Wording(reading.spec, notes_of(reading.lines), Labels(reading.spec).most())


def same_names(one: Specification, other: Specification) -> bool:
    """Whether two specifications declare the same names in the same order, so that a choice means the same in both."""
    return all(list(getattr(one, kind)) == list(getattr(other, kind)) for kind in ("roles", "cons", "sorts", "rules", "starts"))


def moment(at: float) -> str:
    """A time in words."""
    then, now = datetime.fromtimestamp(at), datetime.now()
    return then.strftime("today %H:%M" if then.date() == now.date() else "%-d %B %Y, %H:%M")
