"""The desk of one office: its tasks as the book has them, and choices sent to its node."""
from __future__ import annotations

import logging
from collections.abc import Callable
from dataclasses import dataclass
from pathlib import Path

from aw_forms.command import read_file
from aw_forms.lines import RuleLine
from aw_forms.program import Sorry
from aw_offices.addresses import Address, standard
from aw_offices.spread import Spread

from . import book
from .book import Follower, NotSaid
from .node import Closed, Office, Unsure
from .records import UNSURE, Records
from .tasks import Task, steps_of, tasks_of
from .values import Unfit, Value
from .whole import Journals
from .wording import FAULTY, Wording, same_names, titled, wording

LOG = logging.getLogger("aw_desk")
LOG.addHandler(logging.NullHandler())
CLOSED = "The office is closed. Nothing was sent; try again later."
DECIDED = ("developed", "unknown", "known")
BROKEN = "The office broke off while it was asked, so it is not known whether this was done. Look at the task again before you repeat it."


@dataclass(frozen=True, slots=True)
class Said:
    """What came of a choice: a sentence, whether it was done, and whether the same may be sent again."""

    words: str
    done: bool
    again: bool = False


class Desk:
    """An office's journal, node and notes. All that is shown comes from the book; all that is done is sent to the node."""

    def __init__(self, specification: str, journal: str, state: Path, address: Address | None, journals: Journals, spread: Spread = Spread()) -> None:
        self.wording: Wording = wording(read_file(specification).decode("utf-8", "surrogateescape"), specification)
        self.journal, self.journals, self.spread = journal, journals, spread
        self.role = self.checked(specification)
        self.office = Office(address or standard(list(self.wording.spec.roles).index(self.role)), self.wording)
        self.open_tasks = Follower(["tasks", "--open", journal])
        self.records = Records(state / "desk.sqlite")

    def checked(self, specification: str) -> str:
        """The role of the journal, whose specification has the same names as the desk's."""
        try:
            head = "\n".join(book.said("spec", self.journal)) + "\n"
            line = book.said("check", self.journal)[0].split()
        except NotSaid as error:
            raise Sorry("%s is no journal that can be shown (%s). Start the office's node first; it begins its journal." % (self.journal, error), FAULTY) from None
        if not same_names(wording(head, "the head of %s" % self.journal).spec, self.wording.spec):
            raise Sorry("%s is the journal of another specification than %s; give the desk the one that the node was started with." % (self.journal, specification), FAULTY)
        return line[1]

    def close(self) -> None:
        """Ends what goes on."""
        self.open_tasks.end()
        self.records.close()

    def open(self) -> dict[str, Task]:
        """The open tasks, by name."""
        found = tasks_of(self.open_tasks.lines())
        self.records.see(found)
        return found

    def case(self, case: str) -> dict[str, Task]:
        """The tasks of one case at this office, decided ones too."""
        return tasks_of(book.said("tasks", "--case", case, self.journal)) if self.is_case(case) else {}

    def is_case(self, case: str) -> bool:
        """Whether a word names a case, of a sort that is declared."""
        steps = steps_of(case)
        return steps is not None and not steps[2] and steps[0] in self.wording.spec.sorts

    def task(self, name: str) -> Task | None:
        """A task, open or decided."""
        if steps_of(name) is None:
            return None
        return self.open().get(name) or self.case(name.partition("/")[0]).get(name)

    def starts(self) -> list[str]:
        """The sorts with which a case can be begun here."""
        return [sort for sort in self.wording.spec.starts if self.wording.spec.role_of(sort) == self.role]

    def rule(self, task: Task, name: str) -> RuleLine | None:
        """A rule of a task's sort."""
        return next((rule for rule in self.wording.rules(task.name) if rule.name.text == name), None)

    def choose(self, clerk: str, task: Task, rule: RuleLine, entered: list[Value]) -> Said:
        """Chooses a rule, and notes who did."""
        words = "{%s}" % ", ".join(value.words() for value in entered) if entered else ""
        return self.sent(clerk, task.name, rule.name.text, words, lambda: self.office.choose(task.name, rule.name.text, entered))

    def start(self, clerk: str, sort: str, number: int) -> Said:
        """Begins a case, and notes who did; one that lies in another system is not begun here."""
        elsewhere = self.spread.elsewhere(number)
        if elsewhere:
            return Said("%s Nothing was sent." % elsewhere, False)
        return self.sent(clerk, "%s#%d" % (sort, number), "", "", lambda: self.office.start(sort, number))

    def sent(self, clerk: str, task: str, rule: str, words: str, send: Callable[[], str]) -> Said:
        """Sends a choice, and notes what came of it."""
        try:
            answer = send()
        except Closed as closed:
            LOG.warning("%s; nothing was sent", closed)
            return Said(CLOSED, False, True)
        except Unsure as unsure:
            LOG.warning("%s at %s", unsure, task)
            self.records.decide(clerk, task, rule, words, UNSURE)
            return Said(BROKEN, False)
        except Unfit as unfit:
            return Said(str(unfit), False, True)
        self.records.decide(clerk, task, rule, words, answer)
        if answer != "taken":
            return Said(self.wording.answer(answer), False, answer not in DECIDED)
        return Said(self.done(task, rule), True)

    def done(self, task: str, rule: str) -> str:
        """What was done, and where it goes on, in a sentence."""
        if not rule:
            return "%s has begun." % titled(self.wording.task(task))
        line = self.wording.spec.rules[rule]
        own = [child.sort.text for child in line.children if self.wording.spec.role_of(child.sort.text) == self.role]
        others = sorted({self.wording.spec.role_of(child.sort.text) for child in line.children} - {self.role})
        more = (" It goes on at %s." % " and ".join(titled(role) for role in others) if others else "") + (" There %s here." % (
            "is a new task" if len(own) == 1 else "are %d new tasks" % len(own)) if own else "")
        return "%s: done for %s.%s" % (titled(rule), self.wording.task(task), more)
