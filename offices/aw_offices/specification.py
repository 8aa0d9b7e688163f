"""Who is at home where: what the programs for offices need of a specification."""
from __future__ import annotations

from dataclasses import dataclass

from aw_forms.command import read_file
from aw_forms.program import Sorry
from aw_forms.verdict import read

from .frames import CALL, ASK, Message, Node

FIRST_PORT = 7400
FAULTY = 65


@dataclass(frozen=True, slots=True)
class Offices:
    """The roles; for each sort its role, the sorts of starts, and for each rule its sort and those of its subtasks, all by position."""

    roles: list[str]
    sorts: list[str]
    rules: list[str]
    homes: list[int]
    starts: frozenset[int]
    steps: list[tuple[int, list[int]]]

    def role(self, name: str) -> int:
        """The position of a role."""
        if name not in self.roles:
            raise Sorry("The specification declares no role \"%s\"; it has %s." % (name, ", ".join(self.roles) or "none"))
        return self.roles.index(name)

    def home(self, node: Node) -> int | None:
        """The role to which a task belongs; nothing where no task has this name."""
        if node.sort not in self.starts:
            return None
        sort = node.sort
        for rule, child in node.steps:
            if rule >= len(self.steps) or self.steps[rule][0] != sort or child > len(self.steps[rule][1]):
                return None
            sort = self.steps[rule][1][child - 1]
        return self.homes[sort]

    def author(self, message: Message) -> int | None:
        """The one role that can have sent a message to its receiver; nothing where no role can have sent it."""
        own = self.home(message.node)
        if message.to >= len(self.roles) or own is None:
            return None
        author: int | None = own
        if message.kind == CALL:
            author = self.home(Node(message.node.sort, message.node.case, message.node.steps[:-1])) if message.node.steps and own == message.to else None
        elif message.kind == ASK:
            author = message.asker if own == message.to and message.asker is not None and message.asker < len(self.roles) else None
        fits = author is not None and author != message.to and all(self.home(left.node) == author for left in message.load)
        return author if fits else None

    def task(self, node: Node) -> str:
        """The name of a task in words, with positions where nothing is declared."""
        def name(names: list[str], at: int) -> str:
            return names[at] if at < len(names) else "?%d" % at
        return "%s#%d" % (name(self.sorts, node.sort), node.case) + "".join("/%s.%d" % (name(self.rules, r), c) for r, c in node.steps)

    def words(self, message: Message) -> str:
        """A message in short words."""
        if message.ref is None:
            return "call %s" % self.task(message.node)
        ref = "%s:%s%d" % (self.task(message.node), "rp"[message.ref.slot], message.ref.number)
        return "%s %s" % ("ask" if message.kind == ASK else "tell", ref)


def offices(text: str, name: str) -> Offices:
    """What a specification declares; says the first fault where it has one."""
    reading = read(text)
    told = next((words for words, _ in reading.faults if not words.startswith("bad schedule")), None)
    if told is not None:
        raise Sorry("%s is no specification that the program accepts (%s); `aw_explain %s` shows where." % (name, told, name), FAULTY)
    spec = reading.spec
    roles, sorts = list(spec.roles), list(spec.sorts)
    homes = [roles.index(spec.role_of(sort)) for sort in sorts]
    steps = [(sorts.index(rule.sort.text), [sorts.index(child.sort.text) for child in rule.children]) for rule in spec.rules.values()]
    return Offices(roles, sorts, list(spec.rules), homes, frozenset(sorts.index(sort) for sort in spec.starts), steps)


def offices_in(name: str) -> Offices:
    """What the specification in a file declares."""
    return offices(read_file(name).decode("utf-8", "surrogateescape"), name)
