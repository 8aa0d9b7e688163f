"""What `replay` and `plain` write, read for pictures."""
from __future__ import annotations

import re
from dataclasses import dataclass, field

from .lexing import node_parts
from .specification import Specification

BLANK = re.compile(r"\?([a-z][a-z0-9_]*#\d+(?:/[a-z][a-z0-9_]*\.[1-8])*):r(\d+)")
SENT = re.compile(r"sent (\d+) to (\S+) (call|ask|tell) (.*)")
PIECE = re.compile(r'"(?:[^"\\]|\\.)*"|[(){}<>,]|[^"(){}<>,]+')


@dataclass(slots=True)
class Task:
    """A task as the artifacts show it."""

    name: str
    rule: str
    entered: list[str]
    given: list[str]
    results: list[str]
    below: list["Task"] = field(default_factory=list)

    @property
    def is_open(self) -> bool:
        """Whether no rule was taken on it."""
        return self.rule == ""

    def count(self) -> tuple[int, int]:
        """How many tasks are in its tree, and how many of them are open."""
        every, opened, todo = 0, 0, [self]
        while todo:
            task = todo.pop()
            every, opened = every + 1, opened + task.is_open
            todo += task.below
        return every, opened


def groups_of(text: str) -> list[list[str]]:
    """The lists of an artifact line after the rule, each with its items."""
    groups: list[list[str]] = []
    depth, item = 0, ""
    for piece in PIECE.findall(text):
        if piece in ("{", "(", "<") and depth == 0:
            groups.append([])
            depth, item = 1, ""
        elif piece in (")", "}", ">") and depth == 1:
            if item.strip():
                groups[-1].append(item.strip())
            depth = 0
        elif piece == "," and depth == 1:
            groups[-1].append(item.strip())
            item = ""
        elif depth:
            depth += {"(": 1, ")": -1}.get(piece, 0)
            item += piece
    return groups


def task_of(line: str) -> Task:
    """The task of an artifact line."""
    name, rule, rest = (line.split(" ", 2) + ["", ""])[:3]
    groups = groups_of(rest)
    if rule == "open" and len(groups) == 2:
        return Task(name, "", [], groups[0], groups[1])
    entered, given, results = (groups + [[], [], []])[:3]
    return Task(name, rule, entered, given, results)


def tasks_of(output: str) -> list[Task]:
    """The first tasks of all cases, each with its tree."""
    found: dict[str, Task] = {}
    roots: list[Task] = []
    behind = re.split(r"^artifacts \d+$\n?", output, maxsplit=1, flags=re.MULTILINE)
    for line in behind[1].split("\n") if len(behind) > 1 else []:
        if line:
            task = task_of(line)
            found[task.name] = task
            above = found.get(task.name.rpartition("/")[0])
            (above.below if above else roots).append(task)
    return roots


def sort_of(spec: Specification, name: str) -> str:
    """The sort of a task, by its name."""
    parts = node_parts(name)
    if parts is None:
        return "?"
    sort = parts[0]
    for rule, child in parts[2]:
        line = spec.rules.get(rule)
        if line is None or child > len(line.children):
            return "?"
        sort = line.children[child - 1].sort.text
    return sort


def role_of(spec: Specification, name: str) -> str:
    """The role of a task, by its name."""
    sort = spec.sorts.get(sort_of(spec, name))
    return sort.role.text if sort else "?"


@dataclass(slots=True)
class Message:
    """A message that was sent."""

    number: int
    sender: str
    receiver: str
    kind: str
    words: str
    sent: int
    delivered: int | None = None
    overtaken: bool = False


@dataclass(slots=True)
class Row:
    """An event of a transcript: at which role, its words, and the message that was delivered by it."""

    role: str
    words: str
    kind: str
    message: int | None = None
    again: bool = False
    refused: bool = False


@dataclass(slots=True)
class Transcript:
    """The events of a transcript in order, and the messages."""

    rows: list[Row] = field(default_factory=list)
    messages: dict[int, Message] = field(default_factory=dict)


def transcript_of(spec: Specification, output: str) -> Transcript:
    """Reads a transcript, up to its ending."""
    found = Transcript()
    for line in output.split("\n"):
        word = line.split(" ", 1)[0]
        sent = SENT.fullmatch(line)
        if word in ("artifacts", "undelivered"):
            break
        if sent and found.rows:
            number = int(sent[1])
            found.messages[number] = Message(number, found.rows[-1].role, sent[2], sent[3], sent[4], len(found.rows) - 1)
        elif word in ("start", "choose", "deliver"):
            event(spec, found, line)
    overtake(found)
    return found


def event(spec: Specification, found: Transcript, line: str) -> None:
    """Adds the row of an event."""
    words, _, answer = line.rpartition(": ")
    parts = words.split(" ")
    if parts[0] == "start":
        sort = spec.sorts.get(parts[1])
        found.rows.append(Row(sort.role.text if sort else "?", "start %s#%s%s" % (parts[1], parts[2], "" if answer == "taken" else ": " + answer), "choice", refused=answer != "taken"))
    elif parts[0] == "choose":
        found.rows.append(Row(role_of(spec, parts[1]), "%s at %s%s" % (parts[2], parts[1], "" if answer == "taken" else ": " + answer), "choice", refused=answer != "taken"))
    else:
        number = int(parts[1])
        message = found.messages.get(number)
        if message is None:
            return
        found.rows.append(Row(message.receiver, "%d %s %s" % (number, message.kind, message.words), message.kind, number, again=answer == "again"))
        if message.delivered is None and answer == "new":
            message.delivered = len(found.rows) - 1


def overtake(found: Transcript) -> None:
    """Marks messages before which a later one of the same sender came to the same receiver."""
    earliest: dict[tuple[str, str], int] = {}
    for number in sorted(found.messages, reverse=True):
        message = found.messages[number]
        if message.delivered is None:
            continue
        pair = message.sender, message.receiver
        message.overtaken = earliest.get(pair, message.delivered) < message.delivered
        earliest[pair] = min(earliest.get(pair, message.delivered), message.delivered)
