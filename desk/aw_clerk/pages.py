"""What the pages of a desk share: who sits at it, and tasks and values as they are shown."""
from __future__ import annotations

import hmac
import re
import secrets
import threading
from collections.abc import Callable
from dataclasses import dataclass
from pathlib import Path
from urllib.parse import quote, urlsplit

import flask
from markupsafe import Markup
from werkzeug.wrappers import Response

from . import book, trees
from .desk import Desk
from .entered import Entered
from .logins import Logins
from .tasks import Task, steps_of
from .values import LARGEST, Value, groups_of
from .wording import human, moment, titled

MOST_OF_TASKS, OF_A_TREE, OF_A_FORM, OF_NAMES = 24_000, 6_000, 12_000, 4_000
OWN_NAMES = ("127.0.0.1", "localhost", "::1")
Answer = str | Response | tuple[str, int]


@dataclass(slots=True)
class Row:
    """An open task in the list."""

    task: Task
    title: str
    values: list[tuple[str, str, str]]
    actions: list[str]
    waits: str
    since: str
    sender: str
    clerk: str


@dataclass(slots=True)
class Action:
    """A rule at an open task: what it does, and why it can't be chosen, if it can't."""

    name: str
    title: str
    note: str
    why: str
    fields: list[str]


class Pages:
    """What the pages share: the desk, who may sit at it, and the secret of its sessions."""

    def __init__(self, desk: Desk, logins: Logins | None, templates: Path) -> None:
        self.desk, self.logins, self.templates = desk, logins, templates
        self.turn = threading.Lock()
        self.entered = Entered()
        self.highest: dict[str, int] = {}

    # who
    def clerk(self) -> str:
        """Who sits at the desk; without logins everybody is the office."""
        name = str(flask.session.get("clerk", ""))
        if self.logins is None:
            return human(self.desk.role)
        return name if name and self.logins.has(name) else ""

    def token(self) -> str:
        """The token of this session, which each form has."""
        if "token" not in flask.session:
            flask.session["token"] = secrets.token_urlsafe(24)
        return str(flask.session["token"])

    def is_strange(self) -> bool:
        """Whether a page was asked for by a name that a desk without logins does not have: some page elsewhere may have given itself this machine's address."""
        name = urlsplit("//" + flask.request.host).hostname if self.logins is None else None
        return self.logins is None and name not in OWN_NAMES

    def is_forged(self) -> bool:
        """Whether a form was not made by this session."""
        return not hmac.compare_digest(str(flask.request.form.get("token", "")).encode(), self.token().encode())

    def keep(self) -> str:
        """Keeps what was typed into the form that is refused now, unless another page may have sent it. Where the form is shown with it, or nothing."""
        page = {"do": flask.request.path, "begun": "/begin"}.get(flask.request.endpoint or "") if flask.request.method == "POST" else None
        if page is None or (self.is_forged() and flask.request.headers.get("Sec-Fetch-Site") != "same-origin"):
            return ""
        self.entered.keep(self.token(), flask.request.path, flask.request.form)
        return quote(page)

    def typed(self, page: str) -> dict[str, str]:
        """What this session typed into a form that was refused."""
        return self.entered.of(self.token(), page)

    # what
    def rows(self, tasks: list[Task]) -> list[Row]:
        """Open tasks for the list."""
        claims = self.desk.records.claims()
        return [self.row(task, self.desk.records.since(task.name), claims.get(task.name, ("", 0))[0]) for task in tasks]

    def row(self, task: Task, since: float, clerk: str) -> Row:
        """An open task for the list."""
        wording = self.desk.wording
        given = [(wording.given(task.name, at), value) for at, value in enumerate(task.values()[1])]
        ready = [titled(rule) for rule in task.ready]
        waits = next((wording.state(task, rule) for rule in wording.rules(task.name) if task.states.get(rule.name.text, "").startswith("waits")), "")
        sender = wording.sender(task.name)
        return Row(task, wording.task(task.name), trees.brief(wording, given), ready, "" if ready else waits or "Nothing can be done here.", moment(since),
                   "" if sender == self.desk.role else human(sender), "" if clerk == self.clerk() else clerk)

    def actions(self, task: Task) -> list[Action]:
        """The rules at an open task."""
        wording = self.desk.wording
        return [Action(rule.name.text, titled(rule.name.text), wording.note("rule", rule.name.text), wording.state(task, rule), [human(param.text) for param in rule.params])
                for rule in wording.rules(task.name)]

    def tree(self, values: list[Value], label: Callable[[int], str], most: int = trees.MOST_BYTES) -> Markup:
        """Values with their labels."""
        return trees.page(self.desk.wording, [(label(at), value) for at, value in enumerate(values)], most)

    def given(self, task: Task, most: int = trees.MOST_BYTES) -> Markup | str:
        """What a task was given."""
        values = task.values()[1]
        return self.tree(values, lambda at: self.desk.wording.given(task.name, at), most) if values else ""

    def open_in(self, case: str) -> list[tuple[str, str]]:
        """The first open tasks of a case here: names, and in words."""
        found, size = [], 0
        for name, task in self.desk.open().items():
            size += len(name) if task.case == case else 0
            if task.case == case and size <= OF_NAMES:
                found.append((name, self.desk.wording.task(name)))
        return found

    def decided(self, task: Task, most: int = 2 * OF_A_TREE) -> dict[str, object]:
        """A decided task: what it was given, what was entered, and what it gives back, each in so many bytes at most."""
        wording, note = self.desk.wording, self.desk.records.of_task(task.name)
        shown = {part: trees.page(wording, values, most) if values else "" for part, values in trees.lists(wording, task).items()}
        return {"task": task, "title": wording.task(task.name), "rule": titled(task.rule) if task.rule else "", "home": human(wording.home(task.name)),
                "who": note.clerk if note else "", "when": moment(note.at) if note else "", **shown}

    def some(self, tasks: list[Task], at: int) -> tuple[list[dict[str, object]], int]:
        """As many of some tasks as a page takes, from a number on; and the number of the next one, 0 where there is none."""
        found, size = [], 0
        while at < len(tasks) and size < MOST_OF_TASKS:
            found.append(self.decided(tasks[at], OF_A_TREE))
            size += 600 + 2 * len(tasks[at].name) + sum(len(str(found[-1][part])) for part in ("given", "entered", "results"))
            at += 1
        return found, at if at < len(tasks) else 0

    def noted(self, rule: str, words: str) -> list[tuple[str, str, str]]:
        """What was entered for a rule, as the desk noted it, in a few words."""
        line = self.desk.wording.spec.rules.get(rule)
        values = groups_of(words)[0] if words and line else []
        return trees.brief(self.desk.wording, [(param.text, value) for param, value in zip(line.params, values)] if line else [], 6)

    def elsewhere(self, name: str) -> Answer | None:
        """Where a case lies that another system's desk has: its page there, or a sentence. Nothing for a case of this desk."""
        steps = steps_of(name)
        if steps is None or self.desk.spread.is_here(steps[1]):
            return None
        where = self.desk.spread.where(steps[1])
        if where.startswith(("https://", "http://")):
            return flask.redirect(where + quote(flask.request.path), 303)
        return self.render("trouble.html", 404, title="This case lies elsewhere", words=self.desk.spread.elsewhere(steps[1]))

    def next_number(self, sort: str) -> int:
        """A number that no case of a sort has, as far as is known here."""
        with self.turn:
            if sort not in self.highest:
                starts = re.compile(r"start %s (\d+)" % sort)
                self.highest[sort] = max((int(found[1]) for found in map(starts.fullmatch, book.said("events", self.desk.journal)) if found), default=0)
            roots = (steps_of(name) for name in self.desk.open())
            self.highest[sort] = max([self.highest[sort], *(root[1] for root in roots if root and root[0] == sort)])
            number = self.desk.spread.next_here(min(self.highest[sort] + 1, LARGEST))
            return self.highest[sort] + 1 if number is None else number

    def begun(self, sort: str, number: int) -> None:
        """Notes that a number is used."""
        with self.turn:
            self.highest[sort] = max(self.highest.get(sort, 0), number)

    def render(self, page: str, status: int = 200, /, **more: object) -> Answer:
        """A page."""
        said = flask.session.pop("said", None) if status == 200 and page != "login.html" else None
        return flask.render_template(page, desk=self.desk, role=titled(self.desk.role), clerk=self.clerk(), token=self.token(), said=said, logins=self.logins is not None,
                                     **more), status


def here() -> str:
    """The path of the page that was asked for, as a link has it."""
    query = flask.request.query_string.decode("ascii", "replace")
    return quote(flask.request.path) + ("?" + query if query else "")


def behind() -> int:
    """From which task on a page shows, counted from 0."""
    said = flask.request.args.get("from", "")
    return int(said) if said.isdecimal() and len(said) < 10 else 0
