"""Drawn runs over real offices, some steps by forms and some by other clients: the rows of the pages are those that the book tells of each journal,
and of all together; and in the end those of the undivided run."""
from __future__ import annotations

import html
import random
import re
from collections.abc import Callable
from urllib.parse import quote, unquote

import pytest
from conftest import Company
from systems import aw, text_of, until

import client
from aw_clerk.lists import A_PAGE
from aw_clerk.tasks import REF, Task, tasks_of
from aw_forms.value_types import field_type
from aw_forms.verdict import read
from browsing import Browser

Make = Callable[[str], Company]
Leaf = tuple[str, str]
RUNS = {"insurance-claim.aw": 90, "insurance-claim-typed.aw": 90, "editorial-review.aw": 60, "clinical-test.aw": 60}
TEXTS = ["storm, roof", 'a "b" <i>&amp;</i>', "æøå 好", "two\nlines", "\\n", "", "x" * 200]
TOKEN = re.compile(r'"((?:[^"\\]|\\.)*)"|\?([^ ,()<>{}]+)|(\d+)|([a-z]\w*)|([(){}<>])|[, ]')
SPAN = re.compile(r'<span class="(text|number|word|blank|nothing)">(.*?)</span>', re.S)


def leaves(line: str) -> list[list[Leaf]]:
    """What is at the front of each value in the lists of a line, as kinds and words; read apart from the desk's own reader."""
    found, depth, at = list[list[Leaf]](), 0, 0
    while at < len(line):
        token = TOKEN.match(line, at)
        assert token is not None, (line, at)
        text, ref, number, word, mark = token.groups()
        at = token.end()
        if mark is not None and mark in "({<":
            found += [[]] if depth == 0 else []
            depth += 1
        elif mark is not None:
            depth -= 1
        elif token[0] not in ", ":
            found[-1].append(("text", re.sub(r"\\(.)", lambda pair: "\n" if pair[1] == "n" else pair[1], text)) if text is not None else
                             ("blank", ref) if ref is not None else ("number", number) if number is not None else ("word", word.replace("_", " ")))
    return found


class Draw:
    """Drawn choices at the offices of a company, with a browser at the desk of each."""

    def __init__(self, made: Company, seed: int) -> None:
        self.made, self.random = made, random.Random(seed)
        self.spec = read(made.system.text).spec
        self.start = next(iter(self.spec.starts))
        self.journals = [made.journal(role) for role in made.roles]
        self.desks = {role: made.open_desk(role, "--journals", *self.journals) for role in made.roles}

    def home(self, ref: str) -> str:
        """The office of the task of a reference."""
        found = REF.fullmatch(ref)
        assert found is not None
        return self.made.system.home(client.Words(self.made.system.names, "").node_bytes(found[1]))

    def book(self, role: str, *words: str) -> list[str]:
        """What the book tells of the tasks of an office."""
        return self.made.book("tasks", *words, self.made.journal(role))

    def run(self, number: int) -> None:
        """One case, some steps far."""
        case = "%s#%d" % (self.start, number)
        assert self.made.system.choose("start %s %d" % (self.start, number)) == "taken"
        for _ in range(self.random.randrange(2, 9)):
            role = self.random.choice(self.made.roles)
            ready = [(task.name, rule) for task in tasks_of(self.book(role, "--open", "--case", case)).values() for rule in task.ready]
            if ready:
                self.step(role, *self.random.choice(ready))
        for role in self.made.roles:
            self.same_case(role, case)
        self.same_whole(case, tasks_of(self.made.book("cases", "--case", case, *self.journals)))
        self.same_list(self.random.choice(self.made.roles))

    def step(self, role: str, task: str, rule: str) -> None:
        """One choice."""
        line = self.spec.rules[rule]
        kinds = [(field_type(self.spec, line, param) if self.spec.typed else None) or self.random.choice(["num", "text"]) for param in line.params]
        entered = [str(self.random.randrange(10000)) if kind == "num" else self.random.choice(TEXTS) for kind in kinds]
        words = ", ".join(text if kind == "num" else '"%s"' % text.replace("\\", "\\\\").replace('"', '\\"').replace("\n", "\\n") for kind, text in zip(kinds, entered))
        said = "choose %s %s%s" % (task, rule, " {%s}" % words if words else "")
        if self.random.random() < 0.7:
            assert self.made.system.choose(said) == "taken", said
            return
        desk = self.desks[role]
        desk.get("/do/%s/%s" % (rule, quote(task)))
        if entered:
            fields = {param.text: text for param, text in zip(line.params, entered)}
            fields.update({} if self.spec.typed else {param.text + "_is": "a number" if kind == "num" else "a text" for param, kind in zip(line.params, kinds)})
            desk.press("Go on", **fields)
        assert "done for" in desk.press("Send").text(), (said, desk.page and desk.page.text())
        self.made.system.lines.append(said)

    def still(self, role: str, url: str, *words: str) -> tuple[Browser, list[str]]:
        """A page, and what the book told just before it and just behind it, which is the same."""
        desk, lines = self.desks[role], list[str]()

        def stands() -> bool:
            lines[:] = self.book(role, *words)
            desk.get(url)
            return self.book(role, *words) == lines
        until(stands, "the journal of %s never stands still" % role)
        return desk, lines

    def same_case(self, role: str, case: str) -> None:
        """The page of a case beside the book's rows."""
        desk, lines = self.still(role, "/case/" + quote(case), "--case", case)
        tasks, page = tasks_of(lines), desk.page
        assert page is not None and page.status == (200 if tasks else 404)
        assert [unquote(name) for name in re.findall(r'<h2><a href="/task/([^"]*)"', page.source)] == list(tasks)
        self.same_tasks(page.source, tasks)

    def same_whole(self, case: str, tasks: dict[str, Task]) -> None:
        """The page of a case at all offices, which no letter on its way changes."""
        desk = self.desks[self.random.choice(self.made.roles)]
        page = desk.get("/whole/" + quote(case))
        assert page.status == 200 and "once every letter has come" in page.source and tasks
        self.same_tasks(page.source, tasks)

    def same_tasks(self, source: str, tasks: dict[str, Task]) -> None:
        """Tasks on a page: how each was decided, and the fronts of its values."""
        sections = source.split('<section class="task">')[1:]
        for section, task in zip(sections, tasks.values(), strict=True):
            rule = re.search(r"Decided: <strong>(.*?)</strong>", section)
            assert (rule[1] if rule else "") == task.rule.replace("_", " ").capitalize() and (rule is None) == ("Still open." in section)
            shown = dict(zip(re.findall(r"<h3>(\w+)</h3>", section), map(SPAN.findall, re.split(r"<h3>\w+</h3>", section)[1:])))
            for name, want in zip(("Entered", "Given", "Result"), [*([] if task.rule else [[]]), *leaves(task.text)]):
                self.same_leaves(task.name, want, shown.get(name, []))

    def same_leaves(self, task: str, want: list[Leaf], got: list[Leaf]) -> None:
        """What a page shows at the fronts of values."""
        assert len(want) == len(got), (task, want, got)
        for (kind, word), (shown_kind, shown) in zip(want, got):
            words = html.unescape(shown.replace("<br>", "\n"))
            if kind == "blank":
                assert shown_kind == "blank" and words.startswith("not there yet: %s owes it, at " % self.home(word).replace("_", " ")), (task, word, words)
            elif word:
                assert shown_kind == kind and words in (word, *([""] if kind == "word" else [])), (task, word, words)
            else:
                assert (shown_kind, words) == ("nothing", "(nothing)"), (task, words)

    def same_list(self, role: str) -> None:
        """The list of a desk, and the page of one of its tasks, beside the book's items."""
        desk, lines = self.still(role, "/", "--open")
        tasks, page = tasks_of(lines), desk.page
        assert page is not None
        rows = re.split(r"<li>\s*<h2>", page.source)[1:]
        names = [unquote(re.search(r'href="/task/([^"]*)"', row)[1]) for row in rows]  # type: ignore[index]
        assert names == list(tasks)[:len(names)] and (len(names) == len(tasks) or len(names) == A_PAGE)
        for name, row in zip(names, rows):
            ready = [rule.replace("_", " ").capitalize() for rule in tasks[name].ready]
            assert ("Can be done: %s." % ", ".join(ready) in row) if ready else ("Can be done" not in row), (name, ready)
        if names:
            self.same_actions(role, self.random.choice(names))

    def same_actions(self, role: str, name: str) -> None:
        """What can be done at a task, and what can't."""
        desk, lines = self.still(role, "/task/" + quote(name), "--open")
        task, page = tasks_of(lines)[name], desk.page
        assert page is not None and sorted(re.findall(r'/do/(\w+)/', page.source)) == sorted(task.ready)
        for rule, state in task.states.items():
            why = re.search("<dt>%s</dt><dd>(.*?)</dd>" % rule.replace("_", " ").capitalize(), page.source)
            assert (why is None) == (state == "ready"), (name, rule)
            first, _, more = state.partition(" ")
            if why is not None:
                assert why[1].startswith("Waits for %s (" % self.home(more).replace("_", " ") if first == "waits" else "Only where "), (name, state, why[1])


@pytest.mark.parametrize("example", RUNS)
def test_pages_are_what_the_book_says(company: Make, example: str) -> None:
    made = company(text_of(example))
    made.system.start_post()
    draw = Draw(made, len(example))
    for number in range(1, RUNS[example] + 1):
        draw.run(number)
    until(lambda: not made.system.unsettled() and made.system.carried(), "the letters did not come: %s" % made.system.log()[-1000:])
    lines = aw("plain", made.system.text + "schedule 2\n" + "".join(line + "\n" for line in made.system.lines)).split("\nartifacts ", 1)[1].split("\n")[1:-1]
    plain = tasks_of(lines)
    shown = set[str]()
    for role in made.roles:
        rows = tasks_of(draw.book(role))
        assert all(plain[name].rule == task.rule and plain[name].text == task.text for name, task in rows.items())
        shown.update(rows)
        for number in range(1, RUNS[example] + 1, 7):
            draw.same_case(role, "%s#%d" % (draw.start, number))
    for number in range(1, RUNS[example] + 1):
        case = "%s#%d" % (draw.start, number)
        draw.same_whole(case, {name: task for name, task in plain.items() if task.case == case})
    assert shown == set(plain)
