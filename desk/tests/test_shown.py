"""What pages show of anything that a book may say: bytes that are no UTF-8, large values, long names, many tasks; and by which names a desk is asked."""
from __future__ import annotations

import html
import re
import time
from pathlib import Path
from urllib.parse import unquote

import pytest
from conftest import CLAIM_TEXT, TOP

from aw_clerk import book
from aw_clerk.desk import Desk
from aw_clerk.fields import Field
from aw_clerk.pages import Pages
from aw_clerk.routes import application
from aw_clerk.whole import DAMAGED, PARTED, UNFIT, UNREAD, Journals

MOST = 50_000
STRANGE = b"\xff\xfe \xc2\x9b31m \xe2\x80\xae \x7f".decode("utf-8", "surrogateescape")


class Told:
    """A desk of the assessor over what a book is to say."""

    def __init__(self, folder: Path, monkeypatch: pytest.MonkeyPatch) -> None:
        self.tasks: list[str] = []
        self.said = {"spec": CLAIM_TEXT.splitlines(), "check": ["sound assessor events 0 bytes 700 behind 0 assessor.journal"]}
        monkeypatch.setattr(book, "said", lambda *words: self.tasks if words[0] == "tasks" else [line for line in self.tasks if not line.startswith("item ")] if words[0] == "cases" else self.said.get(words[0], []))
        monkeypatch.setattr(book.Follower, "lines", lambda _: [line for line in self.tasks if line.startswith("item ") or line.split(" ", 2)[1] == "open"])
        (folder / "form.aw").write_bytes(b"% \xff a comment\n" + CLAIM_TEXT.encode())
        self.desk = Desk(str(folder / "form.aw"), "assessor.journal", folder, None, Journals(["assessor.journal"]))
        self.browser = application(Pages(self.desk, None, TOP / "desk" / "aw_clerk" / "templates"), b"s" * 32).test_client()

    def page(self, url: str) -> str:
        """A page, which is small."""
        answer = self.browser.get(url)
        assert answer.status_code == 200 and len(answer.get_data()) < MOST, (url, answer.status_code, len(answer.get_data()))
        return answer.get_data().decode()


@pytest.fixture
def told(tmp_path: Path, monkeypatch: pytest.MonkeyPatch) -> Told:
    return Told(tmp_path, monkeypatch)


def assessment(name: str, what: str) -> list[str]:
    """An open task of the assessor."""
    return ['%s open (damage(1, "%s", 2)) <?%s:r1>' % (name, what, name), "item %s grant ready" % name, "item %s deny ready" % name, "item %s inspect ready" % name]


def test_bytes_that_are_no_text_are_shown_as_such(told: Told) -> None:
    told.tasks = assessment("claim#1/open_claim.1", STRANGE)
    for url in ("/", "/task/claim%231/open_claim.1", "/case/claim%231", "/whole/claim%231", "/apart/claim%231"):
        text = told.page(url)
        assert "\\xff\\xfe \\x9b31m \\u202e" in text and not re.search("[\x7f-\x9f\u202e]", text), url


def test_large_values_are_shown_in_part(told: Told) -> None:
    told.tasks = assessment("claim#1/open_claim.1", "\\\"<" * 100_000)
    assert "… and more, which is not shown here" in told.page("/task/claim%231/open_claim.1")
    told.tasks = ["claim#1/open_claim.1 deny {%s} (%s) <%s>" % ((", ".join(['"%s"' % ("&" * 1024)] * 300),) * 3)]
    assert told.page("/task/claim%231/open_claim.1").count("… and more") == 3
    told.page("/whole/claim%231")


@pytest.mark.parametrize("steps", [1, 60, 250])
def test_many_tasks_with_names_of_any_length(told: Told, steps: int) -> None:
    """Each task is on one page, and no page is large."""
    count = 4000 if steps == 1 else 40
    names = ["claim#%d%s" % (number, "/open_claim.1" * steps) for number in range(1, count + 1)]
    told.tasks = [line for name in names for line in assessment(name, "&" * 60)]
    began = time.monotonic()
    told.page("/")
    told.page("/?words=assessment+%d" % count)
    assert time.monotonic() - began < 10, "a page takes a second at most on a machine of its own; five times that where it is shared"
    found, page, text = list[str](), 0, ">Later"
    while ">Later" in text:
        text = told.page("/?page=%d" % page)
        found += names_of(text)
        page += 1
    assert found == names


@pytest.mark.parametrize("path", ["case", "whole"])
def test_a_case_of_many_tasks_in_parts(told: Told, path: str) -> None:
    names = ["claim#1/open_claim.1%s" % ("/inspect.2" * steps) for steps in range(200)]
    told.tasks = ['%s deny {"why"} (damage(1, "%s", 2)) <denied("why")>' % (name, "x" * 1024) for name in names]
    url, count = "/%s/claim%%231" % path, 0
    while url:
        text = told.page(url)
        count += text.count('<section class="task">')
        further = re.search(r'<a href="([^"]*)">Further tasks', text)
        url = further[1] if further else ""
    assert count == len(names)


def names_of(text: str) -> list[str]:
    """The tasks of a list, in its order."""
    return [unquote(name) for name in re.findall(r'<h2><a href="/task/([^"]*)">', text)]


def test_lists_in_order(told: Told) -> None:
    """By number, or by the time since when a task has been here; tasks that came together are by number."""
    names = ["claim#%d/open_claim.1" % number for number in (30, 20, 10, 40)]
    for known in (names[:1], names[:3], names):
        told.tasks = [line for name in known for line in assessment(name, "w")]
        told.page("/")
    thirty, twenty, ten, forty = names
    for order, want in (("old", [ten, twenty, thirty, forty]), ("new", [forty, thirty, twenty, ten]), ("long", [thirty, ten, twenty, forty]), ("late", [forty, ten, twenty, thirty])):
        assert names_of(told.page("/?order=" + order)) == want, order


def test_a_case_is_found_by_its_number(told: Told) -> None:
    told.tasks = ['claim#7/open_claim.1 deny {"why"} (damage(1, "w", 2)) <denied("why")>']
    assert 'aria-current="page">Find a case' in told.page("/find")
    assert told.browser.get("/find?number=7").headers["Location"] == "/case/claim%237" and told.browser.get("/find?sort=claim&number=007").status_code == 303
    told.tasks = []
    for number, words in (("8", "This office knows nothing of claim 8."), ("x", "Enter a whole number"), ("9" * 30, "Enter a whole number"), ("-1", "Enter a whole number")):
        assert words in told.page("/find?number=" + number), number
    for query in ("", "?number=", "?sort=assessment&number=7", "?sort=%3Cb%3E&number=7", "?sort=%ff"):
        assert "<b>" not in told.page("/find" + query)


def test_what_was_decided_is_found_by_words(told: Told) -> None:
    """By the clerk, the case, the rule and what was entered, in any order; each page of what was found leads to the next."""
    records = told.desk.records
    for number in range(1, 101):
        records.decide("ada" if number % 2 else "bob", "claim#%d/open_claim.1" % number, "deny", '{"below the excess"}' if number % 3 else '{"Æ\udcff"}', "taken")

    def found(words: str) -> list[int]:
        numbers, url = list[int](), "/decided?words=" + words
        while url:
            text = told.page(url)
            numbers += [int(number) for number in re.findall(r"/task/claim%23(\d+)/", text)]
            further = re.search(r'<a href="([^"]*)">Earlier', text)
            url = html.unescape(further[1]) if further else ""
        return numbers
    assert found("") == list(range(100, 0, -1))
    assert found("excess+ADA") == [number for number in range(100, 0, -1) if number % 2 and number % 3]
    assert found("claim+77") == [77] and found("%5Cxff") == [number for number in range(100, 0, -1) if not number % 3]
    assert found("grant") == [] and "No decision at this desk has these words." in told.page("/decided?words=grant")
    assert found("%25") == [] and found("'+OR+1=1") == [] and found("+".join(["deny"] * 900)) == list(range(100, 0, -1))


def test_a_form_shows_what_was_given(told: Told) -> None:
    told.tasks = assessment("claim#1/open_claim.1", "a <roof>")
    text = told.page("/do/grant/claim%231/open_claim.1")
    assert text.index("What was given") < text.index("a &lt;roof&gt;") < text.index(">Amount<")
    told.tasks = assessment("claim#1/open_claim.1", "&" * 100_000)
    told.page("/do/grant/claim%231/open_claim.1")


def test_a_decided_task_leads_to_what_is_open_in_its_case(told: Told) -> None:
    name = "claim#1/open_claim.1"
    told.tasks = ['%s inspect {} (damage(1, "w", 2)) <?%s/inspect.2:r1>' % (name, name), '%s/inspect.1 open ("w") <?%s/inspect.1:r1>' % (name, name),
                  *assessment("claim#11/open_claim.1", "w")]
    text = told.page("/task/claim%231/open_claim.1")
    assert re.findall(r'<li><a href="([^"]*)">(.*?)</a>', text) == [("/task/claim%231/open_claim.1/inspect.1", "Survey, claim 1")]


def test_nobody_is_told_where_nobody_signs_in(told: Told) -> None:
    """A desk without logins has one clerk, so nothing is said of who is at a task."""
    told.tasks = assessment("claim#1/open_claim.1", "w")
    assert "Tell others" not in told.page("/task/claim%231/open_claim.1")


@pytest.mark.parametrize("host, status", [("127.0.0.1:8401", 200), ("localhost", 200), ("[::1]:9000", 200), ("", 403), ("evil.example", 403),
                                           ("127.0.0.1.evil.example:8401", 403), ("evil.example#127.0.0.1", 403)])
def test_by_which_name_it_is_asked(told: Told, host: str, status: int) -> None:
    """A page elsewhere that gives itself this machine's address reads nothing."""
    assert told.browser.get("/", headers={"Host": host}).status_code == status
    assert told.browser.post("/begin/claim", data={"number": "1"}, headers={"Host": host}).status_code == 403


def test_a_field_for_a_day() -> None:
    for label, entered, is_day in (("Day", "", True), ("Date of loss", "2026-11-20", True), ("Date of loss", "some day", False), ("Monday", "", False)):
        assert Field("f0", label, "text", entered=entered).is_day == is_day


def test_what_is_wrong_is_said_first_and_has_the_focus(told: Told) -> None:
    told.tasks = assessment("claim#1/open_claim.1", "w")
    token = re.search(r'name="token" value="([^"]*)"', told.page("/do/grant/claim%231/open_claim.1"))[1]
    form = {"token": token, "f0.is": "number", "f0": "many", "f0.seen": "1"}
    answer = told.browser.post("/do/grant/claim%231/open_claim.1", data=form)
    text = answer.get_data(as_text=True)
    assert answer.status_code == 422 and 'role="alert">Nothing was sent: Amount. Enter a whole number in digits' in text and text.count(" autofocus") == 1


def test_a_case_where_journals_cannot_be_read(told: Told, monkeypatch: pytest.MonkeyPatch) -> None:
    """The others are shown, and that some are missing."""
    told.tasks = assessment("claim#1/open_claim.1", "w")
    told.desk.journals.files.append("front.journal")

    def some(*words: str) -> list[str]:
        if "front.journal" in words:
            raise book.NotSaid("front.journal: no such file", "aw_book: front.journal: no such file", 3)
        return told.tasks
    monkeypatch.setattr(book, "said", some)
    for url in ("/whole/claim%231", "/apart/claim%231"):
        text = html.unescape(told.page(url))
        assert "The journal of one office can't be read now" in text and "Assessment, claim 1" in text and (UNREAD in text) == ("whole" in url)
    told.desk.journals.files[:] = ["front.journal"] * 2
    text = html.unescape(told.page("/whole/claim%231"))
    assert "The journals of 2 offices can't be read now" in text and "No office has begun" not in text


FIRST = "aw_book: front.journal: event 3 (got ask claim#1/open_claim.1:r1 from front) came from front, and no event of old.journal sends it: it was forged, or that journal was set back"
REFUSALS = {("cases", 1, FIRST + "\naw_book: pay.journal: event 4 (start claim 1) waits for event 5 of front.journal, which sends it"): UNFIT,
            ("cases", 1, "aw_book: no journal of payments is given: if it never served, say so by --without payments"): "Payments has no journal here",
            ("cases", 3, "aw_book: front.journal: it got shorter since it was read"): UNREAD, ("cases", 5, "aw_book: there was not enough memory"): PARTED,
            ("cases", 2, "error: unrecognized subcommand"): PARTED, ("check", 1, "aw_book: front.journal: whole records stand behind those that count"): DAMAGED}


@pytest.mark.parametrize("command, status, words", REFUSALS)
def test_why_a_case_is_not_put_together(told: Told, monkeypatch: pytest.MonkeyPatch, caplog: pytest.LogCaptureFixture, command: str, status: int, words: str) -> None:
    """A sentence says so, each task is shown as its office knows it, and whoever runs the offices is told all that the book said."""
    told.tasks = assessment("claim#1/open_claim.1", "w")

    def some(*asked: str) -> list[str]:
        if asked[0] == command:
            raise book.NotSaid(words.splitlines()[-1], words, status)
        return told.tasks
    monkeypatch.setattr(book, "said", some)
    text = html.unescape(told.page("/whole/claim%231"))
    assert REFUSALS[command, status, words] in text and "Each task as its office knows it now." in text and "Assessment, claim 1" in text
    assert words in caplog.text and ".journal" not in text
