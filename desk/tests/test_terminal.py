"""The desk in a terminal, by keys, under tmux."""
from __future__ import annotations

import shlex
import shutil
import subprocess
import tempfile
from collections.abc import Callable, Iterator

import pytest
from conftest import TOP, TYPED, Company
from systems import LONG, until

from aw_clerk.tasks import tasks_of

Make = Callable[[str], Company]


class Screen:
    """A terminal of 100 columns."""

    def __init__(self, line: list[str]) -> None:
        assert shutil.which("tmux"), "not run: tmux is missing; `ci/setup desk` installs it"
        self.room = tempfile.TemporaryDirectory()
        self.tmux("new-session", "-d", "-x", "100", "-y", "40", "env LANG=C.UTF-8 LC_ALL=C.UTF-8 " + shlex.join(line) + "; echo ended $?; sleep infinity")

    def tmux(self, *words: str) -> str:
        """Does something with the terminal."""
        return subprocess.run(["tmux", "-S", self.room.name + "/tmux", "-f", "/dev/null", *words], capture_output=True, text=True, timeout=LONG, check=True).stdout

    def shown(self) -> str:
        """What is on the screen."""
        return self.tmux("capture-pane", "-p")

    def wait(self, words: str) -> None:
        """Waits until some words are on the screen."""
        until(lambda: words in self.shown(), lambda: "no %r in\n%s" % (words, self.shown()))

    def type(self, keys: str, then: str) -> None:
        """Types a line, and waits for what comes."""
        self.tmux("send-keys", "-l", keys)
        self.tmux("send-keys", "Enter")
        self.wait(then)

    def clear(self) -> None:
        """Takes away what is on the screen, when the list asks for something, so that what comes is new."""
        until(lambda: self.shown().rstrip().endswith("(h for help):"), "the list asks for nothing")
        self.tmux("send-keys", "C-l")
        until(lambda: self.shown().count("\n") - self.shown().rstrip("\n").count("\n") > 30, "the screen is not cleared")

    def end(self) -> None:
        """Ends the terminal."""
        subprocess.run(["tmux", "-S", self.room.name + "/tmux", "kill-server"], capture_output=True, timeout=LONG)
        self.room.cleanup()


@pytest.fixture
def screens() -> Iterator[Callable[[list[str]], Screen]]:
    made: list[Screen] = []

    def one(line: list[str]) -> Screen:
        made.append(Screen(line))
        return made[-1]
    yield one
    for screen in made:
        screen.end()


def test_a_claim_by_keys(company: Make, screens: Callable[[list[str]], Screen]) -> None:
    made = company(TYPED)
    screen = screens(["/usr/bin/python3", str(TOP / "desk" / "aw_desk_tty"), str(made.system.spec), made.journal("front"), str(made.folder / "tty"), "--clerk", "ada"])
    screen.wait("Front: 0 open")
    screen.type("n", "Number of the case:")
    screen.type("x", "A whole number, please.")
    screen.tmux("send-keys", "BSpace")
    screen.type("12", "Claim 12 has begun.")
    screen.wait("Front: 1 open")
    screen.type("1", "What to do (")
    assert "What a customer asks for." in screen.shown()
    screen.type("1", "Policy:")
    assert "The customer's form: the number of the policy" in screen.shown()
    screen.type("88012", "What:")
    screen.type('storm æøå "roof"', "Asked:")
    screen.type("many", "A whole number, please.")
    for _ in "many":
        screen.tmux("send-keys", "BSpace")
    screen.type("12000", "Iban:")
    screen.type("DK50 0040", "send this?")
    screen.wait("yes or no:")
    screen.type("yes", "Open claim: done for claim 12.")
    row = tasks_of(made.book("tasks", made.journal("front")))["claim#12"]
    assert [value.word for value in row.values()[0]] == ["88012", 'storm æøå "roof"', "12000", "DK50 0040"]
    screen.wait("Front: 0 open")
    screen.type("d", "ada: Claim 12: open claim")
    screen.type("1", "not there yet: assessor owes it, at assessment, claim 12")
    assert "Iban: DK50 0040" in screen.shown()
    screen.type("c", "Number of the case:")
    screen.type("12", "Claim 12: open claim")
    screen.type("q", "ended 0")


def test_a_list_with_values_and_a_case_by_its_number(company: Make, screens: Callable[[list[str]], Screen]) -> None:
    made = company(TYPED)
    made.system.start_post()
    made.system.choose("start claim 1")
    assert made.system.choose('choose claim#1 open_claim {88012, "\u009b31mstorm\\nroof", 12000, "DK50 0040"}') == "taken"
    until(lambda: tasks_of(made.book("tasks", made.journal("assessor"))), "the letter did not come")
    screen = screens(["/usr/bin/python3", str(TOP / "desk" / "aw_desk_tty"), str(made.system.spec), made.journal("assessor"), str(made.folder / "tty")])
    screen.wait("Assessment, claim 1 (88012, \\x9b31mstorm, 12000): grant, deny, inspect")
    screen.type("c", "Number of the case:")
    screen.type("1", "Assessment, claim 1: still open")
    assert "Asked: 12000" in screen.shown()
    screen.type("c", "Number of the case:")
    screen.type("2", "This office knows nothing of claim 2.")
    screen.type("c", "Number of the case:")
    screen.type("", "Assessor: 1 open")
    screen.type("q", "ended 0")


def test_nothing_is_sent_without_a_yes(company: Make, screens: Callable[[list[str]], Screen]) -> None:
    made = company(TYPED)
    made.system.choose("start claim 1")
    screen = screens(["/usr/bin/python3", str(TOP / "desk" / "aw_desk_tty"), str(made.system.spec), made.journal("front"), str(made.folder / "tty")])
    screen.wait("Front: 1 open")
    screen.type("h", "the next page of tasks, and the one before")
    screen.type("7", "There is no task 7.")
    screen.type("1", "What to do (")
    screen.type("1", "Policy:")
    screen.type("1", "What:")
    screen.type("w", "Asked:")
    screen.type("2", "Iban:")
    screen.type("n", "yes or no:")
    screen.type("no", "Nothing was sent.")
    screen.clear()
    made.system.nodes["front"].kill()
    screen.type("1", "What to do (")
    screen.type("1", "Policy: 1")
    screen.type("", "What: w")
    screen.type("", "Asked: 2")
    screen.type("3", "Iban: n")
    screen.type("", "yes or no:")
    assert "Asked: 23" in screen.shown()
    screen.type("yes", "The office is closed. Nothing was sent")
    assert tasks_of(made.book("tasks", made.journal("front")))["claim#1"].is_open
    screen.clear()
    made.system.nodes["front"].start()
    for then in ("What to do (", "Policy: 1", "What: w", "Asked: 23", "Iban: n", "yes or no:"):
        screen.type("1" if then in ("What to do (", "Policy: 1") else "", then)
    screen.type("yes", "Open claim: done for claim 1.")
    assert tasks_of(made.book("tasks", made.journal("front")))["claim#1"].text.startswith('{1, "w", 23, "n"}')
    screen.tmux("send-keys", "C-d")
    screen.wait("ended 0")
