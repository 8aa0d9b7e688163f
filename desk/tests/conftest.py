"""What the tests of the desk share: offices with real nodes and a post, a desk at each, and a browser."""
from __future__ import annotations

import os
import subprocess
import sys
import tempfile
from collections.abc import Callable, Iterator
from pathlib import Path

import pytest

sys.dont_write_bytecode = True
HERE = Path(__file__).resolve().parent
TOP = HERE.parent.parent
sys.path[:0] = [str(HERE), str(TOP / "desk"), str(TOP / "offices" / "tests")]

from systems import CLAIM, FAST, System, listens, text_of, until  # noqa: E402

from aw_clerk import book  # noqa: E402
from aw_forms.program import Sorry, found  # noqa: E402
from browsing import Browser  # noqa: E402

FIRST_DESK = 8400
TYPED = text_of("insurance-claim-typed.aw")
CLAIM_TEXT = CLAIM


def pytest_configure(config: pytest.Config) -> None:
    """Without the program nothing can be tested: says so and ends."""
    try:
        os.environ["AW"] = str(found())
    except Sorry as sorry:
        pytest.exit("not run: %s" % sorry, 1)


class Company:
    """Offices with their nodes, a post, and a desk at each."""

    def __init__(self, text: str, folder: Path) -> None:
        self.system = System(text, folder)
        self.folder = folder
        self.system.start()
        self.desks: dict[str, subprocess.Popen[bytes]] = {}

    @property
    def roles(self) -> list[str]:
        return self.system.offices.roles

    def journal(self, role: str) -> str:
        """The journal of an office."""
        return str(self.system.nodes[role].folder / "workspace.journal")

    def port(self, role: str) -> int:
        """Where the desk of an office is."""
        return FIRST_DESK + self.roles.index(role)

    def open_desk(self, role: str, *words: str) -> Browser:
        """Starts the desk of an office; a browser at it."""
        with (self.folder / ("desk-%s.log" % role)).open("ab") as log:
            line = ["/usr/bin/python3", str(TOP / "desk" / "aw_desk"), str(self.system.spec), self.journal(role), str(self.folder / ("state-" + role)), "--listen",
                    "127.0.0.1:%d" % self.port(role), *words]
            self.desks[role] = self.system.run(*line, stderr=log)
        until(lambda: self.desks[role].poll() is not None or listens(self.port(role)), "no desk of %s" % role)
        assert self.desks[role].poll() is None, self.log(role)
        return Browser(self.port(role))

    def log(self, role: str) -> str:
        """What a desk told its operator."""
        return (self.folder / ("desk-%s.log" % role)).read_text(encoding="utf-8")

    def book(self, *words: str) -> list[str]:
        """What the book says."""
        return book.said(*words)

    def end(self) -> None:
        """Ends everything."""
        self.system.end()


def settled(company: Company) -> None:
    """Waits until every letter has come: answers change no worklist."""
    until(lambda: not company.system.unsettled() and company.system.carried(), "the letters did not come: %s" % company.system.log()[-1000:])


@pytest.fixture
def company() -> Iterator[Callable[[str], Company]]:
    """Makes companies that end with the test."""
    try:
        os.environ[book.VARIABLE] = book.found()
    except Sorry as sorry:
        pytest.fail("not run: %s" % sorry)
    with tempfile.TemporaryDirectory(dir=FAST) as folder:
        made: list[Company] = []

        def one(text: str) -> Company:
            (Path(folder) / str(len(made))).mkdir()
            made.append(Company(text, Path(folder) / str(len(made))))
            return made[-1]
        try:
            yield one
        finally:
            for each in made:
                each.end()
