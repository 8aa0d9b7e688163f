"""The tutorial's claim by clicks: its commands as they stand on the page, its clicks, and its pictures where DESK_PICTURES names a folder for them."""
from __future__ import annotations

import contextlib
import os
import re
import signal
import subprocess
import tempfile
from collections.abc import Iterator
from pathlib import Path

import pytest
from conftest import FIRST_DESK, TOP
from screens import Screen, screen  # noqa: F401
from selenium.webdriver.common.by import By
from systems import FAST, LONG, listens, until

from aw_clerk import book
from aw_forms.program import Sorry

TITLE = "### The claim by clicks\n"
ROLES = ("front", "assessor", "payments")


@pytest.fixture
def chapter() -> str:
    """The chapter."""
    text = (TOP / "docs" / "TUTORIAL.md").read_text(encoding="utf-8")
    assert TITLE in text
    return re.split(r"^##", text.split(TITLE)[1], flags=re.MULTILINE)[0]


@pytest.fixture
def typed(chapter: str) -> Iterator[Path]:
    """A folder in which the commands of the chapter were typed, one after the other."""
    try:
        found = book.found()
    except Sorry as sorry:
        pytest.fail("not run: %s" % sorry)
    running: list[subprocess.Popen[bytes]] = []
    with tempfile.TemporaryDirectory(dir=FAST) as name:
        folder = Path(name)
        for part in ("examples", "desk", "offices", "forms"):
            (folder / part).symlink_to(TOP / part)
        (folder / "bin").mkdir()
        (folder / "bin" / "aw").symlink_to(os.environ["AW"])
        env = {**os.environ, "PATH": "%s:%s" % (folder / "bin", os.environ["PATH"]), book.VARIABLE: found}
        try:
            for command in chapter.split("```\n")[1].splitlines():
                running.append(subprocess.Popen(["bash", "-c", command.removesuffix(" &")], cwd=folder, env=env, start_new_session=True))
                waited(command, running[-1])
            yield folder
        finally:
            for process in running:
                with contextlib.suppress(ProcessLookupError):
                    os.killpg(process.pid, signal.SIGKILL)
                process.wait()


def waited(command: str, process: subprocess.Popen[bytes]) -> None:
    """Waits until a command has done its work, or serves."""
    role = next((at for at, role in enumerate(ROLES) if "node %s " % role in command or "day/%s/workspace" % role in command), None)
    if role is not None:
        port = (FIRST_DESK if command.startswith("desk/") else 7400) + role
        until(lambda: process.poll() is not None or listens(port), command)
    elif command.endswith("&"):
        return
    else:
        assert process.wait(LONG) == 0, command


def test_the_claim_by_clicks(chapter: str, typed: Path, screen: Screen) -> None:  # noqa: F811
    screen.at(0)
    screen.click("Begin a case")
    screen.enter(**{"Number of the case": "501"})
    screen.click("Begin claim")
    screen.click("Open claim")
    screen.enter(Policy="88012", What="storm, roof", Asked="12000", Iban="DK50 0040")
    screen.picture("desk-form")
    screen.click("Go on")
    screen.picture("desk-send")
    screen.click("Send")
    until(lambda: "Payment, claim 501" in screen.at(2), "payments has no task")
    screen.click("Payment, claim 501")
    screen.picture("desk-waits")
    until(lambda: "Assessment, claim 501" in screen.at(1), "the assessor has no task")
    screen.picture("desk-open")
    screen.click("Assessment, claim 501")
    screen.driver.find_element(By.TAG_NAME, "summary").click()
    screen.seen.append(screen.text())
    screen.picture("desk-task")
    screen.click("Grant")
    screen.enter(Amount="9000")
    screen.click("Go on")
    screen.click("Send")
    until(lambda: "Can be done: Pay" in screen.at(2), "payments was not told")
    screen.click("Payment, claim 501")
    screen.click("Pay")
    screen.click("Send")
    until(lambda: "not there yet" not in screen.at(0, "/case/claim%23501"), "the front office has no letter")
    screen.picture("desk-letter")
    screen.at(0, "/decided")
    seen = " ".join(screen.seen)
    for words in re.findall(r"\*\*(.+?)\*\*", chapter):
        assert words in seen, "the chapter shows %r, and no page does" % words
    for picture in re.findall(r"\(pictures/(.+?)\)", chapter):
        assert (TOP / "docs" / "pictures" / picture).stat().st_size < 60_000
