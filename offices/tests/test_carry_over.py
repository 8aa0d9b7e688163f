"""Carrying a journal over: what only adds behind what stands is taken, and all else is refused."""
from __future__ import annotations

import os
import random
import re
import shutil
import signal
import subprocess
import time
from collections.abc import Callable
from pathlib import Path

import pytest
from conftest import CLAIM, CLINIC, LONG, OFFICES, System, listens, until

from aw_forms.program import Sorry
from aw_offices import carry_over, frames

Make = Callable[[str], System]
MORE = {"role": "role archive", "con": "con urgent 1", "sort": "sort filing archive 1 1", "offer": "offer filing", "use": "use lab filing",
        "rule": "rule urgent_test {number} : test(order(what, tube(label)))<value(what, number)> = filing(urgent(label))<r>"}


def behind(text: str, more: dict[str, str]) -> str:
    """A specification with a line more behind those of each form."""
    lines = [line for line in text.splitlines() if line.strip() and not line.startswith("%")]
    for form, line in more.items():
        at = max(i for i, old in enumerate(lines) if old.split()[0] == form)
        lines.insert(at + 1, line)
    return "\n".join(lines) + "\n"


def said(system: System, journal: Path, text: str, result: Path) -> tuple[int, str]:
    """How the command ends, and what it tells."""
    new = system.folder / "new.aw"
    new.write_text(text, encoding="utf-8")
    done = subprocess.run(["/usr/bin/python3", str(OFFICES / "aw_carry_over"), str(journal), str(new), str(result)], capture_output=True, timeout=LONG, text=True)
    assert "Traceback" not in done.stderr
    return done.returncode, done.stderr


@pytest.fixture
def worked(make: Make) -> System:
    """A clinic with some history, whose nodes are stopped."""
    system = make(CLINIC)
    system.start()
    post = system.start_post()
    for case in range(1, 6):
        system.choose("start visit %d" % case)
        system.choose("choose visit#%d admit {\"Ada\", %d, glucose}" % (case, case))
    until(lambda: "visit#5/admit.1 measure" in system.ready("lab"), "the letters did not come")
    system.choose("choose visit#1/admit.1 measure {5}")
    system.choose("choose visit#2/admit.1 spoiled {\"clotted\"}")
    until(lambda: not system.unsettled() and system.carried(), "the letters did not come")
    post.terminate()
    post.wait(LONG)
    for node in system.nodes.values():
        node.kill()
    return system


def test_work_goes_on_under_a_specification_with_more(make: Make, worked: System) -> None:
    text = behind(CLINIC, MORE)
    system = make(text)
    for role in worked.offices.roles:
        before = (worked.nodes[role].folder / "workspace.journal").read_bytes()
        status, told = said(worked, worked.nodes[role].folder / "workspace.journal", text, system.nodes[role].folder / "workspace.journal")
        assert status == 0, told
        assert (worked.nodes[role].folder / "workspace.journal").read_bytes() == before
        assert (system.nodes[role].folder / "workspace.journal").stat().st_mode & 0o777 == 0o600
    (system.folder / "places").write_bytes((worked.folder / "places").read_bytes())
    system.lines = list(worked.lines)
    system.start()
    assert not system.unsettled()
    system.start_post()
    until(lambda: "visit#3/admit.1 urgent_test" in system.ready("lab"), "the new rule cannot be chosen")
    assert system.choose("choose visit#3/admit.1 urgent_test {7}") == "taken"
    assert system.choose("choose visit#2/admit.1/spoiled.1 draw {99}") == "taken"
    until(lambda: system.items("archive") == [] and not system.unsettled(), "the letters did not come")
    until(system.carried, "not every letter is carried")
    assert set(system.undelivered()) == {frames.AGAIN}
    assert "its outbox is another one" not in system.log()


def test_what_is_served_or_there_is_not_touched(worked: System) -> None:
    lab = worked.nodes["lab"]
    result = worked.folder / "result"
    lab.start()
    assert said(worked, lab.folder / "workspace.journal", CLINIC, result)[0] == 75
    lab.kill()
    result.write_bytes(b"kept")
    assert said(worked, lab.folder / "workspace.journal", CLINIC, result)[0] == 73
    assert result.read_bytes() == b"kept"
    result.unlink()
    assert said(worked, lab.folder / "none", CLINIC, result)[0] == 66
    assert said(worked, Path("/dev/full"), CLINIC, result)[0] == 66
    assert said(worked, worked.spec, CLINIC, result)[0] == 65
    assert said(worked, lab.folder / "workspace.journal", "role a\nrole a\n", result)[0] == 65
    assert said(worked, lab.folder / "workspace.journal", CLINIC, worked.folder / "none" / "result")[0] == 73
    assert not result.exists()
    assert said(worked, lab.folder / "workspace.journal", CLINIC, result)[0] == 0
    assert result.read_bytes() == (lab.folder / "workspace.journal").read_bytes()


CHANGES = {
    "a role in front": lambda text: text.replace("role clinic\n", "role desk\nrole clinic\n"),
    "roles the other way round": lambda text: text.replace("role clinic\nrole lab\n", "role lab\nrole clinic\n"),
    "a constructor in front": lambda text: text.replace("con order 2\n", "con urgent 0\ncon order 2\n"),
    "a constructor in between": lambda text: text.replace("con glucose 0\n", "con urgent 0\ncon glucose 0\n"),
    "a constructor with another name": lambda text: re.sub(r"\brefused\b", "declined", text),
    "a constructor that is not used, taken away": lambda text: text.replace("con haemoglobin 0\n", ""),
    "a sort in front": lambda text: text.replace("sort visit", "sort call clinic 0 0\nsort visit"),
    "a sort of another role": lambda text: text.replace("sort sample clinic", "sort sample lab"),
    "a rule in front": lambda text: text.replace("rule admit", "rule wait : visit()<no_test>\nrule admit"),
    "rules the other way round": lambda text: "\n".join(turned(text.splitlines())) + "\n",
    "a rule taken away": lambda text: re.sub(r"rule reject.*\n", "", text),
    "a rule with another field": lambda text: text.replace("rule send_home {who} : visit()<report(who, no_test)>", "rule send_home {who, why} : visit()<report(who, no_test)>"),
    "a rule with another result": lambda text: text.replace("<refused(why)>", "<redraw(why, why)>"),
    "a rule with another name": lambda text: text.replace("rule draw ", "rule redrawn "),
    "a variable with another name": lambda text: text.replace("rule reject {why} : test(x)<refused(why)>", "rule reject {reason} : test(x)<refused(reason)>"),
    "a use taken away": lambda text: text.replace("use lab sample\n", ""),
    "a start taken away": lambda text: text.replace("start visit\n", ""),
}


def turned(lines: list[str]) -> list[str]:
    """The first two rules the other way round."""
    first, second = [at for at, line in enumerate(lines) if line.startswith("rule ")][:2]
    lines[first], lines[second] = lines[second], lines[first]
    return lines


def test_all_else_is_refused(worked: System) -> None:
    text = behind(CLINIC, {})
    data = (worked.nodes["lab"].folder / "workspace.journal").read_bytes()
    for name, change in CHANGES.items():
        assert change(text) != text, name
        with pytest.raises(Sorry) as sorry:
            carry_over.carried(data, "journal", change(text).encode())
        assert sorry.value.status == 65 and str(sorry.value).endswith("."), name


def test_drawn_changes(worked: System) -> None:
    """Lines moved, doubled, taken away or changed: taken exactly where the program takes the specification and each line of it stands."""
    draw, taken = random.Random(5), 0
    data = (worked.nodes["clinic"].folder / "workspace.journal").read_bytes()
    text = behind(CLINIC, {})
    for _ in range(120):
        lines, more = text.splitlines(), dict(draw.sample(sorted(MORE.items()), draw.randint(0, 3)))
        if draw.random() < 0.6:
            at, other = draw.randrange(len(lines)), draw.randrange(len(lines))
            way = draw.randrange(3)
            if way == 0:
                lines.insert(other, lines.pop(at))
            elif way == 1:
                del lines[at]
            else:
                lines[at] = lines[at].replace(draw.choice("aeiou"), "y")
        new = behind("\n".join(lines) + "\n", more) if all(any(line.startswith(form + " ") for line in lines) for form in more) else "\n".join(lines) + "\n"
        try:
            result = carry_over.carried(data, "journal", new.encode())
        except Sorry as sorry:
            assert sorry.status == 65, str(sorry)
            continue
        taken += 1
        old, after = carry_over.journal(data, ""), carry_over.journal(result, "")
        assert after.records == old.records
        for form in carry_over.BY_POSITION:
            stands = carry_over.of_form(old.lines(), form)
            assert carry_over.of_form(after.lines(), form)[:len(stands)] == stands
        assert set(old.lines()) <= set(after.lines())
    assert taken > 10


def test_a_torn_end_is_left_behind(worked: System) -> None:
    data = (worked.nodes["lab"].folder / "workspace.journal").read_bytes()
    assert carry_over.carried(data + b"\0\0torn", "journal", CLINIC.encode()) == data


def test_nothing_of_a_claim_is_a_clinic(make: Make, worked: System) -> None:
    data = (worked.nodes["lab"].folder / "workspace.journal").read_bytes()
    with pytest.raises(Sorry):
        carry_over.carried(data, "journal", CLAIM.encode())


def test_a_node_that_never_gets_ready_is_not_believed(worked: System, monkeypatch: pytest.MonkeyPatch) -> None:
    slow = worked.folder / "slow"
    slow.write_text("#!/bin/sh\nexec sleep infinity\n", encoding="utf-8")
    slow.chmod(0o755)
    data = (worked.nodes["lab"].folder / "workspace.journal").read_bytes()
    monkeypatch.setenv("AW", str(slow))
    monkeypatch.setattr(carry_over, "OPENED_WITHIN", 0.5)
    with pytest.raises(Sorry, match="did not wait for a session"):
        carry_over.carried(data, "journal", CLINIC.encode())


def test_killed_anywhere_it_leaves_nothing_half(worked: System) -> None:
    """No node that holds a port, no copies of journals where it was told to end, and the result whole or not there."""
    lab, room, result = worked.nodes["lab"], worked.folder / "room", worked.folder / "result"
    journal, draw = lab.folder / "workspace.journal", random.Random(9)
    room.mkdir()
    for number in range(24):
        sign = (signal.SIGKILL, signal.SIGTERM, signal.SIGINT)[number % 3]
        process = subprocess.Popen(["/usr/bin/python3", str(OFFICES / "aw_carry_over"), str(journal), str(worked.spec), str(result)], stdout=subprocess.DEVNULL,
                                   stderr=subprocess.PIPE, env={**os.environ, "TMPDIR": str(room)})
        if number % 2:
            until(lambda: process.poll() is not None or listens(lab.port), "no node is started")
        time.sleep(draw.random() * 0.3)  # (a moment to end it at, not a condition)
        process.send_signal(sign)
        told = process.communicate(timeout=LONG)[1]
        assert process.returncode in (0, -sign, 128 + sign, 1) and b"aw_offices" not in told, told
        until(lambda: not listens(lab.port), "a node is left")
        if sign != signal.SIGKILL:
            assert not list(room.iterdir()), "copies of journals are left"
        if result.exists():
            assert result.read_bytes() == journal.read_bytes()
            result.unlink()
        for left in room.iterdir():
            shutil.rmtree(left)
    assert said(worked, journal, CLINIC, result)[0] == 0
