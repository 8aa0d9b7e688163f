"""Units: systemd takes each key, the programs take the words, and the statuses after which nothing is started again are the page's."""
from __future__ import annotations

import configparser
import os
import re
import shlex
import subprocess
from collections.abc import Callable
from pathlib import Path

import pytest
from conftest import CLINIC, LONG, OFFICES, TOP, System, listens, until
from systems import BOOK, begin_visits, tells

UNITS = OFFICES / "units"
PROGRAMS = {"/usr/bin/aw_post": str(OFFICES / "aw_post"), "/usr/bin/aw_guard": str(OFFICES / "aw_guard"), "/usr/bin/aw_desk": str(TOP / "desk" / "aw_desk")}
NEED_BOOK = ("aw-desk@lab.service", "aw-book.service")


def names() -> list[str]:
    """Every unit, with an instance for each template."""
    return sorted(path.name.replace("@", "@lab") for path in UNITS.iterdir() if path.suffix in (".service", ".timer"))


def installed(folder: Path) -> None:
    """The units with the programs of this repository in place of those that a package installs."""
    for path in (UNITS / name.replace("@lab", "@") for name in names()):
        text = path.read_text(encoding="utf-8")
        for there, here in PROGRAMS.items():
            text = text.replace(there + " ", here + " ")
        (folder / path.name).write_text(re.sub(r"/usr/bin/aw ", os.environ["AW"] + " ", text), encoding="utf-8")


def verified(folder: Path) -> subprocess.CompletedProcess[str]:
    """What systemd says to the units of a folder."""
    words = ["systemd-analyze", "verify", "--man=no", "--recursive-errors=yes", *(str(folder / name) for name in names())]
    return subprocess.run(words, capture_output=True, text=True, timeout=LONG, env={**os.environ, "SYSTEMD_UNIT_PATH": "%s:" % folder})


def test_systemd_takes_them(tmp_path: Path) -> None:
    installed(tmp_path)
    done = verified(tmp_path)
    told = [line for line in done.stderr.splitlines() if "aw-" in line or str(tmp_path) in line]
    assert not told and done.returncode == 0, done.stderr


def test_a_misspelt_key_is_seen(tmp_path: Path) -> None:
    installed(tmp_path)
    unit = tmp_path / "aw-post.service"
    unit.write_text(unit.read_text(encoding="utf-8").replace("StateDirectoryMode", "StateDirectoryMod"), encoding="utf-8")
    assert verified(tmp_path).returncode != 0


def test_little_is_open_to_them(tmp_path: Path) -> None:
    """By the rating of systemd, from 0 to 10, no service is above 2."""
    installed(tmp_path)
    for path in [path for path in tmp_path.iterdir() if path.suffix == ".service"]:
        unit = path.rename(path.with_name(path.name.replace("@", "@lab")))
        words = ["systemd-analyze", "security", "--offline=yes", "--threshold=20", "--no-pager", str(unit)]
        done = subprocess.run(words, capture_output=True, text=True, timeout=LONG)
        assert done.returncode == 0, done.stdout + done.stderr


def service(name: str) -> configparser.SectionProxy:
    """The keys of a unit's service."""
    unit = configparser.ConfigParser(strict=False, interpolation=None)
    unit.optionxform = str  # type: ignore[assignment,method-assign]
    unit.read(UNITS / name, encoding="utf-8")
    return unit["Service"]


def test_statuses_after_which_a_node_is_not_started_again() -> None:
    page = (TOP / "docs" / "JOURNAL.md").read_text(encoding="utf-8")
    told = re.search(r"start a node again after each end but ([\d, and]+), which come again", page)
    assert told is not None
    assert service("aw-node@.service")["RestartPreventExitStatus"].split() == re.findall(r"\d+", told[1])


def test_a_node_is_alone() -> None:
    node = service("aw-node@.service")
    assert node["PrivateNetwork"] == "yes" and node["StateDirectoryMode"] == "0700" and node["UMask"] == "0077"
    assert node["WorkingDirectory"] == "%S/" + node["StateDirectory"]
    assert node["StandardOutput"] == "journal", "a file in the state folder is opened before the folder is made"


def test_a_desk_reads_its_own_node_s_journal() -> None:
    """As the node's user, in a folder that it can't write; through the door for people; and at no address of others."""
    node, desk, door = (service("aw-%s@.service" % name) for name in ("node", "desk", "people-door"))
    there, here = desk["BindReadOnlyPaths"].split(":")
    assert desk["User"] == node["User"] and there == "%S/private/" + node["StateDirectory"] and here + "/workspace.journal" in desk["ExecStart"].split()
    assert "--node %%t/%s/socket" % door["RuntimeDirectory"] in desk["ExecStart"] and desk["SupplementaryGroups"] == door["Group"]
    assert desk["IPAddressDeny"] == "any" and desk["IPAddressAllow"] == "localhost"


def test_the_book_reads_and_writes_nothing() -> None:
    unit = (UNITS / "aw-book.service").read_text(encoding="utf-8")
    assert re.findall(r"^ExecStart=.*aw_book (\w+)", unit, re.M) == ["check", "join"]
    assert service("aw-book.service")["CapabilityBoundingSet"] == "CAP_DAC_READ_SEARCH" and "StateDirectory" not in service("aw-book.service")
    assert "OnCalendar=*-*-* " in (UNITS / "aw-book.timer").read_text(encoding="utf-8")


def test_the_nightly_look_sees_a_damaged_journal_and_one_that_was_set_back(make: Callable[[str], System]) -> None:
    """Its words, over the journals of nodes that run, and behind a disk that failed."""
    if not tells("join"):
        pytest.skip("not run: there is no aw_book with `join` at %s" % BOOK)
    system = make(CLINIC)
    begin_visits(system)
    lines = re.findall(r"^ExecStart=(.*)$", (UNITS / "aw-book.service").read_text(encoding="utf-8"), re.M)

    def looked(words: str = "") -> list[int]:
        return [subprocess.run(shlex.split(line.replace("/run/aw-book", str(system.folder))), env={"PATH": str(BOOK.parent), "AW_BOOK_WORDS": words}, capture_output=True,
                               timeout=LONG).returncode for line in lines]
    assert looked() == [0, 0]
    system.nodes["clinic"].kill()
    journal = system.nodes["clinic"].folder / "workspace.journal"
    data = journal.read_bytes()
    first = 11 + int.from_bytes(data[3:11], "big")
    journal.write_bytes(data[:first] + b"\0" + data[first + 1:])
    assert looked()[0] == 1, "damaged"
    journal.write_bytes(data[:first] + b"\0")
    assert looked() == [0, 1], "set back"
    journal.unlink()
    assert looked() == [0, 1], "a role without a journal"
    system.nodes["lab"].kill()
    (system.nodes["lab"].folder / "workspace.journal").unlink()
    journal.write_bytes(data)
    assert looked() == [0, 1] and looked("--without lab") == [0, 0], "a role that is said to have none"


@pytest.mark.parametrize("name", [name for name in names() if not name.startswith("aw-node") and name.endswith(".service") and name not in NEED_BOOK])
def test_the_programs_take_the_words(name: str, tmp_path: Path) -> None:
    """A program that takes its words says that the specification is missing, and nothing of words."""
    line = service(re.sub("@lab", "@", name))["ExecStart"].replace("$AW_POST_WORDS", "")
    for sign, value in {"%i": "lab", "%t": str(tmp_path), "%S": str(tmp_path), "/etc/aw/specification.aw": str(tmp_path / "form.aw")}.items():
        line = line.replace(sign, value)
    words = shlex.split(line)
    done = subprocess.run([PROGRAMS[words[0]], *words[1:]], capture_output=True, text=True, timeout=LONG)
    assert done.returncode == 66, done.stderr
    (tmp_path / "form.aw").write_text(CLINIC, encoding="utf-8")
    made = {"aw-post.service": tmp_path / "aw-post" / "places.lock"}.get(name, tmp_path / name.split("@")[0] / "lab" / "socket")
    (tmp_path / "aw-post").mkdir()
    made.parent.mkdir(parents=True, exist_ok=True)
    begun = subprocess.Popen([PROGRAMS[words[0]], *words[1:]])
    try:
        until(lambda: made.exists() or (name.startswith("aw-front") and listens(7401)), "%s has not begun" % name)
        assert begun.poll() is None
    finally:
        begun.terminate()
        begun.wait(LONG)
