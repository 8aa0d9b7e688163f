"""Cases that are spread over two systems by their number: together they are what one system would be, and each door keeps to its own."""
from __future__ import annotations

import os
import socket
from collections.abc import Callable, Iterator
from pathlib import Path

import pytest
from conftest import CLAIM, LONG, OFFICES, System, until
from machines import Machine

from aw_forms.program import Sorry
from aw_offices import frames
from aw_offices.spread import LARGEST, Spread, spread

Make = Callable[[str], System]
WEST, EAST = [3, 1, 99], [100, 150, 700]
FAULTY = {"one number": "1 here\n", "a word": "1 x here\n", "backwards": "9 1 here\n", "too large": "1 %d here\n" % (LARGEST + 1), "twice": "1 9 here\n9 12 there\n",
          "nowhere here": "1 9 https://other.example\n", "nothing": "% nothing\n", "a long number": "1 %s here\n" % ("9" * 5000)}


def test_numbers_lie_where_the_file_says(tmp_path: Path) -> None:
    (tmp_path / "systems").write_text("% ours\n100 199 here\n\n  1 99 https://west.example/\n300 400 here\n", encoding="utf-8")
    made = spread(str(tmp_path / "systems"))
    assert [made.where(number) for number in (0, 1, 99, 100, 199, 200, 300, 400, 401)] == ["", "https://west.example", "https://west.example", "here", "here", "", "here", "here", ""]
    assert [made.next_here(number) for number in (0, 100, 150, 200, 399, 401)] == [100, 100, 150, 300, 399, None]
    assert made.elsewhere(5) == "Cases with the number 5 lie at https://west.example." and "none of the systems" in made.elsewhere(0) and made.elsewhere(150) == ""
    assert Spread().is_here(0) and Spread().is_here(LARGEST) and spread(None) == Spread()


@pytest.mark.parametrize("name", FAULTY)
def test_a_faulty_file_is_told(name: str, tmp_path: Path) -> None:
    (tmp_path / "systems").write_text(FAULTY[name], encoding="utf-8")
    with pytest.raises(Sorry) as told:
        spread(str(tmp_path / "systems"))
    assert told.value.status == 65


class Part:
    """One of the systems: every office of it on a machine of its own, with a post, and a door for people at the front office."""

    def __init__(self, system: System, name: str, spans: str) -> None:
        self.system, self.machine = system, Machine(name)
        system.machines = {role: self.machine for role in system.offices.roles}
        system.start()
        system.start_post(before=self.machine.words())
        self.door, systems = system.folder / "door", system.folder / "systems"
        systems.write_text(spans, encoding="utf-8")
        with (system.folder / "guard.log").open("ab") as log:
            self.machine.run("/usr/bin/python3", str(OFFICES / "aw_guard"), str(system.spec), "front", "person=%s" % self.door, "--systems", str(systems),
                             "--idle", str(LONG), stderr=log)
        until(self.opened, "the door is not open")

    def opened(self) -> bool:
        """Whether the door is open: sockets of the file system are listed by network."""
        lines = [line.split() for line in Path("/proc/%d/net/unix" % self.machine.init.pid).read_text(encoding="utf-8").splitlines()[1:]]
        return any(words[3] == "00010000" and words[-1] == str(self.door) for words in lines)

    def through(self, line: str) -> bytes:
        """What the door answers to a choice."""
        with socket.socket(socket.AF_UNIX) as peer:
            peer.settimeout(LONG)
            peer.connect(str(self.door))
            peer.sendall(frames.frame(frames.CHOOSE, self.system.asked(line)[1]))
            got = b""
            while not (len(got) >= 5 and len(got) >= 5 + int.from_bytes(got[1:5], "big")) and (piece := peer.recv(1 << 16)):
                got += piece
            return got

    def begin(self, case: int) -> None:
        """A claim, begun and opened through the door, and granted."""
        for line in ("start claim %d" % case, "choose claim#%d open_claim {%d, \"storm\", 5, \"DK50\"}" % (case, case)):
            assert self.through(line) == frames.frame(frames.ANSWER, b"taken"), line
            self.system.lines.append(line)
        until(lambda: "claim#%d/open_claim.1 grant" % case in self.system.ready("assessor"), "the assessor has no task")
        assert self.system.choose("choose claim#%d/open_claim.1 grant {%d}" % (case, case)) == "taken"


@pytest.fixture
def parts(make: Make) -> Iterator[list[Part]]:
    if os.geteuid() != 0:
        pytest.skip("not run: networks of their own need root")
    made: list[Part] = []
    try:
        made.append(Part(make(CLAIM), "west", "1 99 here\n100 999 https://east.example\n"))
        made.append(Part(make(CLAIM), "east", "1 99 https://west.example\n100 999 here\n"))
        yield made
    finally:
        for part in made:
            part.machine.end()


def test_two_systems_are_one(parts: list[Part]) -> None:
    west, east = parts
    for one, other in zip(WEST, EAST, strict=True):
        west.begin(one)
        east.begin(other)
    refused = frames.frame(frames.BAD_FRAME, b"")
    assert west.through("start claim 100") == refused and east.through("start claim 99") == refused and west.through("start claim 1000") == refused
    assert east.through("choose claim#1/open_claim.1 grant {1}") == refused
    log = (west.system.folder / "guard.log").read_text(encoding="utf-8")
    assert "Cases with the number 100 lie at https://east.example." in log and "Cases with the number 1000 lie in none of the systems." in log
    for part in parts:
        until(lambda: not part.system.unsettled() and part.system.carried(), lambda: "not every letter is carried: %s" % part.system.log()[-2000:])
        assert part.system.joined()
    both = west.system
    apart = {role: sorted(west.system.items(role) + east.system.items(role)) for role in both.offices.roles}
    both.lines += east.system.lines
    lines = both.replayed().splitlines()
    for role in both.offices.roles:
        begin = lines.index("list " + role) + 1
        end = next((at for at in range(begin, len(lines)) if not lines[at].startswith("item ")), len(lines))
        assert apart[role] == sorted(lines[begin:end]), role
    assert len(apart["payments"]) == 2 * len(WEST + EAST)
