"""Posts through doors: what a door refuses is told, and holds up nothing else."""
from __future__ import annotations

import json
import subprocess
from collections.abc import Callable

from conftest import CLAIM, CLINIC, LONG, OFFICES, System, opened, until

from aw_offices import frames

Make = Callable[[str], System]


def test_a_post_works_through_doors(make: Make) -> None:
    system = make(CLINIC)
    system.start()
    doors = {role: system.folder / (role + ".sock") for role in system.offices.roles}
    for role, path in doors.items():
        system.run("/usr/bin/python3", str(OFFICES / "aw_guard"), str(system.spec), role, "post=%s" % path)
    until(lambda: all(opened(path) for path in doors.values()), "the doors are not open")
    system.start_post(*(word for role, path in doors.items() for word in ("--office", "%s=%s" % (role, path))))
    for case in range(1, 20):
        system.choose("start visit %d" % case)
        system.choose("choose visit#%d admit {\"Ada\", 7, glucose}" % case)
    until(lambda: not system.unsettled(), "the letters did not come")
    for case in range(1, 20):
        until(lambda: "visit#%d/admit.1 measure" % case in system.ready("lab"), "the lab was not told")
        assert system.choose("choose visit#%d/admit.1 measure {5}" % case) == "taken"
    until(lambda: not system.unsettled(), "the results did not come")
    until(system.carried, "not every letter is carried")
    assert set(system.undelivered()) == {frames.AGAIN}


def test_letters_that_a_door_refuses_hold_up_no_others(make: Make) -> None:
    system = make(CLAIM)
    system.start()
    path = system.folder / "payments.sock"
    system.run("/usr/bin/python3", str(OFFICES / "aw_guard"), str(system.spec), "payments", "post:front=%s" % path, stderr=subprocess.DEVNULL)
    until(lambda: opened(path), "the door is not open")
    system.start_post("--office", "payments=%s" % path)
    for case in (1, 2, 3):
        system.choose("start claim %d" % case)
        system.choose("choose claim#%d open_claim {1, \"storm\", 2, \"DK50\"}" % case)
        until(lambda: "claim#%d/open_claim.1 deny" % case in system.ready("assessor"), "the assessor has no task")
        assert system.choose("choose claim#%d/open_claim.1 deny {\"late\"}" % case) == "taken"
        until(lambda: "claim#%d/open_claim.2" % case in "".join(system.items("payments")), "payments has no task")
    until(lambda: "payments: reply 9 to a letter of assessor" in system.log(), "nothing is told of the door")
    assert all("waits" in item for item in system.items("payments"))


def test_a_sender_whose_letters_are_refused_holds_up_no_later_one(make: Make) -> None:
    system = make(CLAIM)
    system.start()
    path = system.folder / "front.sock"
    system.run("/usr/bin/python3", str(OFFICES / "aw_guard"), str(system.spec), "front", "post:payments=%s" % path, stderr=subprocess.DEVNULL)
    until(lambda: opened(path), "the door is not open")
    system.start_post("--office", "front=%s" % path)
    system.choose("start claim 1")
    system.choose("choose claim#1 open_claim {1, \"storm\", 2, \"DK50\"}")
    until(lambda: "claim#1/open_claim.1 deny" in system.ready("assessor"), "the assessor has no task")
    system.choose("choose claim#1/open_claim.1 deny {\"late\"}")
    until(lambda: "front: reply 9 to a letter of assessor" in system.log(), "nothing is told of the door")
    until(lambda: "claim#1/open_claim.2 file_away" in system.ready("payments"), "payments was not told")
    system.choose("choose claim#1/open_claim.2 file_away")
    number = len(system.all_of("payments", frames.PULL))

    def noted() -> int:
        return int(json.loads((system.folder / "places").read_bytes()).get("payments front", [0])[0])
    until(lambda: noted() == number, "the letters of payments are held up")


def test_each_office_has_a_post_of_its_own(make: Make) -> None:
    """No office trusts another's post: each brings its own letters to the doors of the others."""
    system = make(CLAIM)
    system.start()
    roles = system.offices.roles
    doors = {(to, sender): system.folder / ("%s-%s.sock" % (to, sender)) for to in roles for sender in roles if to != sender}
    for to in roles:
        system.run("/usr/bin/python3", str(OFFICES / "aw_guard"), str(system.spec), to, *("letters:%s=%s" % (sender, doors[to, sender]) for sender in roles if sender != to))
    until(lambda: all(opened(path) for path in doors.values()), "the doors are not open")
    for role in roles:
        words = [word for to in roles if to != role for word in ("--office", "%s=%s" % (to, doors[to, role]))]
        with (system.folder / "post.log").open("ab") as log:
            system.run("/usr/bin/python3", str(OFFICES / "aw_post"), str(system.spec), str(system.folder / (role + ".places")), "--from", role, "--interval", "0.1",
                       "--timeout", str(LONG), *words, stderr=log)
    system.choose("start claim 1")
    system.choose("choose claim#1 open_claim {1, \"storm\", 2, \"DK50\"}")
    until(lambda: "claim#1/open_claim.1 deny" in system.ready("assessor"), "the assessor has no task")
    assert system.choose("choose claim#1/open_claim.1 deny {\"late\"}") == "taken"
    until(lambda: "claim#1/open_claim.2 file_away" in system.ready("payments"), "payments was not told")
    assert system.choose("choose claim#1/open_claim.2 file_away") == "taken"
    until(lambda: not system.unsettled(), "the letters did not come")
    assert " to a letter of " not in system.log() and ": refused, " not in system.log()
