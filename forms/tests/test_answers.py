"""aw_explain --answers: why a choice of a schedule is not taken."""
from __future__ import annotations

import pytest

from conftest import EXAMPLES, tool

CLAIM = (EXAMPLES / "insurance-claim-typed.aw").read_text().split("\nschedule\n")[0] + "\nschedule\nstart claim 1\n"
OPEN = 'choose claim#1 open_claim {1, "storm", 2, "DK50"}\n'
CASES = [
    ("start claim 1\n", "start claim 1: known", "this case has begun already"),
    ("choose claim#2 open_claim {1, \"a\", 2, \"b\"}\n", "choose claim#2 open_claim: unknown", "`claim#2` has not begun"),
    (OPEN + "choose claim#1/open_claim.1 grant {2}\n", "choose claim#1/open_claim.1 grant: unknown", "a line `settle` above delivers all messages"),
    (OPEN + "settle\nchoose claim#1/open_claim.1/inspect.1 find_destroyed\n", "choose claim#1/open_claim.1/inspect.1 find_destroyed: unknown", "choose `inspect` there first"),
    (OPEN + "settle\nchoose claim#1/open_claim.1 grant {2}\nchoose claim#1/open_claim.1/inspect.1 find_destroyed\n",
     "choose claim#1/open_claim.1/inspect.1 find_destroyed: unknown", "was decided by `grant`"),
    (OPEN + OPEN, "choose claim#1 open_claim: developed", "it was decided here"),
    (OPEN + "settle\nchoose claim#1/open_claim.1 pay\n", "choose claim#1/open_claim.1 pay: wrong rule", "the rules of an `assessment` are `grant`, `deny` and `inspect`"),
    (OPEN + "settle\nchoose claim#1/open_claim.1 grant\n", "choose claim#1/open_claim.1 grant: arguments", "one field, and no value is entered"),
    (OPEN + "settle\nchoose claim#1/open_claim.2 pay\n", "choose claim#1/open_claim.2 pay: waits claim#1/open_claim.1:r1", "an `assessment` of assessor, which is to be decided first"),
    (OPEN + 'settle\nchoose claim#1/open_claim.1 deny {"no"}\nsettle\nchoose claim#1/open_claim.2 pay\nsettle\n', "choose claim#1/open_claim.2 pay: mismatch 2", 'is `denied("no")`'),
]


@pytest.mark.parametrize("events, line, said", CASES, ids=[case[1].split(": ")[1] + str(number) for number, case in enumerate(CASES)])
def test_why_a_choice_is_not_taken(events: str, line: str, said: str) -> None:
    """The line of the transcript, its place, and the reason."""
    done = tool("aw_explain", "--answers", "-", data=(CLAIM + events).encode())
    assert done.returncode == 0 and line + "\n" in done.stdout and said in done.stdout, done.stdout
    assert done.stdout.count(" --> ") == 1


def test_what_is_taken_is_passed() -> None:
    """The shipped examples, whose choices are all taken."""
    for path in sorted(EXAMPLES.glob("*.aw")):
        done = tool("aw_explain", "--answers", str(path))
        assert (done.stdout, done.returncode) == ("%s: the program finds no fault\n" % path, 0)
