"""aw_lint: each kind of finding, what it leaves alone, and how it is allowed."""
from __future__ import annotations

import pytest

from conftest import EXAMPLES, tool

TYPED = (EXAMPLES / "insurance-claim-typed.aw").read_text().split("\nschedule\n")[0] + "\n"
REVIEW = (EXAMPLES / "editorial-review.aw").read_text().split("\nschedule\n")[0] + "\n"

# Which text, what is replaced by what, and the findings that come of it: the kind and what is under the caret.
CASES = [
    (REVIEW, "judgement(doubtful, a), judgement(doubtful, b)", "judgement(doubtfull, a), judgement(doubtful, b)", [("misspelt", "doubtfull")]),
    (REVIEW, "judgement(sound, a), judgement(sound, b)", "judgement(snoud, a), judgement(sound, b)", [("misspelt", "snoud")]),
    (TYPED, "decision(asked, destroyed)", "decision(asked, destroied)", [("misspelt", "destroied")]),
    (TYPED, "rule file_away : payment(account(iban), denied(why))<unpaid>\n", "", [("uncovered", "payment"), ("unused", "unpaid")]),
    (TYPED, "rule pay_all : decision(asked, destroyed)<granted(asked)>\n", "", [("uncovered", "decision")]),
    (TYPED, "rule find_destroyed : survey(what)<destroyed>\n", "", [("never_built", "destroyed")]),
    (TYPED, "rule find_repairable {cost} : survey(what)<repairable(cost)>\nrule find_destroyed : survey(what)<destroyed>\n", "",
     [("no_rule", "survey"), ("never_built", "repairable(cost)"), ("never_built", "destroyed")]),
    (TYPED, "rule deny {why}", "rule deny {why, note}", [("idle_field", "note")]),
    (REVIEW, "start submission\n", "sort appeal editor 0 0\nstart submission\n", [("unreachable", "appeal")]),
    (TYPED, "role payments\n", "role payments\nrole archive\n", [("unused", "archive")]),
    (TYPED, "type letter\n", "type letter\ntype stamp\n", [("unused", "stamp")]),
    (TYPED, "use front payment\n", "use front payment\nuse payments assessment\n", [("unused", "use payments assessment")]),
    (TYPED, "offer payment\n", "offer payment\noffer survey\n", [("unused", "offer survey")]),
    (TYPED, "con unpaid 0\n", "con unpaid 0\ncon late 0\n", []),
]


def findings(text: str, *words: str) -> list[tuple[str, str]]:
    """The kinds that are found, each with what is under its caret."""
    done = tool("aw_lint", "--format=line", *words, "-", data=text.encode())
    assert done.returncode in (0, 1), done.stdout + done.stderr
    found, lines = [], text.split("\n")
    shown = tool("aw_lint", *words, "-", data=text.encode()).stdout.split("aw_lint ")[1:]
    for line, picture in zip(done.stdout.split("\n")[:-1], shown, strict=True):
        _, number, column, kind = line.split(":")[:4]
        carets = picture.count("^") or 1
        found.append((kind.strip(), lines[int(number) - 1][int(column) - 1:int(column) - 1 + carets]))
    return found


@pytest.mark.parametrize("case", CASES, ids=lambda case: (case[2] or case[1])[:40])
def test_each_kind(case) -> None:
    """What is found, and nothing else."""
    text, before, after, wanted = case
    assert before in text
    if "late" in after:
        text = text.replace("shape unpaid () payment\n", "shape unpaid () payment\nshape late () verdict\n")
        wanted = [("unused", "late"), ("uncovered", "payment")]
    assert sorted(findings(text.replace(before, after))) == sorted(wanted)


def test_the_examples_are_clean() -> None:
    """Of the shipped examples one field is kept with its task alone."""
    found = {path.name: findings(path.read_text()) for path in sorted(EXAMPLES.glob("*.aw"))}
    assert {name: some for name, some in found.items() if some} == {"task-note.aw": [("idle_field", "outcome")]}


def test_a_kind_is_allowed() -> None:
    """By a word, or by a comment above the line."""
    text = TYPED.replace("rule deny {why}", "rule deny {why, note}")
    assert findings(text, "--allow", "idle_field") == []
    assert findings(text.replace("rule deny", "% aw_lint: allow idle_field\n% The note stays here.\nrule deny")) == []
    assert findings(text.replace("rule deny", "% aw_lint: allow unused\nrule deny")) == [("idle_field", "note")]


def test_roles_that_are_checked_apart() -> None:
    """An office's own file leaves out the rules of others, and that is no finding."""
    for name in ("apart.front.aw", "apart.assessor.aw"):
        assert findings((EXAMPLES / "tutorial" / name).read_text()) == []


def test_a_text_that_the_program_refuses() -> None:
    """Its line, and what to do; with its status."""
    path = str(EXAMPLES / "faults" / "specification" / "never.aw")
    done = tool("aw_lint", path)
    assert (done.stdout, done.returncode) == ("bad specification line 3 never\n", 3) and "aw_explain %s" % path in done.stderr
