"""A case at all offices, for a desk that may see all journals: as it stands once every letter has come, and as each office knows it now."""
from __future__ import annotations

from collections.abc import Callable
from pathlib import Path

from conftest import TYPED, Company, settled

from aw_clerk.tasks import tasks_of
from aw_clerk.whole import DAMAGED, UNFIT
from browsing import Browser, good

Make = Callable[[str], Company]
ALL = ["Claim 1", "Assessment, claim 1", "Survey, claim 1", "Decision, claim 1", "Payment, claim 1"]


def whole(company: Make, *without: str) -> tuple[Company, Browser]:
    """Offices that have a claim with a survey, and a desk that may see all journals."""
    made = company(TYPED)
    made.system.start_post()
    front = made.open_desk("front", "--journals", *(made.journal(role) for role in made.roles if role not in without), *(word for role in without for word in ("--without", role)))
    assert "No office has begun this case." in front.get("/whole/claim%231").text()
    for line in ("start claim 1", 'choose claim#1 open_claim {88012, "storm, roof", 12000, "DK50 0040"}'):
        assert made.system.choose(line) == "taken"
    settled(made)
    return made, front


def sections(browser: Browser) -> list[str]:
    """The tasks of a case, as a page shows them."""
    assert browser.page is not None
    return browser.page.source.split('<section class="task">')[1:]


def test_a_case_whole(company: Make) -> None:
    """An office that may see all journals is shown each task of a case, under the one that it came from: as its own office knows it now, and as it
    stands once every letter has come."""
    made, front = whole(company)
    assert made.system.choose("choose claim#1/open_claim.1 inspect") == "taken"
    front.get("/case/claim%231")
    front.follow("The case at all offices")
    front.follow("What each office knows now")
    good(front)
    rows = {name: task for role in made.roles for name, task in tasks_of(made.book("tasks", "--case", "claim#1", made.journal(role))).items()}
    shown = sections(front)
    assert [section.split("<h2>")[1].split("</h2>")[0] for section in shown] == ALL
    assert len(rows) == 5
    for section, name in zip(shown, sorted(rows)):
        assert ("Decided: <strong>" in section) == (not rows[name].is_open)
    assert shown[1].count("storm, roof") == 1 and "Assessor. Decided: <strong>Inspect" in shown[1] and "Payments. Still open." in shown[4]


def test_a_case_once_every_letter_has_come(company: Make) -> None:
    """What an office has not heard of yet is on the page all the same, and nothing waits for a value that was given."""
    made, front = whole(company)
    made.system.kill_post()
    assert made.system.choose("choose claim#1/open_claim.1 grant {9000}") == "taken"
    front.get("/whole/claim%231")
    assert "The case as it stands once every letter has come." in good(front)
    lines = made.book("cases", "--case", "claim#1", *map(made.journal, made.roles))
    shown = sections(front)
    assert [section.split("<h2>")[1].split("</h2>")[0] for section in shown] == ["Claim 1", "Assessment, claim 1", "Payment, claim 1"] and len(lines) == 3
    assert all(("Decided: <strong>" in section) == (not task.is_open) for section, task in zip(shown, tasks_of(lines).values(), strict=True))
    assert "9000" in shown[2] and "9000" in shown[0] and "assessor owes it" not in good(front)
    front.follow("What each office knows now")
    assert "assessor owes it" in good(front) and "9000" not in sections(front)[2]
    front.follow("The case once every letter has come")
    assert front.page.url == "/whole/claim%231" and sections(front) == shown


def test_a_case_of_journals_that_do_not_fit(company: Make) -> None:
    """One was set back, one is damaged, one is not there: a sentence, and what each office knows. Put right, the case is whole again."""
    made, front = whole(company)
    assert made.system.choose("choose claim#1/open_claim.1 grant {9000}") == "taken"
    settled(made)
    made.system.kill_post()
    made.system.nodes["assessor"].kill()
    journal = Path(made.journal("assessor"))
    data = journal.read_bytes()
    first = 11 + int.from_bytes(data[3:11], "big")
    for broken, why in ((data[:first] + b"\0", UNFIT), (data[:first] + b"\0" + data[first + 1:], DAMAGED)):
        journal.write_bytes(broken)
        front.get("/whole/claim%231")
        assert why in good(front) and len(sections(front)) == 2, "the assessor knows of no task"
    journal.unlink()
    front.get("/whole/claim%231")
    assert good(front).count("The journal of one office can't be read now") == 2 and len(sections(front)) == 2
    journal.write_bytes(data)
    front.get("/whole/claim%231")
    assert "once every letter has come" in good(front) and len(sections(front)) == 3
    assert "it was forged, or that journal was set back" in made.log("front") and "Traceback" not in made.log("front")


def test_a_case_without_the_journal_of_an_office(company: Make) -> None:
    """It is said which one is missing, or, where `--without` says that it never served, that it did."""
    made, front = whole(company, "payments")
    front.get("/whole/claim%231")
    assert UNFIT in good(front) and "of which no journal is given: it was forged, or payments did serve" in made.log("front")
    made.desks["front"].kill()
    made.desks["front"].wait()
    front = made.open_desk("front", "--journals", made.journal("front"), made.journal("assessor"))
    front.get("/whole/claim%231")
    assert "Payments has no journal here, so the case can't be put together." in good(front) and len(sections(front)) == 2
