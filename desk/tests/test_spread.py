"""Cases that are spread over several systems: a desk proposes numbers of its own, begins no others, and leads to where the others lie."""
from __future__ import annotations

from pathlib import Path

import flask
import pytest
from conftest import CLAIM_TEXT, TOP

from aw_clerk import book
from aw_clerk.desk import Desk
from aw_clerk.pages import Pages
from aw_clerk.routes import application
from aw_clerk.whole import Journals
from aw_offices.spread import spread

SYSTEMS = "1 99 https://west.example/\n100 199 here\n200 299 the_office_in_town\n"


@pytest.fixture
def desk(tmp_path: Path, monkeypatch: pytest.MonkeyPatch) -> Desk:
    """The front office's desk over an empty journal, as the book would show it."""
    shown = {"spec": CLAIM_TEXT.splitlines(), "check": ["sound front events 0 bytes 700 behind 0 front.journal"]}
    monkeypatch.setattr(book, "said", lambda *words: shown.get(words[0], []))
    monkeypatch.setattr(book.Follower, "lines", lambda _: [])
    (tmp_path / "form.aw").write_text(CLAIM_TEXT, encoding="utf-8")
    (tmp_path / "systems").write_text(SYSTEMS, encoding="utf-8")
    return Desk(str(tmp_path / "form.aw"), "front.journal", tmp_path, None, Journals(), spread(str(tmp_path / "systems")))


@pytest.fixture
def pages(desk: Desk) -> flask.Flask:
    """Its pages."""
    return application(Pages(desk, None, TOP / "desk" / "aw_clerk" / "templates"), b"s" * 32)


def test_a_number_of_its_own_is_proposed(pages: flask.Flask) -> None:
    assert 'value="100"' in pages.test_client().get("/begin").get_data(as_text=True)


@pytest.mark.parametrize("number, said", [(5, "lie at https://west.example."), (250, "lie at the_office_in_town."), (1000, "lie in none of the systems.")])
def test_no_other_case_is_begun(pages: flask.Flask, desk: Desk, number: int, said: str, monkeypatch: pytest.MonkeyPatch) -> None:
    monkeypatch.setattr(type(desk.office), "start", lambda *_: pytest.fail("it was sent"))
    told = desk.start("ada", "claim", number)
    assert not told.done and said in told.words and told.words.endswith("Nothing was sent.")


def test_a_case_that_lies_elsewhere_is_shown_there(pages: flask.Flask) -> None:
    browser = pages.test_client()
    for page in ("/task/claim%235", "/task/claim%235/open_claim.1", "/case/claim%235", "/whole/claim%235", "/apart/claim%235", "/do/open_claim/claim%235"):
        answer = browser.get(page)
        assert answer.status_code == 303 and answer.headers["Location"] == "https://west.example" + page
    for page, said in (("/case/claim%23250", "lie at the"), ("/task/claim%231000", "lie in none of the systems")):
        answer = browser.get(page)
        assert answer.status_code == 404 and said in answer.get_data(as_text=True)
    assert browser.get("/task/claim%23150").status_code == 404
