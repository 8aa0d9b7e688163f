"""The pages over real offices: a claim by clicks, what must not be shown or sent, several clerks, and offices that are closed."""
from __future__ import annotations

import contextlib
import os
import signal
import time
from collections.abc import Callable
from pathlib import Path

import pytest
from conftest import TYPED, Company, settled
from systems import until

from aw_clerk.desk import CLOSED, Desk
from aw_clerk.logins import line_of
from aw_clerk.tasks import tasks_of
from aw_clerk.values import NUMBER, TEXT, Value
from aw_clerk.whole import Journals
from aw_clerk.wording import ANSWERS
from browsing import Browser, good

Make = Callable[[str], Company]


def test_a_claim_by_clicks(company: Make) -> None:
    made = company(TYPED)
    made.system.start_post()
    front, assessor, payments = (made.open_desk(role) for role in made.roles)
    front.get("/")
    assert "Nothing is open." in good(front)
    front.follow("Begin a case")
    front.press("Begin claim", Number_of_the_case="501")
    assert "Claim 501 has begun." in good(front)
    front.follow("Open claim")
    good(front)
    front.press("Go on", Policy="88012", What="storm, roof", Asked="12000", Iban="DK50 0040")
    text = good(front)
    assert "send this?" in text and "storm, roof" in text and "12000" in text
    front.press("Send")
    assert "It goes on at Assessor and Payments." in good(front)
    made.system.lines += ["start claim 501", 'choose claim#501 open_claim {88012, "storm, roof", 12000, "DK50 0040"}']
    settled(made)
    payments.get("/")
    assert "Waits for assessor" in good(payments) and "From front" in good(payments)
    assessor.get("/")
    assert "12000" in good(assessor) and "Can be done: Grant" in good(assessor)
    assessor.follow("Assessment, claim 501")
    assert "storm, roof" in good(assessor) and "Small claims: the assessor grants an amount without a survey." in good(assessor)
    assessor.follow("Grant")
    assessor.press("Go on", Amount="9000")
    assessor.press("Change it")
    assert 'value="9000"' in assessor.page.source
    assessor.press("Go on", Amount="8000")
    assessor.press("Send")
    assert "Grant: done for assessment, claim 501." in good(assessor)
    made.system.lines.append("choose claim#501/open_claim.1 grant {8000}")
    settled(made)
    payments.get("/")
    payments.follow("Payment, claim 501")
    text = good(payments)
    assert "Only where verdict is denied; here it is granted." in text and "8000" in text
    payments.follow("Pay")
    payments.press("Send")
    made.system.lines.append("choose claim#501/open_claim.2 pay")
    settled(made)
    front.get("/case/claim%23501")
    text = good(front)
    assert "Decided: Open claim, by front, today" in text and "8000" in text and "not there yet" not in text
    front.follow("Decided")
    assert all(words in good(front) for words in ("Policy 88012", "What storm, roof", "Asked 12000", "Iban DK50 0040"))
    for role in made.roles:
        assert not made.log(role).replace("aw_desk: the desk of %s is at http://127.0.0.1:%d/\n" % (role, made.port(role)), "")


NESTED = """role shop
con empty 0
% What it is, how many of it, and what more.
con item 3
sort order shop 0 1
start order
type goods
shape empty () goods
shape item (text, num, goods) goods
carry order ()<goods>
% What is ordered.
rule place {what} : order()<what>
"""


def test_values_within_values(company: Make) -> None:
    """A choice of constructors, and the fields of the one that was chosen."""
    made = company(NESTED)
    shop = made.open_desk("shop")
    shop.get("/begin")
    shop.press("Begin order")
    shop.follow("Place")
    shop.press("Go on")
    assert "Nothing was sent: What. Choose one." in good(shop) and shop.page.status == 422
    shop.press("Go on", What="item")
    assert shop.page.status == 200 and "What: item What it is, how many of it, and what more." in good(shop)
    shop.press("Go on", Part_1="lamp <1>", Part_2="many", Goods="item")
    assert shop.page.status == 422 and "Enter a whole number in digits, as 120." in good(shop)
    shop.press("Go on", Part_2="2", Goods="empty")
    assert "send this?" in good(shop)
    shop.press("Send")
    assert "Place: done for order 1." in good(shop)
    assert tasks_of(made.book("tasks", made.journal("shop")))["order#1"].text.startswith('{item("lamp <1>", 2, empty)}')


HOSTILE = ["<script>alert(1)</script>", "\"'&<>", "x" * 1024, "two\nlines", "\\n", "æøå 好", "{{7*7}}", "a%00b", "\u202e\u0085"]


@pytest.mark.parametrize("text", HOSTILE)
def test_any_text_comes_through(company: Make, text: str) -> None:
    made = company(TYPED)
    front = made.open_desk("front")
    front.get("/begin")
    front.press("Begin claim", Number_of_the_case="1")
    front.follow("Open claim")
    front.press("Go on", Policy="1", What=text, Asked="2", Iban="n")
    front.press("Send")
    assert "Open claim: done for claim 1." in good(front)
    row = tasks_of(made.book("tasks", made.journal("front")))["claim#1"]
    assert row.values()[0][1].word == text
    assert "<script>" not in front.page.source


def test_bytes_that_are_no_text(company: Make) -> None:
    """Another client may enter any bytes; each page shows them, and none fails."""
    made = company(TYPED)
    made.system.start_post()
    front, assessor = made.open_desk("front"), made.open_desk("assessor")
    made.system.choose("start claim 1")
    data = b'\xff\xfe \xc2\x9b \xe2\x80\xae "\x80'.decode("utf-8", "surrogateescape").replace('"', '\\"')
    assert made.system.choose('choose claim#1 open_claim {1, "%s", 2, "n"}' % data) == "taken"
    until(lambda: tasks_of(made.book("tasks", made.journal("assessor"))), "the letter did not come")
    for browser, url in ((front, "/case/claim%231"), (front, "/task/claim%231"), (assessor, "/"), (assessor, "/task/claim%231/open_claim.1"), (assessor, "/?words=%ff")):
        browser.get(url)
        assert browser.page.status == 200 and ('\\xff\\xfe \\x9b \\u202e "\\x80' in good(browser) or "words" in url), url
    assessor.get("/task/claim%231/open_claim.1")
    assessor.follow("Inspect")
    assessor.press("Send")
    assert "Inspect: done" in good(assessor)


def test_what_no_text_may_have_is_told(company: Make) -> None:
    made = company(TYPED)
    front = made.open_desk("front")
    front.get("/begin")
    front.press("Begin claim")
    front.follow("Open claim")
    for what, words in (("tab\there", "a sign in it that no text may have"), ("ø" * 513, "This text has 1026 bytes")):
        front.press("Go on", Policy="1", What=what, Asked="2", Iban="n")
        assert words in good(front) and front.page.status == 422
    for number in ("", "-1", "1.5", "18446744073709551616", "9" * 100, "٣"):
        front.press("Go on", Policy=number, What="w", Asked="2", Iban="n")
        assert front.page.status == 422 and ("whole number" in good(front) or "Enter a number" in good(front) or "too large" in good(front)), number
    assert not [task for task in tasks_of(made.book("tasks", made.journal("front"))).values() if not task.is_open]


def test_forged_posts_do_nothing(company: Make) -> None:
    made = company(TYPED)
    front = made.open_desk("front")
    front.get("/")
    for url in ("/begin/claim", "/do/open_claim/claim%231", "/claim/claim%231"):
        for body in (b"", b"number=7", b"number=7&token=x", b"number=7&token=" + b"x" * 100):
            assert front.ask("POST", url, body).status == 403
    other = Browser(made.port("front"))
    other.get("/begin")
    token = next(control.value for form in other.page.forms for control in form.controls if control.name == "token")
    assert front.ask("POST", "/begin/claim", ("number=7&token=" + token).encode()).status == 403, "a token of another session"
    with contextlib.suppress(BrokenPipeError, ConnectionResetError):  # (what is too long need not be read to its end)
        assert front.ask("POST", "/begin/claim", b"number=" + b"7" * (1 << 19)).status in (400, 403, 413)
    assert front.ask("POST", "/begin/claim", b"\xff\xfe" * 100, "multipart/form-data; boundary=x").status == 403
    assert not tasks_of(made.book("tasks", made.journal("front")))
    assert "Traceback" not in made.log("front")


def test_headers_and_paths(company: Make) -> None:
    made = company(TYPED)
    front = made.open_desk("front")
    page = front.get("/")
    assert "script" not in page.headers["content-security-policy"] and "default-src 'none'" in page.headers["content-security-policy"]
    assert page.headers["x-content-type-options"] == "nosniff" and "httponly" in page.headers["set-cookie"].lower() and "samesite=strict" in page.headers["set-cookie"].lower()
    for url in ("/task/", "/task/claim%23999", "/task/%3Cscript%3E", "/task/claim%231/../../etc/passwd", "/task/nothing%231", "/task/claim%2318446744073709551616",
                "/case/claim%231%20--redo", "/case/--help", "/case/claim%237", "/case/nothing%231", "/case/claim%2307", "/case/claim%23%d9%a3", "/whole/claim%231", "/apart/claim%231",
                "/do/x/claim%231", "/static/style.css", "/templates/base.html", "/%ff%fe", "/" + "a" * 60000):
        assert front.get(url).status in (400, 404), url
        assert "<script>" not in front.page.source
    for query in ("page=99999999999999999999999", "page=-1", "page=x", "words=%00%ff", "sort=%3Cb%3E", "order=%27"):
        assert front.get("/?" + query).status == 200 and good(front)
    assert front.get("/decided?before=99999999999999999999").status == 200
    assert "Traceback" not in made.log("front")


def test_two_clerks(company: Make, tmp_path: Path) -> None:
    made = company(TYPED)
    logins = tmp_path / "logins"
    logins.write_text(line_of("ada", "correct horse") + "\n" + line_of("bob", "battery staple") + "\n", encoding="utf-8")
    ada = made.open_desk("front", "--logins", str(logins))
    bob = Browser(made.port("front"))
    assert "Sign in" in ada.get("/begin").text() and ada.get("/task/claim%231").url.startswith("/login")
    for name, password in (("ada", "wrong"), ("eve", "correct horse"), ("", ""), ("ada", "")):
        ada.get("/login")
        assert ada.press("Sign in", Name=name, Password=password).status == 403
    ada.get("/begin")
    ada.press("Sign in", Name="ada", Password="correct horse")
    assert ada.page.url == "/begin"
    bob.get("/")
    bob.press("Sign in", Name="bob", Password="battery staple")
    ada.press("Begin claim", Number_of_the_case="1")
    ada.press("Tell others that I am at it")
    assert "ada is at it" in bob.get("/").text()
    assert "ada has been at this task since" in bob.follow("Claim 1").text()
    bob.follow("Open claim")
    bob.press("Go on", Policy="1", What="w", Asked="2", Iban="n")
    ada.follow("Open claim")
    ada.press("Go on", Policy="1", What="first", Asked="2", Iban="n")
    ada.press("Send")
    bob.press("Send")
    assert "Somebody has already decided this task. Nothing was changed." in good(bob)
    assert "Decided: Open claim, by ada" in good(bob)
    ada.get("/begin")
    ada.press("Begin claim", Number_of_the_case="2")
    bob.get("/do/open_claim/claim%232")
    bob.cookies = {}  # (as if the session had ended overnight)
    bob.press("Go on", Policy="1", What="overnight", Asked="2", Iban="n")
    assert "You were signed out, and nothing was sent." in good(bob)
    assert bob.press("Sign in", Name="bob", Password="wrong").status == 403 and 'value="bob"' in bob.page.source
    bob.press("Sign in", Name="bob", Password="battery staple")
    assert bob.page.url == "/do/open_claim/claim%232" and entered(bob) == ["1", "overnight", "2", "n"]
    assert "overnight" not in ada.get("/do/open_claim/claim%232").source, "another session has none of it"
    bob.press("Sign out")
    assert "Sign in" in bob.get("/").text()
    logins.write_text("ada\n", encoding="utf-8")
    assert "Sign in" in ada.get("/").text() and ada.page.status == 200, "nobody is let in while the file is none"
    logins.write_text(line_of("bob", "battery staple") + "\n", encoding="utf-8")
    time.sleep(0.01)
    assert "Sign in" in ada.get("/").text(), "who is taken out of the file is out"


def test_two_desks_in_one_browser(company: Make) -> None:
    """A browser has the same cookies at each port of a machine: a form of one desk can be sent after a look at another."""
    made = company(TYPED)
    front, assessor = made.open_desk("front"), made.open_desk("assessor")
    assessor.cookies = front.cookies
    front.get("/begin")
    assessor.get("/")
    front.press("Begin claim", Number_of_the_case="1")
    assert "Claim 1 has begun." in good(front)
    assessor.get("/")
    front.follow("Open claim")
    assessor.get("/decided")
    front.press("Go on", Policy="1", What="w", Asked="2", Iban="n")
    assert "send this?" in good(front) and len(front.cookies) == 2


def test_a_race_of_two_choices(company: Make, tmp_path: Path) -> None:
    """Both were sent while the task was open: the second is told that it came too late, and both are noted as what they were."""
    made = company(TYPED)
    desk = Desk(str(made.system.spec), made.journal("front"), tmp_path, None, Journals())
    try:
        assert [desk.start(clerk, "claim", 1).words for clerk in ("ada", "bob")] == ["Claim 1 has begun.", ANSWERS["known"]]
        task = desk.task("claim#1")
        rule = desk.rule(task, "open_claim") if task else None
        assert task is not None and rule is not None
        entered = [Value(NUMBER, "1"), Value(TEXT, "w"), Value(NUMBER, "2"), Value(TEXT, "n")]
        said = [desk.choose(clerk, task, rule, entered) for clerk in ("ada", "bob")]
        assert [one.done for one in said] == [True, False] and said[1].words == "Somebody has already decided this task. Nothing was changed."
        assert [(note.clerk, note.answer) for _, note in desk.records.decisions(4)] == [("bob", "developed"), ("ada", "taken"), ("bob", "known"), ("ada", "taken")]
        found = desk.records.of_task("claim#1")
        assert found is not None and (found.clerk, found.rule) == ("ada", "open_claim")
    finally:
        desk.close()


def test_a_node_that_is_killed_while_a_form_is_open(company: Make) -> None:
    made = company(TYPED)
    front = made.open_desk("front")
    front.get("/begin")
    made.system.nodes["front"].kill()
    front.press("Begin claim", Number_of_the_case="501")
    assert CLOSED in good(front)
    made.system.nodes["front"].start()
    front.press("Begin claim")
    assert "Claim 501 has begun." in good(front)
    front.follow("Open claim")
    front.press("Go on", Policy="1", What="storm,\nroof", Asked="2", Iban="n")
    made.system.nodes["front"].kill()
    front.press("Send")
    assert CLOSED in good(front) and entered(front) == ["1", "storm,\nroof", "2", "n"], "the form is shown with what was typed"
    for url in (front.page.url, "/", "/do/open_claim/claim%23501"):
        front.get(url)
        assert CLOSED not in good(front), "loading it again sends nothing"
    assert entered(front) == ["1", "storm,\nroof", "2", "n"]
    made.system.nodes["front"].start()
    front.press("Go on", Asked="3")
    front.press("Send")
    assert "Open claim: done for claim 501." in good(front)
    assert tasks_of(made.book("tasks", made.journal("front")))["claim#501"].text.startswith('{1, "storm,\\nroof", 3, "n"}')
    assert "Traceback" not in made.log("front") and "7400" not in good(front)


def entered(browser: Browser) -> list[str]:
    """What is in the fields of the page's form."""
    assert browser.page is not None
    return [control.value for form in browser.page.forms for control in form.controls if control.kind != "hidden"]


def test_a_rule_without_fields_at_a_closed_office(company: Make) -> None:
    """It is asked for once more."""
    made = company(NESTED.replace("rule place {what} : order()<what>", "rule place : order()<empty>"))
    shop = made.open_desk("shop")
    assert made.system.choose("start order 1") == "taken"
    shop.get("/task/order%231")
    shop.follow("Place")
    made.system.nodes["shop"].kill()
    shop.press("Send")
    assert CLOSED in good(shop) and "send this?" in good(shop)
    made.system.nodes["shop"].start()
    shop.press("Send")
    assert "Place: done for order 1." in good(shop)


def test_a_journal_that_cant_be_read_while_a_form_is_open(company: Make) -> None:
    """What was typed is there when the journal can be read again, unless another site has sent it."""
    made = company(TYPED)
    front = made.open_desk("front")
    assert made.system.choose("start claim 1") == "taken"
    front.get("/do/open_claim/claim%231")
    journal = Path(made.journal("front"))
    aside = journal.rename(journal.with_suffix(".aside"))
    for child in children(made, "front"):
        os.kill(child, signal.SIGKILL)
    front.press("Go on", Policy="1", What="storm", Asked="2", Iban="n")
    assert front.page.status == 503 and "The journal can't be read now" in good(front)
    aside.rename(journal)
    front.follow("The form, with what you entered")
    assert front.page.status == 200 and entered(front) == ["1", "storm", "2", "n"] and good(front)
    forged = front.ask("POST", "/do/open_claim/claim%231", b"token=x&f0=7&f1=forged")
    assert forged.status == 403 and "what you entered" not in forged.text()
    assert entered(front) == [] and "forged" not in front.get("/do/open_claim/claim%231").source


def test_the_desk_and_the_book_are_killed(company: Make) -> None:
    """Nothing that was decided is lost; the desk's notes stay, and a book that ends is begun anew."""
    made = company(TYPED)
    front = made.open_desk("front")
    for number in range(1, 6):
        front.get("/begin")
        front.press("Begin claim", Number_of_the_case=str(number))
        assert "has begun" in good(front)
        for child in children(made, "front"):
            os.kill(child, signal.SIGKILL)
        assert "%d open tasks" % number in front.get("/").text() or number == 1
        made.desks["front"].kill()
        made.desks["front"].wait()
        front = made.open_desk("front")
        assert "Begun" in front.get("/decided").text() and front.page.text().count("Begun") == number
    front.get("/begin")
    assert 'value="6"' in front.page.source


def children(made: Company, role: str) -> list[int]:
    """The processes that a desk has begun: its books."""
    return [int(path.name) for path in Path("/proc").glob("[0-9]*") if parent(path) == made.desks[role].pid]


def parent(path: Path) -> int:
    """The parent of a process."""
    try:
        return int((path / "stat").read_text().rpartition(")")[2].split()[1])
    except OSError:
        return 0


def test_four_thousand_open_tasks(company: Make) -> None:
    made = company(TYPED)
    session = made.system.session("front")
    sort = made.system.names.number("sort", "claim")
    for number in range(1, 4001):
        assert session.ask(2, b"\0" + sort.to_bytes(2, "big") + number.to_bytes(8, "big"))[1] == b"taken"
    session.peer.close()
    front = made.open_desk("front")
    assert "4000 open tasks" in front.get("/").text()
    began = time.monotonic()
    for url in ("/", "/?page=50", "/?words=claim+3999", "/?ready=1&order=new", "/task/claim%23777"):
        front.get(url)
        assert good(front)
    assert time.monotonic() - began < 5 * 5.0, "a page takes a second at most on a machine of its own; five times that where it is shared"
    assert front.get("/?words=claim%233999").text().count("Can be done") == 1
