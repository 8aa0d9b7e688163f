"""The pages in a real browser: the claim by clicks and by keys alone, narrow screens, and nothing told in the console."""
from __future__ import annotations

from collections.abc import Callable

from conftest import TYPED, Company
from screens import Screen, screen  # noqa: F401
from selenium.webdriver.common.by import By
from selenium.webdriver.common.keys import Keys
from systems import until

Make = Callable[[str], Company]


def test_a_claim_by_clicks(company: Make, screen: Screen) -> None:  # noqa: F811
    made = company(TYPED)
    made.system.start_post()
    for role in made.roles:
        made.open_desk(role)
    hostile = "<script>document.title='owned'</script> \"roof\" & æøå"
    screen.at(0)
    screen.click("Begin a case")
    screen.click("Begin claim")
    screen.click("Open claim")
    screen.enter(Policy="seven", What=hostile, Asked="12000", Iban="DK50 0040")
    screen.driver.find_element(By.XPATH, "//button[text()='Go on']").click()
    assert screen.driver.execute_script("return document.querySelector('input:invalid') !== null"), "the browser itself refuses a word where a number is due"
    screen.enter(Policy="88012")
    assert hostile in screen.click("Go on")
    assert "It goes on at Assessor and Payments." in screen.click("Send")
    screen.driver.refresh()
    assert "It goes on" not in screen.text(), "loading the page again sends nothing and says nothing"
    until(lambda: "Assessment, claim 1" in screen.at(1), "the assessor has no task")
    screen.click("Assessment, claim 1")
    assert "owned" not in screen.driver.title and hostile in screen.text()
    screen.driver.find_element(By.TAG_NAME, "summary").click()
    screen.click("Inspect")
    screen.click("Send")
    assert "Survey, claim 1" in screen.at(1)
    screen.click("Survey, claim 1")
    screen.click("Find repairable")
    screen.enter(Cost="7400")
    screen.click("Go on")
    screen.click("Send")
    screen.at(1)
    screen.click("Decision, claim 1")
    assert "Only where found is destroyed" in screen.text().replace("finding", "found")
    screen.click("Pay repair")
    screen.click("Send")
    until(lambda: "Can be done: Pay" in screen.at(2), "payments was not told")
    screen.click("Payment, claim 1")
    screen.click("Pay")
    screen.click("Send")
    until(lambda: "7400" in screen.at(0, "/case/claim%231"), "the front office has no letter")
    assert not made.system.items("payments")


def test_a_claim_by_keys_alone(company: Make, screen: Screen) -> None:  # noqa: F811
    made = company(TYPED)
    made.system.start_post()
    for role in made.roles:
        made.open_desk(role)
    screen.at(0)
    screen.enter_on("Begin a case")
    screen.tab_to("Number of the case")
    screen.keys(Keys.CONTROL, "a")
    screen.keys("77")
    assert "Claim 77 has begun." in screen.moved(lambda: screen.keys(Keys.ENTER))
    screen.enter_on("Open claim")
    for label, value in (("Policy", "1"), ("What", "by keys"), ("Asked", "2"), ("Iban", "n")):
        screen.tab_to(label)
        screen.keys(value)
    assert "by keys" in screen.enter_on("Go on")
    assert "Open claim: done for claim 77." in screen.enter_on("Send")
    until(lambda: "Assessment, claim 77" in screen.at(1), "the assessor has no task")
    screen.enter_on("Assessment, claim 77")
    screen.tab_to("Something else")
    screen.keys(Keys.ENTER)
    screen.enter_on("Deny")
    screen.tab_to("Why")
    screen.keys("too late")
    screen.enter_on("Go on")
    assert "Deny: done for assessment, claim 77." in screen.enter_on("Send")
    until(lambda: "Can be done: File away" in screen.at(2), "payments was not told")
    screen.enter_on("Payment, claim 77")
    screen.enter_on("File away")
    screen.enter_on("Send")
    until(lambda: "too late" in screen.at(0, "/case/claim%2377") and "unpaid" in screen.text(), "the front office has no letter")
    screen.enter_on("Find a case")
    screen.tab_to("Number of the case")
    screen.keys("78")
    assert "This office knows nothing of claim 78." in screen.moved(lambda: screen.keys(Keys.ENTER))
    screen.tab_to("Number of the case")
    screen.keys(Keys.CONTROL, "a")
    screen.keys("77")
    assert "too late" in screen.moved(lambda: screen.keys(Keys.ENTER))
