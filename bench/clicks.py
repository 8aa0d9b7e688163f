"""Desks for month.py: the desk of each office as a process of its own, and chromium, in which drawn choices are clicked."""
from __future__ import annotations

import os
import shutil
import subprocess
import sys
import tempfile
import time
from contextlib import suppress
from pathlib import Path
from typing import Any
from urllib.parse import quote

from living import TOP, Sorry, Step, World

FIRST_DESK, PAUSE, LOAD = 8400, 1.0, 120
# Choices without fields, which are asked for by clicks alone.
CLICKED = ("inspect", "find_destroyed", "pay_all", "pay_repair", "pay", "file_away")
CHROMIUM, DRIVER = Path("/usr/bin/chromium"), Path("/usr/bin/chromedriver")
FLAGS = ("--headless=new", "--no-sandbox", "--disable-dev-shm-usage", "--disable-gpu", "--no-first-run", "--disable-background-networking",
         "--disable-component-update", "--window-size=1000,1100")


def browser(profile: str) -> Any:
    """Chromium, where it is."""
    try:
        from selenium import webdriver
        from selenium.webdriver.chrome.service import Service
    except ImportError:
        raise Sorry("The Python that runs this has no selenium: `ci/setup desk` installs it for /usr/bin/python3, so begin with that one; or leave --desks away.") from None
    if not CHROMIUM.exists() or not DRIVER.exists():
        raise Sorry("Chromium or its driver is missing: `ci/setup desk` installs it; or leave --desks away.")
    options = webdriver.ChromeOptions()
    options.binary_location = str(CHROMIUM)
    for flag in (*FLAGS, "--user-data-dir=" + profile):
        options.add_argument(flag)
    driver = webdriver.Chrome(service=Service(str(DRIVER)), options=options)
    driver.set_page_load_timeout(LOAD)
    return driver


class Desks:
    """The desks of all offices, a browser, and the choices that wait to be clicked."""

    def __init__(self, world: World, book: str) -> None:
        self.world, self.book = world, book
        self.processes: list[subprocess.Popen[bytes]] = []
        self.profile = tempfile.mkdtemp()
        self.driver = browser(self.profile)
        self.cases: set[int] = set()
        self.waiting: list[Step] = []
        self.clicked, self.looked = 0, 0.0

    def start(self) -> None:
        """Starts the desk of each office."""
        for number, role in enumerate(self.world.names.roles):
            words = [sys.executable, "-B", str(TOP / "desk" / "aw_desk"), str(self.world.form), str(self.world.offices[role].journal),
                     str(self.world.folder / ("state-" + role)), "--listen", "127.0.0.1:%d" % (FIRST_DESK + number)]
            with open(self.world.folder / ("desk-%s.log" % role), "ab") as log:
                self.processes.append(subprocess.Popen(words, stdin=subprocess.DEVNULL, stdout=subprocess.DEVNULL, stderr=log,
                                                       env={**os.environ, "AW": self.world.binary, "AW_BOOK": self.book}))

    def stop(self) -> None:
        for process in self.processes:
            process.terminate()
            process.wait()
        self.processes = []

    def end(self) -> None:
        """Ends the desks and the browser."""
        self.stop()
        with suppress(Exception):  # a browser that is gone already has nothing to end
            self.driver.quit()
        shutil.rmtree(self.profile, ignore_errors=True)

    def takes(self, step: Step) -> bool:
        """Whether a choice waits here, to be clicked."""
        if step.case not in self.cases or not step.line.startswith("choose ") or step.line.split(" ")[2] not in CLICKED:
            return False
        self.waiting.append(step)
        return True

    def look(self) -> list[Step]:
        """Tries one of the choices that wait; those that are done."""
        from selenium.common.exceptions import WebDriverException
        if not self.waiting or time.monotonic() < self.looked + PAUSE:
            return []
        step = self.waiting.pop(0)
        try:
            done = self.click(step)
        except WebDriverException:
            done = False
        self.looked = time.monotonic()
        if not done:
            self.waiting.append(step)
            return []
        self.clicked += 1
        self.world.found[step.role].append(step)
        self.world.lines.setdefault(step.case, []).append(step.line)
        return [step]

    def click(self, step: Step) -> bool:
        """Goes to the page of a task, clicks what is to be chosen and sends it; whether the desk says that it is done, now or before."""
        from selenium.webdriver.common.by import By
        _, task, rule = step.line.split(" ")[:3]
        words = rule.replace("_", " ").capitalize()
        number = self.world.names.roles.index(step.role)
        self.driver.get("http://127.0.0.1:%d/task/%s" % (FIRST_DESK + number, quote(task)))
        if "Decided: %s" % words in self.text():
            return True
        for more in self.driver.find_elements(By.TAG_NAME, "summary"):
            more.click()
        for wanted in (words, "Send"):
            found = [one for one in self.driver.find_elements(By.CSS_SELECTOR, "a, button") if one.text.strip() == wanted and one.is_displayed()]
            if not found:
                return False
            before = self.driver.find_element(By.TAG_NAME, "html")
            found[0].click()
            until = time.monotonic() + LOAD
            while time.monotonic() < until and self.stays(before):
                time.sleep(0.02)
        return "done for" in self.text()

    def stays(self, page: Any) -> bool:
        """Whether a page is still the one that is shown, or the next one is not whole."""
        from selenium.common.exceptions import WebDriverException
        try:
            page.is_enabled()
        except WebDriverException:
            return bool(self.driver.execute_script("return document.readyState") != "complete")
        return True

    def text(self) -> str:
        """The words of the page."""
        from selenium.webdriver.common.by import By
        return " ".join(self.driver.find_element(By.TAG_NAME, "body").text.split())
