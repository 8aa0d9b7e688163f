"""A browser with a screen, which looks at each page as people would who see badly, hold a telephone, or use keys alone."""
from __future__ import annotations

import base64
import os
import subprocess
import tempfile
from collections.abc import Callable, Iterator
from pathlib import Path

import pytest
from conftest import FIRST_DESK
from systems import LONG, until

from selenium import webdriver
from selenium.common.exceptions import WebDriverException
from selenium.webdriver.chrome.service import Service
from selenium.webdriver.common.by import By
from selenium.webdriver.common.keys import Keys
from selenium.webdriver.remote.webelement import WebElement

CHROMIUM, DRIVER = Path("/usr/bin/chromium"), Path("/usr/bin/chromedriver")
FLAGS = ["--headless=new", "--no-sandbox", "--disable-dev-shm-usage", "--disable-gpu", "--disable-lcd-text", "--no-first-run",
         "--disable-background-networking", "--disable-component-update", "--window-size=1000,1100"]
BRIGHTNESS = """
const light = c => { const [r, g, b] = c.match(/[\\d.]+/g).map(Number).map(v => v / 255).map(v => v <= .03928 ? v / 12.92 : ((v + .055) / 1.055) ** 2.4);
                     return .2126 * r + .7152 * g + .0722 * b; };
const behind = e => { for (; e; e = e.parentElement) { const c = getComputedStyle(e).backgroundColor; if (!/, 0\\)$/.test(c)) return c; } return 'rgb(255, 255, 255)'; };
return [...document.querySelectorAll('body *')].filter(e => e.offsetParent && [...e.childNodes].some(n => n.nodeType == 3 && n.textContent.trim())).map(e => {
  const a = light(getComputedStyle(e).color), b = light(behind(e)); return [(Math.max(a, b) + .05) / (Math.min(a, b) + .05), e.tagName + ' ' + e.textContent.slice(0, 30)]; })
  .filter(([ratio]) => ratio < 4.5);
"""
SMALL = """
return [...document.querySelectorAll('button, select, textarea, input:not([type=hidden]):not([type=checkbox]), .button, summary')].filter(e => e.offsetParent)
  .map(e => [e.getBoundingClientRect().height, e.tagName + ' ' + e.textContent.slice(0, 20)]).filter(([height]) => height < 44);
"""


class Screen:
    """A browser with a screen."""

    def __init__(self, profile: str) -> None:
        options = webdriver.ChromeOptions()
        options.binary_location = str(CHROMIUM)
        for flag in [*FLAGS, "--user-data-dir=" + profile]:
            options.add_argument(flag)
        options.set_capability("goog:loggingPrefs", {"browser": "ALL"})
        self.driver = webdriver.Chrome(service=Service(str(DRIVER)), options=options)
        self.driver.set_page_load_timeout(LONG)
        self.seen: list[str] = []

    def at(self, number: int, path: str = "/") -> str:
        """Goes to a page of a desk."""
        self.driver.get("http://127.0.0.1:%d%s" % (FIRST_DESK + number, path))
        return self.looked()

    def text(self) -> str:
        """The words of the page."""
        return " ".join(self.driver.find_element(By.TAG_NAME, "body").text.split())

    def looked(self) -> str:
        """Looks at a page as a person would who sees badly, or holds a telephone; its words."""
        driver = self.driver
        for width in (320, 390, 1000):
            self.wide(width)
            until(lambda: driver.execute_script("return innerWidth") == width, "the screen does not get %d wide" % width)
            assert driver.execute_script("return document.documentElement.scrollWidth") <= width, "wider than %d: %s" % (width, driver.current_url)
            assert not driver.execute_script(SMALL), (driver.current_url, driver.execute_script(SMALL))
        assert not driver.execute_script(BRIGHTNESS), (driver.current_url, driver.execute_script(BRIGHTNESS))
        told = [entry for entry in driver.get_log("browser") if entry["level"] == "SEVERE"]
        assert not told, told
        self.seen.append(self.text())
        return self.seen[-1]

    def wide(self, width: int, height: int = 900) -> None:
        """Makes the screen so wide."""
        self.driver.execute_cdp_cmd("Emulation.setDeviceMetricsOverride", {"width": width, "height": height, "deviceScaleFactor": 1, "mobile": False})

    def picture(self, name: str) -> None:
        """Keeps a picture of the page in 64 colours, where the variable DESK_PICTURES names a folder for pictures; it needs the package pngquant."""
        folder = os.environ.get("DESK_PICTURES")
        if folder:
            self.wide(640, 300)
            height = self.driver.execute_script("document.activeElement.blur(); return Math.ceil(document.querySelector('main').getBoundingClientRect().bottom) + 16")
            clip = {"x": 0, "y": 0, "width": 640, "height": height, "scale": 1}
            data = self.driver.execute_cdp_cmd("Page.captureScreenshot", {"format": "png", "clip": clip, "captureBeyondViewport": True})["data"]
            small = subprocess.run(["pngquant", "64", "--speed", "1", "-"], input=base64.b64decode(data), capture_output=True, check=True).stdout
            (Path(folder) / (name + ".png")).write_bytes(small)
            self.wide(1000)

    def moved(self, work: Callable[[], object]) -> str:
        """Does something that leads to another page, and waits until it is there; its words."""
        self.driver.execute_script("window.left = 1")
        work()
        until(self.is_there, "no other page")
        return self.looked()

    def is_there(self) -> bool:
        """Whether another page is there, whole; while one comes there may be nothing to ask."""
        try:
            return bool(self.driver.execute_script('return window.left === undefined && document.readyState === "complete"'))
        except WebDriverException:
            return False

    def click(self, words: str) -> str:
        """Clicks on a link or a button with some words."""
        return self.moved(next(element for element in self.driver.find_elements(By.CSS_SELECTOR, "a, button") if words in element.text).click)

    def field(self, label: str) -> WebElement:
        """The field with a label."""
        found = next(element for element in self.driver.find_elements(By.TAG_NAME, "label") if element.text.strip() == label)
        return self.driver.find_element(By.ID, found.get_attribute("for"))

    def enter(self, **values: str) -> None:
        """Enters values by labels."""
        for label, value in values.items():
            field = self.field(label)
            field.clear()
            field.send_keys(value)

    def tab_to(self, words: str) -> None:
        """Presses the tabulator until something with some words, or a field with such a label, has the focus."""
        for _ in range(60):
            self.driver.switch_to.active_element.send_keys(Keys.TAB)
            focus = self.driver.switch_to.active_element
            label = self.driver.execute_script("return arguments[0].labels && arguments[0].labels[0] ? arguments[0].labels[0].textContent : ''", focus)
            if words in (focus.text or "") or words == label.strip():
                width = self.driver.execute_script("return getComputedStyle(arguments[0]).outlineWidth", focus)
                assert width == "3px", "the focus can't be seen"
                return
        raise AssertionError("nothing with %r can be reached by keys" % words)

    def keys(self, *keys: str) -> None:
        """Presses keys where the focus is."""
        self.driver.switch_to.active_element.send_keys(*keys)

    def enter_on(self, words: str) -> str:
        """Goes by keys to a link or a button with some words, and presses Enter; the words of the page that comes."""
        self.tab_to(words)
        return self.moved(lambda: self.keys(Keys.ENTER))


@pytest.fixture
def screen() -> Iterator[Screen]:
    for part in (CHROMIUM, DRIVER):
        assert part.exists(), "not run: %s is missing; `ci/setup desk` installs it" % part
    with tempfile.TemporaryDirectory(ignore_cleanup_errors=True) as profile:
        made = Screen(profile)
        try:
            yield made
        finally:
            made.driver.quit()
