"""A browser without a screen: follows links, fills in forms by their labels, and keeps cookies."""
from __future__ import annotations

import html.parser
import http.client
import re
import urllib.parse
from dataclasses import dataclass, field

from systems import LONG

VOID = {"meta", "link", "input", "br", "hr", "img"}


@dataclass
class Control:
    """A field of a form."""

    name: str
    kind: str
    value: str
    id: str
    options: list[str] = field(default_factory=list)
    words: dict[str, str] = field(default_factory=dict)
    required: bool = False


@dataclass
class Form:
    """A form: where it is sent, its fields, and its buttons by their words."""

    action: str
    method: str
    controls: list[Control] = field(default_factory=list)
    buttons: dict[str, tuple[str, str]] = field(default_factory=dict)


class Page(html.parser.HTMLParser):
    """A page: its words, links, forms and labels. Elements have to be closed in their order."""

    def __init__(self, url: str, status: int, headers: dict[str, str], text: str) -> None:
        super().__init__()
        self.url, self.status, self.headers, self.source = url, status, headers, text
        self.words, self.links, self.forms, self.labels = "", [], [], {}  # type: str, list[tuple[str, str]], list[Form], dict[str, str]
        self.ids: list[str] = []
        self.heads: list[int] = []
        self.open: list[tuple[str, dict[str, str], int]] = []
        self.feed(text)
        self.close()
        assert not self.open, self.open

    def handle_starttag(self, tag: str, attrs: list[tuple[str, str | None]]) -> None:
        have = {name: value or "" for name, value in attrs}
        if "id" in have:
            self.ids.append(have["id"])
        if re.fullmatch("h[1-6]", tag):
            self.heads.append(int(tag[1]))
        if tag == "form":
            self.forms.append(Form(have.get("action", ""), have.get("method", "get")))
        elif tag in ("input", "textarea", "select") and self.forms:
            value = ("" if have.get("type") == "checkbox" else have.get("value", ""))
            self.forms[-1].controls.append(Control(have.get("name", ""), have.get("type", tag), value, have.get("id", ""), required="required" in have))
        elif tag == "option":
            control = self.forms[-1].controls[-1]
            control.options.append(have.get("value", ""))
            if "selected" in have or len(control.options) == 1:
                control.value = have.get("value", "")
        if tag not in VOID:
            self.open.append((tag, have, len(self.words)))

    def handle_endtag(self, tag: str) -> None:
        opened, have, at = self.open.pop()
        assert opened == tag, "%s closes %s in %s" % (tag, opened, self.url)
        words = self.words[at:].strip()
        if tag == "a":
            self.links.append((words, have.get("href", "")))
        elif tag == "label":
            self.labels[have.get("for", "")] = words
        elif tag == "button" and self.forms:
            self.forms[-1].buttons[words] = (have.get("name", ""), have.get("value", ""))
        elif tag == "textarea":
            self.forms[-1].controls[-1].value = self.words[at:].removeprefix("\n")
        elif tag == "option":
            self.forms[-1].controls[-1].words[words] = have.get("value", "")

    def handle_data(self, data: str) -> None:
        self.words += data

    def text(self) -> str:
        """The words of the page, with one blank between them."""
        return " ".join(self.words.split())

    def faults(self) -> list[str]:
        """What WCAG asks of each page and can be seen here: a language, a title, headings in their order, a label for each field, words on links and
        buttons, names that are used once."""
        found = []
        for want in ('<html lang="en">', "<title>", "<main"):
            if want not in self.source:
                found.append("no %s" % want)
        if self.source.count("<h1>") != 1:
            found.append("%d first headings" % self.source.count("<h1>"))
        for control in (control for form in self.forms for control in form.controls if control.kind != "hidden"):
            if not self.labels.get(control.id):
                found.append("no label for %s" % control.name)
        found += ["no words on the link to %s" % href for words, href in self.links if not words]
        found += ["no words on a button" for form in self.forms for words in form.buttons if not words]
        found += ["a heading %d behind a heading %d" % (here, before) for before, here in zip(self.heads, self.heads[1:]) if here > before + 1]
        found += ["the id %s twice" % name for name in set(self.ids) if self.ids.count(name) > 1]
        found += ["a script or a style within the page"] if "<script" in self.source or "style=" in self.source or "onclick" in self.source else []
        return found


class Browser:
    """A session with the pages at a port of this machine."""

    def __init__(self, port: int) -> None:
        self.port, self.cookies = port, dict[str, str]()
        self.page: Page | None = None

    def ask(self, method: str, url: str, body: bytes | None = None, kind: str = "application/x-www-form-urlencoded", site: str = "cross-site") -> Page:
        """Asks for a page, and follows where it leads. A form says from what kind of page it is sent."""
        peer = http.client.HTTPConnection("127.0.0.1", self.port, timeout=LONG)
        headers = {"Cookie": "; ".join("%s=%s" % pair for pair in self.cookies.items())} if self.cookies else {}
        if body is not None:
            headers.update({"Content-Type": kind, "Sec-Fetch-Site": site})
        peer.request(method, url, body, headers)
        answer = peer.getresponse()
        text = answer.read().decode("utf-8", "surrogateescape")
        for line in answer.headers.get_all("Set-Cookie") or []:
            name, _, value = line.split(";")[0].partition("=")
            self.cookies[name] = value
        peer.close()
        if answer.status in (302, 303):
            return self.ask("GET", urllib.parse.urljoin(url, answer.headers["Location"]))
        self.page = Page(url, answer.status, {name.lower(): value for name, value in answer.getheaders()}, text)
        return self.page

    def get(self, url: str) -> Page:
        """Asks for a page."""
        return self.ask("GET", url)

    def follow(self, words: str) -> Page:
        """Follows the first link with some words."""
        assert self.page is not None
        href = next(href for text, href in self.page.links if words in " ".join(text.split()))
        return self.get(urllib.parse.urljoin(self.page.url, href))

    def press(self, button: str, **entered: str) -> Page:
        """Fills in the form that has a button, by labels with `_` for a blank, and presses it."""
        assert self.page is not None
        form = next(form for form in self.page.forms if button in form.buttons)
        for label, value in entered.items():
            self.set(form, label.replace("_", " "), value)
        pairs = [(control.name, control.value) for control in form.controls if control.kind != "checkbox" or control.value]
        name, value = form.buttons[button]
        pairs += [(name, value)] if name else []
        data = urllib.parse.urlencode(pairs, encoding="utf-8", errors="surrogateescape")
        if form.method == "get":
            return self.get(form.action + "?" + data)
        return self.ask("POST", urllib.parse.urljoin(self.page.url, form.action), data.encode(), site="same-origin")

    def set(self, form: Form, label: str, value: str) -> None:
        """Enters a value in the field with a label."""
        assert self.page is not None
        ids = [at for at, words in self.page.labels.items() if words.lower() == label.lower()]
        assert ids, "no field %r in %s: %s" % (label, self.page.url, sorted(self.page.labels.values()))
        control = next(control for control in form.controls if control.id == ids[0])
        if control.options:
            assert value in control.words, "%r offers %s" % (label, sorted(control.words))
            value = control.words[value]
        control.value = value


def good(browser: Browser) -> str:
    """The words of the page, which has none of the faults that can be seen without a screen."""
    page = browser.page
    assert page is not None and page.faults() == [], (page and page.url, page and page.faults())
    assert len(page.source.encode("utf-8", "surrogateescape")) < 50_000
    return page.text()
