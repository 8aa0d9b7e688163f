"""aw_draw: pictures that are no faults to draw, are not empty, follow light and dark, and stay small where there is much."""
from __future__ import annotations

import re
import subprocess
import xml.etree.ElementTree as ElementTree
from pathlib import Path

import pytest

from conftest import EXAMPLES, FORMS, LONG, tool

from aw_forms.lexing import decoded
from aw_forms.offices import called, told
from aw_forms.program import ask
from aw_forms.theme import DARK, LIGHT
from aw_forms.transcript import transcript_of
from aw_forms.verdict import read

SHIPPED = sorted(EXAMPLES.glob("*.aw"))
CLAIM = EXAMPLES / "insurance-claim-typed.aw"


def png(svg: str, folder: Path) -> tuple[int, int, int]:
    """Renders a picture: its width and height, and how many colours are in it."""
    (folder / "picture.svg").write_text(svg, encoding="utf-8")
    done = subprocess.run(["rsvg-convert", "--unlimited", "-o", str(folder / "picture.png"), str(folder / "picture.svg")], capture_output=True, timeout=LONG, check=False)
    assert done.returncode == 0 and not done.stderr, done.stderr
    data = (folder / "picture.png").read_bytes()
    assert data[:8] == b"\x89PNG\r\n\x1a\n"
    width, height = int.from_bytes(data[16:20], "big"), int.from_bytes(data[20:24], "big")
    return width, height, colours(data, width, height)


def colours(data: bytes, width: int, height: int) -> int:
    """How many different values of bytes are in the rows of a PNG: an empty picture has few."""
    import zlib

    at, packed = 8, b""
    while at < len(data):
        length = int.from_bytes(data[at:at + 4], "big")
        if data[at + 4:at + 8] == b"IDAT":
            packed += data[at + 8:at + 8 + length]
        at += length + 12
    assert width * height > 400
    return len(set(zlib.decompress(packed)))


def drawn(*words: str) -> str:
    """A picture, which is XML."""
    done = tool("aw_draw", *words)
    assert done.returncode == 0, done.stderr
    ElementTree.fromstring(done.stdout)
    return done.stdout


@pytest.mark.parametrize("path", SHIPPED, ids=lambda path: path.stem)
@pytest.mark.parametrize("picture", ["offices", "case", "messages"])
def test_each_example_is_drawn(path: Path, picture: str, tmp_path: Path) -> None:
    """In light and in dark, which differ."""
    pictures = [drawn(picture, str(path), "--theme", theme) for theme in ("light", "dark")]
    assert all(png(svg, tmp_path)[2] > 20 for svg in pictures)
    assert LIGHT["paper"] in pictures[0] and DARK["paper"] in pictures[1] and "prefers-color-scheme" not in pictures[0]
    for role in read(decoded(path.read_bytes())).spec.roles:
        assert role in pictures[0]


@pytest.mark.parametrize("path", SHIPPED, ids=lambda path: path.stem)
def test_each_rule_is_drawn(path: Path, tmp_path: Path) -> None:
    """With its fields and its subtasks."""
    spec = read(decoded(path.read_bytes())).spec
    for rule in spec.rules.values():
        svg = drawn("rule", str(path), rule.name.text)
        assert png(svg, tmp_path)[2] > 2
        for token in [*rule.params, *(child.sort for child in rule.children)]:
            assert token.text in svg


def test_the_reader_s_screen_decides() -> None:
    """By itself a picture follows light and dark."""
    svg = drawn("offices", str(CLAIM))
    light, dark = svg.split("@media (prefers-color-scheme: dark)")
    assert LIGHT["paper"] in light and DARK["paper"] in dark and DARK["paper"] not in light


def test_who_sends_what_to_whom() -> None:
    """Tasks and values of the claim: the assessor's verdict goes to payments though no task does."""
    svg = drawn("offices", str(CLAIM))
    tips = set(re.findall(r'xlink:title="([^"]*)"', svg))
    assert "front gives tasks to assessor: assessment" in tips and "front gives tasks to payments: payment" in tips
    assert "assessor tells payments: values for payment" in tips
    assert not any(tip.startswith("payments tells assessor") for tip in tips)


@pytest.mark.parametrize("path", [path for path in sorted(EXAMPLES.rglob("*.aw")) if b"\nschedule" in path.read_bytes()], ids=lambda path: path.stem)
def test_nothing_is_sent_that_the_picture_does_not_have(path: Path) -> None:
    """Each message of a schedule goes along an arrow of its kind; an ask goes against one that tells."""
    data = path.read_bytes()
    reading = read(decoded(data))
    answer = ask(["replay"], data)
    if answer.status:
        return
    calls, tells = called(reading.spec), told(reading.spec)
    for message in transcript_of(reading.spec, answer.output).messages.values():
        pair = message.sender, message.receiver
        assert {"call": pair in calls, "tell": pair in tells, "ask": pair[::-1] in tells}[message.kind], message


def test_a_circle_is_marked() -> None:
    """The program refuses the text, and the rule is drawn all the same, with its way round."""
    svg = drawn("rule", str(EXAMPLES / "faults" / "specification" / "circular.aw"), "loop")
    assert svg.count('class="edge round"') == 2 and 'class="node bad"' in svg


def test_open_tasks_and_blanks_are_marked() -> None:
    """A case that is half done."""
    svg = drawn("case", str(EXAMPLES / "tutorial" / "half_filled.aw"))
    assert 'class="node open"' in svg and 'class="node done"' in svg and 'class="blank"' in svg and "▢" in svg


def test_late_and_repeated_messages_are_marked(tmp_path: Path) -> None:
    """A message that another one overtook, one that came twice, and one that never came."""
    text = (EXAMPLES / "tutorial" / "post.aw").read_text() if (EXAMPLES / "tutorial" / "post.aw").exists() else ""
    clinic = (EXAMPLES / "clinical-test.aw").read_text().split("\nschedule\n")[0]
    path = tmp_path / "late.aw"
    path.write_text(clinic + "\nschedule\nstart visit 1\nchoose visit#1 admit {1, 2, 3}\ndeliver 1\ndeliver 0\ndeliver 0\nchoose visit#1/admit.1 reject {4}\n")
    svg = drawn("messages", str(path))
    assert '<g class="late">' in svg and "(again)" in svg and "never delivered: " in svg and "(late)" in svg
    assert text == "" or drawn("messages", str(EXAMPLES / "tutorial" / "post.aw"))


def much(cases: int) -> str:
    """A schedule with many cases of the claim, some of them open."""
    lines = [CLAIM.read_text().split("\nschedule\n")[0], "schedule"]
    for case in range(cases):
        lines += ["start claim %d" % case, 'choose claim#%d open_claim {1, "storm", %d, "DK50"}' % (case, case), "settle"]
        lines += ["choose claim#%d/open_claim.1 grant {%d}" % (case, case), "settle"] * (case % 4 != 0)
        lines += ["choose claim#%d/open_claim.2 pay" % case] * (case % 3 == 0)
    return "\n".join([*lines, "settle", ""])


def test_a_thousand_tasks_stay_readable(tmp_path: Path) -> None:
    """Folded: few boxes, no picture wider than a screen, what is left away is counted."""
    path = tmp_path / "much.aw"
    path.write_text(much(350))
    case = drawn("case", str(path))
    assert case.count('class="node ') < 100 and "cases folded" in case and "open</text>" in case
    assert png(case, tmp_path)[0] < 1600
    messages = drawn("messages", str(path))
    assert png(messages, tmp_path)[0] < 1600 and png(messages, tmp_path)[1] < 3000 and "choices, " in messages
    assert drawn("case", str(path), "--most", "10").count('class="node ') < 25


def test_a_long_case_is_folded(tmp_path: Path) -> None:
    """240 steps down: the first are shown, the rest is one box; a task below is drawn by its name."""
    lines = ["role desk", "sort day desk 0 0", "start day", "rule more : day()<> = day()<>", "schedule", "start day 1"]
    name = "day#1"
    for _ in range(240):
        lines.append("choose %s more" % name)
        name += "/more.1"
    path = tmp_path / "long.aw"
    path.write_text("\n".join([*lines, ""]))
    assert "tasks folded" in drawn("case", str(path))
    assert "tasks folded" not in drawn("case", str(path), "/".join(name.split("/")[:-3]))


def test_texts_of_users_are_no_markup(tmp_path: Path) -> None:
    """Marks of XML, quotation marks and bytes that are no UTF-8 in a text."""
    path = tmp_path / "texts.aw"
    data = (EXAMPLES / "task-note.aw").read_text().split("\nschedule\n")[0].encode()
    path.write_bytes(data + b'\nschedule\nstart day 1\nchoose day#1 take_note {"<b>&amp;\\"\\\\n", "\xff\xc3\xa9 ]]> -->"}\n')
    for picture in ("case", "messages"):
        assert png(drawn(picture, str(path)), tmp_path)[2] > 2


@pytest.mark.parametrize("name, words", [("offices", [str(CLAIM)]), ("case", [str(EXAMPLES / "tutorial" / "half_filled.aw")]), ("rule", [str(CLAIM), "open_claim"])])
def test_the_pictures_of_the_page_are_these(name: str, words: list[str]) -> None:
    """The stored pictures have the words and the arrows that are drawn today; graphviz may place them otherwise."""
    stored = (FORMS / "pictures" / ("%s.svg" % name)).read_text(encoding="utf-8")
    for pattern in (r"<text[^>]*>([^<]*)</text>", r'xlink:title="([^"]*)"', r'<g id="[^"]*" class="([^"]*)"'):
        assert sorted(re.findall(pattern, stored)) == sorted(re.findall(pattern, drawn(name, *words)))
