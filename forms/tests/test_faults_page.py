"""docs/FAULTS.md: every box is run, and what the page says of it is what comes."""
from __future__ import annotations

import json
import os
import re
import shutil
import subprocess
import sys
from pathlib import Path

import pytest

from conftest import EXAMPLES, LONG, TOP, tool

from aw_forms.program import ask

PAGE = TOP / "docs" / "FAULTS.md"
ALONE = ["unshare", "-n", "-p", "-f", "--kill-child", "--mount-proc", "sh", "-c", 'ip link set lo up && exec "$@"', "sh"]
LISTENING = "until grep -q ':1CE8 .* 0A ' /proc/net/tcp; do sleep 0.05; done"
MEND = re.compile(r"Mend: (?:leave it out, or )?`([^`]*)`")
BOX = re.compile(r"^```\w*\n(.*?)^```$", re.MULTILINE | re.DOTALL)


def sections() -> list[tuple[str, str, str]]:
    """Each section with a heading: the part of the page, the heading, and the text."""
    found, part = [], ""
    for piece in re.split(r"^(?=##+ )", PAGE.read_text(encoding="utf-8"), flags=re.MULTILINE)[1:]:
        heading, _, text = piece.partition("\n")
        part = heading[3:] if heading.startswith("## ") else part
        found.append((part, heading.lstrip("# "), text))
    return found


SECTIONS = sections()


def boxes(text: str) -> list[tuple[str, str]]:
    """Each box of a text, with what follows it up to the next box."""
    pieces = BOX.split(text)
    return list(zip(pieces[1::2], pieces[2::2]))


def base_of(part: str) -> str:
    """The specification that a part's schedules follow: its first box that is one."""
    return next(box for other, _, text in SECTIONS if other == part for box, _ in boxes(text) if box.startswith("role "))


def cases(part: str) -> list[tuple[str, str]]:
    """The sections of a part that have boxes."""
    return [(heading, text) for other, heading, text in SECTIONS if other == part and heading != part and BOX.search(text)]


def says_of_check(box: str, quoted: str, refused: bool) -> None:
    """`check` writes the quoted line: alone where it refuses, else among others."""
    answer = ask(["check"], box.encode())
    lines = answer.output.split("\n")
    assert (lines[0] == quoted and answer.status) if refused else (lines[0] == "accepted" and quoted in lines), (box, answer)


@pytest.mark.parametrize("part, case", [(part, case) for part in ("Of a specification", "Of types", "Circles", "Warnings of `check`") for case in cases(part)],
                         ids=lambda value: value if isinstance(value, str) else value[0])
def test_texts_that_check_refuses(part: str, case: tuple[str, str]) -> None:
    """A box is refused by the line that is quoted behind it; with the line of its mend it is accepted without a warning."""
    warning = part.startswith("Warnings")
    for box, behind in boxes(case[1]):
        quoted = re.match(r"\s*`(bad [^`]*|circular [^`]*|role [^`]*|wait [^`]*)`", behind)
        says_of_check(box, quoted[1], not warning)
        assert quoted[1] in tool("aw_explain", "-", data=box.encode()).stdout
        mend = MEND.search(behind)
        if mend:
            assert any(is_clean(text) for text in mended(box, mend[1])), (box, mend[1])


def mended(box: str, line: str) -> list[str]:
    """The box with a line put in place of each line of its form, or put in anywhere."""
    lines = box.split("\n")[:-1]
    put = [lines[:at] + [line] + lines[at + 1:] for at in range(len(lines)) if lines[at].split()[0] == line.split()[0]]
    put += [lines[:at] + [line] + lines[at:] for at in range(len(lines) + 1)]
    return ["\n".join(text) + "\n" for text in put]


def is_clean(text: str) -> bool:
    """`check` accepts it and writes no warning."""
    lines = ask(["check"], text.encode()).output.split("\n")
    return lines[0] == "accepted" and not any("exceeds" in line or "circular" in line or "wait circle" in line for line in lines)


@pytest.mark.parametrize("case", cases("Of a schedule"), ids=lambda case: case[0])
def test_schedules_that_are_refused(case: tuple[str, str]) -> None:
    """The schedule is refused by the quoted line, and with the line of its mend all choices are taken."""
    base = base_of("Of a schedule")
    for box, behind in boxes(case[1]):
        if box.startswith("role "):
            base = box
    quoted = re.match(r"\s*`(bad schedule line (\d+) [^`]*)`", behind)
    line = int(quoted[2])
    lines = (base + "schedule\n" + box).split("\n")
    answer = ask(["replay"], "\n".join(lines).encode())
    assert (answer.output, answer.status) == (quoted[1] + "\n", 5)
    assert quoted[1] in tool("aw_explain", "-", data="\n".join(lines).encode()).stdout
    lines[line - 1] = MEND.search(behind)[1]
    taken(ask(["replay"], "\n".join(lines).encode()).output)


def taken(output: str) -> None:
    """Each choice is taken, and everything is delivered."""
    answers = re.findall(r"^(?:start|choose) .*: (.*)$", output, re.MULTILINE)
    assert answers and set(answers) == {"taken"} and "\nartifacts " in output, output


def test_answers() -> None:
    """Each line of the table comes of the schedule, in its order."""
    part = "Answers to choices and deliveries"
    ((_, text),) = cases(part)
    ((schedule, behind),) = boxes(text)
    output = ask(["replay"], (base_of(part) + "schedule\n" + schedule).encode()).output.split("\n")
    shown = re.findall(r"^\| `([^`]+)` \|", behind, re.MULTILINE)
    assert len(shown) > 8 and shown == [line for line in output if line in shown], output
    assert all(line in shown for line in output if not re.match(r".*: (taken|new)$|sent |settled |$", line)), output


def commands(text: str, folder: Path) -> list[tuple[str, str]]:
    """The commands that are typed in a section, with what is shown of each; a box behind `In a file` is put there."""
    found = []
    pieces = BOX.split(text)
    for before, box in zip(pieces[0::2], pieces[1::2]):
        named = re.search(r"In a file `([\w.]+)`:\s*$", before)
        if named:
            (folder / named[1]).write_text(box)
        elif box.startswith("$ "):
            typed = re.split(r"^\$ (.*)\n", box, flags=re.MULTILINE)
            found += list(zip(typed[1::2], typed[2::2]))
    return found


@pytest.mark.parametrize("part", ["Words of the command line", "The courier", "Without a word"])
def test_commands_that_are_typed(part: str, tmp_path: Path) -> None:
    """What a terminal shows is what the page shows."""
    shutil.copytree(EXAMPLES, tmp_path / "examples")
    text = next(text for other, heading, text in SECTIONS if other == heading == part)
    typed = commands(text, tmp_path)
    assert typed
    script = ["aw() { \"$AW\" \"$@\"; }"]
    for command, _ in typed:
        script += [command, LISTENING if command.endswith("&") else "", "printf '\\1'"]
    done = subprocess.run([*ALONE, "bash", "-c", "\n".join(script)], cwd=tmp_path, capture_output=True, text=True, timeout=LONG, check=False, stdin=subprocess.DEVNULL)
    assert done.stdout.split("\1")[:-1] == [shown for _, shown in typed], done.stderr


def test_words_that_are_answered_with_usage(tmp_path: Path) -> None:
    """Those of the table."""
    shutil.copytree(EXAMPLES, tmp_path / "examples")
    text = next(text for _, heading, text in SECTIONS if heading == "Words of the command line")
    rows = re.findall(r"^\| `(aw [^`]*)` \|", text, re.MULTILINE)
    assert len(rows) >= 4
    for words in rows:
        done = subprocess.run(["bash", "-c", 'aw() { "$AW" "$@"; }\n' + words], cwd=tmp_path, capture_output=True, text=True, timeout=LONG, check=False, stdin=subprocess.DEVNULL)
        assert (done.stdout, done.returncode) == ("usage\n", 2), words


def test_replies_of_a_node() -> None:
    """One session, in the words of the client."""
    text = next(text for _, heading, text in SECTIONS if heading == "Nodes")
    (asked, _), (replies, _) = boxes(text)
    given = json.dumps(["lab", base_of("Answers to choices and deliveries"), asked.split("\n")[:-1]])
    done = subprocess.run([*ALONE, sys.executable, str(Path(__file__).with_name("sessions.py")), os.environ["AW"]], input=given, capture_output=True, text=True,
                          timeout=LONG, check=False)
    assert done.stdout == replies, done.stderr


def test_each_word_is_on_the_page() -> None:
    """Each kind, each answer, each status that the program has."""
    text = PAGE.read_text(encoding="utf-8")
    language = (TOP / "docs" / "LANGUAGE.md").read_text(encoding="utf-8")
    schedule = (TOP / "docs" / "SCHEDULE.md").read_text(encoding="utf-8")
    kinds = re.findall(r"^\| \d+ \| \[`(\w+)`\]\(FAULTS\.md", language, re.MULTILINE)
    assert len(kinds) == 13 and all("### %s\n" % kind in text for kind in kinds)
    kinds = re.findall(r"^\| \d \| `(\w+)` \|", schedule, re.MULTILINE)
    assert len(kinds) >= 8 and all("### %s in a schedule\n" % kind in text for kind in kinds[:8])
    for status in range(2, 17):
        assert re.search(r"\b%d\b" % status, text), status
