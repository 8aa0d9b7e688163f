"""aw_fmt: what it writes says the same, and comments are kept."""
from __future__ import annotations

import json
import os
import random
import re
import subprocess
import sys
from pathlib import Path

import pytest

import edits
from conftest import EXAMPLES, LONG, tool

from aw_forms.fmt import formatted
from aw_forms.lexing import decoded, encoded, lines_of
from aw_forms.program import Sorry, ask
from aw_forms.verdict import read

TEXTS = sorted(EXAMPLES.rglob("*.aw"))
ALONE = ["unshare", "-n", "-p", "-f", "--kill-child", "--mount-proc", "sh", "-c", 'ip link set lo up && exec "$@"', "sh"]


def untidy(text: str, seed: int) -> str:
    """The same text with blanks where they do not matter, and without those that are not needed."""
    drawn = random.Random(seed)
    out = []
    for line in lines_of(text):
        if line.lstrip().startswith("%") or not line.strip():
            out.append(line)
            continue
        pieces = re.findall(r'"(?:[^"\\]|\\.)*"|[a-z0-9_#/.]+|[(){}<>,:=;]', line)
        spelled = drawn.choice(["", " ", "\t"])
        for before, piece in zip(["", *pieces], pieces):
            apart = before and re.match(r"[a-z0-9_]", before[-1]) and re.match(r"[a-z0-9_]", piece[0])
            spelled += (drawn.choice([" ", "  ", "\t"]) if apart else drawn.choice(["", "", " ", "  "])) + piece
        out.append(spelled + drawn.choice(["", " ", "\r"]))
        out += [""] * drawn.choice([0, 0, 0, 3])
    return "\n".join(out) + drawn.choice(["", "\n", "\n\n"])


def good(path: Path) -> str | None:
    """The text as it is formatted, where it can be."""
    try:
        return formatted(decoded(path.read_bytes()), str(path))
    except Sorry:
        return None


@pytest.mark.parametrize("path", TEXTS, ids=lambda path: "%s-%s" % (path.parent.name, path.name))
def test_what_is_written_says_the_same(path: Path) -> None:
    """The program writes the same of both but for numbers of lines, formatting again changes nothing, and comments are kept."""
    text = good(path)
    if text is None:
        assert read(decoded(path.read_bytes())).faults
        return
    assert formatted(text, "again") == text
    before = path.read_bytes()
    for command in ("check", "replay"):
        assert re.sub(r"line \d+", "line N", ask([command], before).output) == re.sub(r"line \d+", "line N", ask([command], encoded(text)).output)
    comments = [line.strip() for line in lines_of(decoded(before)) if line.lstrip().startswith("%")]
    assert [line for line in lines_of(text) if line.startswith("%")] == comments
    for seed in range(3):
        without_empty = re.sub(r"\n\n+", "\n", text)
        assert re.sub(r"\n\n+", "\n", formatted(untidy(text, seed), "untidy")) == without_empty.lstrip("\n")


def test_the_head_of_a_kept_node_is_the_same() -> None:
    """A kept node writes the same head of the text before and after, for each example that is accepted, untidied first."""
    pairs = []
    for path in TEXTS:
        text = decoded(path.read_bytes())
        reading = read(text)
        if reading.faults or not reading.spec.roles:
            continue
        role = next(iter(reading.spec.roles))
        before = untidy(text, len(pairs))
        pairs.append([[0, role], encoded(before).decode("latin-1"), encoded(formatted(before, "x")).decode("latin-1")])
    assert len(pairs) > 30
    done = subprocess.run([*ALONE, sys.executable, str(Path(__file__).with_name("heads.py")), os.environ["AW"]], input=json.dumps(pairs), capture_output=True,
                          text=True, timeout=3 * LONG, check=False)
    assert done.returncode == 0, done.stderr
    assert json.loads(done.stdout) == []


def test_edits_that_can_be_read_say_the_same() -> None:
    """Five hundred edits of the examples: where one can be formatted, `check` writes the same of both."""
    drawn, compared = random.Random(63), 0
    for _ in range(500):
        text = drawn.choice(edits.BASES)
        for _ in range(drawn.randint(1, 3)):
            text = edits.edited(text, (drawn.randrange(15), drawn.randrange(edits.SCALE), drawn.randrange(edits.SCALE)))
        try:
            after = encoded(formatted(decoded(text), "x"))
        except Sorry:
            continue
        compared += 1
        assert re.sub(r"line \d+", "", ask(["check"], text).output) == re.sub(r"line \d+", "", ask(["check"], after).output)
    assert compared > 100


def test_ways_of_writing(tmp_path: Path) -> None:
    """--check names a file and changes nothing, --diff shows, --write writes."""
    path = tmp_path / "form.aw"
    path.write_text("role  desk\n\n\n\n% why\nsort task desk 0 0\n")
    assert (tool("aw_fmt", "--check", str(path)).stdout, tool("aw_fmt", "--check", str(path)).returncode) == ("%s\n" % path, 1)
    assert "-role  desk\n" in tool("aw_fmt", "--diff", str(path)).stdout and "+role desk\n" in tool("aw_fmt", "--diff", str(path)).stdout
    assert path.read_text().startswith("role  desk")
    assert tool("aw_fmt", "--write", str(path)).returncode == 0
    assert path.read_text() == "role desk\n\n% why\nsort task desk 0 0\n"
    assert (tool("aw_fmt", "--check", str(path)).stdout, tool("aw_fmt", "--check", str(path)).returncode) == ("", 0)


def test_empty_parentheses() -> None:
    """`ok()` becomes `ok` where ok is declared without parts, and stays where that would change what is said."""
    text = "role r\ncon ok 0\nsort t r 0 1\nrule a : t()<ok( )>\n"
    assert formatted(text, "x").endswith("rule a : t()<ok>\n")
    assert formatted(text.replace("con ok 0\n", ""), "x").endswith("rule a : t()<ok()>\n")


def test_the_shipped_examples_are_in_this_form() -> None:
    """But for those that show faults."""
    assert [path.name for path in TEXTS if path.parent.name != "specification" and good(path) not in (None, path.read_text())] == []
