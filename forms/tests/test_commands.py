"""The commands as a user runs them: words, files that are not there, a program that is not there, limits, and no traceback ever."""
from __future__ import annotations

import os
import re
import signal
import subprocess
import time
from pathlib import Path

import pytest

import edits
from conftest import EXAMPLES, FORMS, LONG, TOP, spawned, tool

COMMANDS = {"aw_explain": [], "aw_lint": [], "aw_draw": ["offices"], "aw_fmt": []}
CLAIM = str(EXAMPLES / "insurance-claim-typed.aw")


@pytest.mark.parametrize("name", COMMANDS)
def test_help_and_version(name: str) -> None:
    """Both end with 0; the help tells the statuses."""
    helped = spawned(name, "--help")
    assert helped.returncode == 0 and "statuses:" in helped.stdout and helped.stdout.startswith("usage: %s" % name)
    told = spawned(name, "--version")
    version = TOP / "VERSION"
    assert told.returncode == 0 and told.stdout.startswith(name + " ") and (not version.exists() or version.read_text().strip() in told.stdout)


@pytest.mark.parametrize("name", COMMANDS)
def test_sentences_for_errors(name: str, tmp_path: Path) -> None:
    """Wrong words end with 2, a file that is not there with 66, a program that is not there with 69; each in a sentence."""
    words = COMMANDS[name]
    assert spawned(name).returncode == 2
    assert spawned(name, *words, CLAIM, "--nonsense").returncode == 2
    missing = spawned(name, *words, str(tmp_path / "not there.aw"))
    assert missing.returncode == 66 and missing.stderr.endswith("not there.aw can't be read: no such file or directory.\n")
    assert spawned(name, *words, str(tmp_path)).returncode == 66
    if name != "aw_fmt":
        without = spawned(name, *words, CLAIM, AW=str(tmp_path / "aw"))
        assert without.returncode == 69 and "no program is there" in without.stderr
        broken = tmp_path / "broken"
        broken.write_bytes(b"\x7fELF nothing")
        broken.chmod(0o755)
        assert spawned(name, *words, CLAIM, AW=str(broken)).returncode == 69


@pytest.mark.parametrize("name", COMMANDS)
def test_streams_that_are_closed_or_full(name: str) -> None:
    """A sentence and a status, and no traceback; nothing is told where nothing can be."""
    line = " ".join([str(FORMS / name), *COMMANDS[name]])
    for behind, status, said in (("%s >/dev/full", 73, "no space left"), ("%s >&-", 73, "can't be written"), ("- <&-", 66, "standard input can't be read"), ("--help >/dev/full", 73, "no space left"),
                                 ("--nonsense 2>/dev/full", 2, ""), ("--nonsense 2>&-", 2, "")):
        done = subprocess.run(["bash", "-c", "exec %s %s" % (line, behind.replace("%s", CLAIM))], capture_output=True, text=True,
                              timeout=LONG, check=False)
        assert done.returncode == status and said in done.stderr and "Traceback" not in done.stderr and "Exception" not in done.stderr, (behind, done)
        assert done.stderr.startswith("%s: " % name) if said else not done.stderr


@pytest.mark.parametrize("name", COMMANDS)
def test_ended_while_it_reads(name: str) -> None:
    """By Ctrl-C, SIGTERM or SIGHUP, early or late: no traceback, but of what is interrupted before its first line."""
    for sign in (signal.SIGINT, signal.SIGTERM, signal.SIGHUP):
        for wait in (0.0, 0.03, 0.1, 0.5):
            process = subprocess.Popen([str(FORMS / name), *COMMANDS[name], "-"], stdin=subprocess.PIPE, stdout=subprocess.PIPE, stderr=subprocess.PIPE)
            time.sleep(wait)  # (a moment to end it at, not a condition)
            process.send_signal(sign)
            told = process.communicate(timeout=LONG)[1]
            assert process.returncode in (-sign, 128 + sign, 1) and b"aw_forms" not in told, (sign, wait, told)


def test_what_is_no_plain_file_is_not_replaced(tmp_path: Path) -> None:
    """A link stays a link, and a pipe a pipe: a picture never takes the place of a device."""
    (tmp_path / "link.svg").symlink_to(tmp_path / "picture.svg")
    assert spawned("aw_draw", "offices", CLAIM, "-o", str(tmp_path / "link.svg")).returncode == 0
    assert (tmp_path / "link.svg").is_symlink() and (tmp_path / "picture.svg").read_bytes().startswith(b"<?xml")
    os.mkfifo(tmp_path / "pipe")
    reader = subprocess.Popen(["cat", str(tmp_path / "pipe")], stdout=subprocess.PIPE)
    assert spawned("aw_draw", "offices", CLAIM, "-o", str(tmp_path / "pipe")).returncode == 0
    assert reader.communicate(timeout=LONG)[0] == (tmp_path / "picture.svg").read_bytes() and (tmp_path / "pipe").is_fifo()
    (tmp_path / "form.aw").write_text("role  desk\n")
    (tmp_path / "other.aw").symlink_to("form.aw")
    assert spawned("aw_fmt", "--write", str(tmp_path / "other.aw")).returncode == 0
    assert (tmp_path / "other.aw").is_symlink() and (tmp_path / "form.aw").read_text() == "role desk\n"
    assert spawned("aw_draw", "offices", CLAIM, "-o", str(tmp_path)).returncode == 73 and tmp_path.is_dir()


def test_pictures_without_graphviz(tmp_path: Path) -> None:
    """A sentence that says what to install."""
    done = spawned("aw_draw", "offices", CLAIM, PATH=str(tmp_path))
    assert done.returncode == 69 and "apt-get install graphviz" in done.stderr


def test_the_program_s_status_and_words_are_kept() -> None:
    """`replay` through aw_explain writes what the program writes, with its status."""
    data = Path(CLAIM).read_bytes()
    plain = subprocess.run([os.environ["AW"], "replay"], input=data, capture_output=True, check=True)
    done = tool("aw_explain", "replay", "-", data=data)
    assert (done.stdout.encode("utf-8", "surrogateescape"), done.returncode) == (plain.stdout, 0)


def test_another_fault_than_the_program_s_is_not_shown(tmp_path: Path) -> None:
    """Where the program tells something else than the companion finds, its line is alone."""
    other = tmp_path / "aw"
    other.write_text("#!/bin/sh\ncat > /dev/null\necho bad specification line 3 arity\nexit 3\n")
    other.chmod(0o755)
    path = str(EXAMPLES / "faults" / "specification" / "never.aw")
    done = spawned("aw_explain", path, AW=str(other))
    assert (done.stdout, done.returncode) == ("bad specification line 3 arity\n", 3)
    done = spawned("aw_explain", "--format=line", path, AW=str(other))
    assert done.stdout == "%s:3:1: bad specification line 3 arity\n" % path


def test_a_pipe_that_ends_early() -> None:
    """No traceback where nobody reads on."""
    done = subprocess.run("%s replay %s | head -c 10" % (FORMS / "aw_explain", CLAIM), shell=True, capture_output=True, text=True, timeout=LONG, check=False)
    assert done.stdout == "start clai" and done.stderr == ""


def test_colours() -> None:
    """None where the output is no terminal; with them the text is the same."""
    path = str(EXAMPLES / "faults" / "specification" / "notused.aw")
    plain = tool("aw_explain", path).stdout
    painted = tool("aw_explain", "--color=always", path).stdout
    assert "\x1b" not in plain and "\x1b[" in painted and re.sub(r"\x1b\[[0-9;]*m", "", painted) == plain


def test_texts_that_reach_for_the_terminal() -> None:
    """What a terminal would take for a command, and bytes that are no UTF-8, are shown as signs."""
    done = tool("aw_explain", "-", data=b'role r\nsort t r 0 1\nrule a : t()<"\x1b[2J\xff\xc2\x9b">\n')
    assert "\x1b" not in done.stdout and "\x9b" not in done.stdout and "0x1B may not be in a text" in done.stdout


def test_wide_and_combined_letters_keep_the_caret_in_place() -> None:
    """The caret is under the place also after letters that take two columns."""
    done = tool("aw_explain", "-", data='role r\nsort t r 0 2\nrule a : t()<"日本", x>\n'.encode())
    line, under = done.stdout.split("\n")[3:5]
    assert line.index("x>") + 2 == under.index("^") and ":3:21" not in done.stdout


LIMITS = {
    "roles": "".join("role r%d\n" % n for n in range(65)),
    "cons": "".join("con c%d 0\n" % n for n in range(1025)),
    "sorts": "role r\n" + "".join("sort s%d r 0 0\n" % n for n in range(257)),
    "types": "".join("type t%d\n" % n for n in range(257)),
    "rules": "role r\nsort s r 0 0\n" + "".join("rule a%d : s()<>\n" % n for n in range(1025)),
    "patterns": "role r\nsort s r 1 0\nrule a : s(%s)<>\n" % ", ".join("abcdefghi"),
    "results": "role r\nsort s r 0 1\nrule a {x} : s()<%s>\n" % ", ".join(["x"] * 9),
    "children": "role r\nsort s r 0 0\nrule a : s()<> = %s\n" % " ; ".join(["s()<>"] * 9),
    "eight children": "role r\nsort s r 0 0\nrule a : s()<> = %s\n" % " ; ".join(["s()<>"] * 8),
    "symbols": "role r\ncon c 8\nsort s r 0 8\nrule a {x} : s()<%s>\n" % ", ".join(["c(c(x, x, x, x, x, x, x, x), c(x, x, x, x, x, x, x, x), c(x, x, x, x, x, x, x, x), c(x, x, x, x, x, x, x, x), x, x, x, x)"] * 8),
    "256 symbols": "role r\ncon c 1\nsort w r 8 8\nsort v r 8 0\nrule big : w(%s)<%s> = %s\n" % (
        ", ".join("x%d" % n for n in range(8)), ", ".join("c(" * 22 + "x%d" % n + ")" * 22 for n in range(8)), " ; ".join(["v(%s)<>" % ", ".join("x%d" % n for n in range(8))] * 8)),
    "257 symbols": "role r\ncon c 1\nsort w r 8 8\nsort v r 8 0\nrule big : w(%s)<%s> = %s\n" % (
        ", ".join("x%d" % n for n in range(8)), ", ".join("c(" * (22 + (n == 0)) + "x%d" % n + ")" * (22 + (n == 0)) for n in range(8)), " ; ".join(["v(%s)<>" % ", ".join("x%d" % n for n in range(8))] * 8)),
    "variables": "role r\ncon c 8\nsort s r 8 0\nrule a : s(%s)<>\n" % ", ".join("c(%s)" % ", ".join("v%d_%d" % (i, j) for j in range(8)) for i in range(8)),
    "65 variables": "role r\ncon c 8\nsort s r 8 0\nrule a {y} : s(%s)<>\n" % ", ".join("c(%s)" % ", ".join("v%d_%d" % (i, j) for j in range(8)) for i in range(8)),
    "nesting": "role r\ncon c 1\nsort s r 0 1\nrule a : s()<%s0%s>\n" % ("c(" * 32, ")" * 32),
    "32 deep": "role r\ncon c 1\nsort s r 0 1\nrule a : s()<%s0%s>\n" % ("c(" * 31, ")" * 31),
    "very deep": "role r\ncon c 1\nsort s r 0 1\nrule a : s()<%s0%s>\n" % ("c(" * 20_000, ")" * 20_000),
    "name of 64": "role %s\n" % ("a" * 64), "name of 65": "role %s\n" % ("a" * 65),
    "text of 1024": 'role r\nsort s r 0 1\nrule a : s()<"%s">\n' % ("\\n" * 1024), "text of 1025": 'role r\nsort s r 0 1\nrule a : s()<"%s">\n' % ("é" * 512 + "x"),
    "largest number": "con c 18446744073709551615\n", "past the largest": "con c 18446744073709551616\n", "a long number": "con c %s\n" % ("9" * 10_000),
    "250 steps": "role r\nsort t r 0 0\nstart t\nrule m : t()<> = t()<>\nschedule\nstart t 0\nchoose t#0%s m\n" % ("/m.1" * 250),
    "251 steps": "role r\nsort t r 0 0\nstart t\nrule m : t()<> = t()<>\nschedule\nstart t 0\nchoose t#0%s m\n" % ("/m.1" * 251),
    "257 symbols entered": "role r\ncon c 8\nsort t r 0 0\nstart t\nrule m {x} : t()<>\nschedule\nchoose t#0 m {%s}\n" % ", ".join(["c(%s)" % ", ".join(["c(0, 1, 2, 3, 4, 5, 6, 7)"] * 8)] * 4),
    "33 deep entered": "role r\ncon c 1\nsort t r 0 0\nstart t\nrule m {x} : t()<>\nschedule\nchoose t#0 m {%s0%s}\n" % ("c(" * 32, ")" * 32),
    "no line feed at the end": "role r\nrole", "nul": "role r\0\n", "nothing": "", "carriage returns": "role r\r\nsort s r 0 0\r\nrule a : s()<x>\r\n",
}


@pytest.mark.parametrize("name", LIMITS)
def test_limits_are_read_as_the_program_reads_them(name: str) -> None:
    """On both sides of each limit."""
    assert edits.difference(LIMITS[name].encode()) == ""


@pytest.mark.parametrize("name", LIMITS)
def test_no_command_fails_at_a_limit(name: str) -> None:
    """None of the commands writes a traceback."""
    data = LIMITS[name].encode()
    for command, words in COMMANDS.items():
        assert tool(command, *words, "-", data=data).returncode in (0, 1, 3, 4, 5, 15, 70)


def test_a_text_that_is_too_long() -> None:
    """The program writes nothing of it; the companion says why."""
    done = tool("aw_explain", "-", data=b"role r\n" + b"% x\n" * 4_200_000)
    assert done.returncode == 11 and "16,777,216 bytes" in done.stderr
    done = tool("aw_explain", "/dev/zero")
    assert done.returncode == 11 and "16,777,216 bytes" in done.stderr


def test_the_page_shows_what_comes() -> None:
    """Each box of README.md with a command shows what it writes."""
    boxes = re.findall(r"^```\n\$ ([^\n]*)\n(.*?)^```$", (FORMS / "README.md").read_text(encoding="utf-8"), re.MULTILINE | re.DOTALL)
    assert len(boxes) == 2
    for typed, shown in boxes:
        done = subprocess.run(["bash", "-c", typed], cwd=TOP, capture_output=True, text=True, timeout=LONG, check=False)
        assert done.stdout == shown
