"""The page on running offices: what it shows is typed in its order, and its words are those of the programs."""
from __future__ import annotations

import os
import re
import signal
import subprocess
from collections.abc import Iterator
from pathlib import Path

import pytest
from conftest import EXAMPLES, LONG, OFFICES, TOP, listens, until
from systems import BOOK, tells

from aw_offices.metrics import HELP

PAGE = (TOP / "docs" / "OPERATING.md").read_text(encoding="utf-8")
BOX = re.compile(r"^```\n(.*?)^```$", re.M | re.S)
COMMAND = re.compile(r"^\$ (.*)\n((?:(?!\$ ).*\n)*)", re.M)


class Terminal:
    """A folder in which commands are typed."""

    def __init__(self, folder: Path) -> None:
        self.folder, self.running = folder, list[subprocess.Popen[bytes]]()
        bin_ = folder / "bin"
        bin_.mkdir()
        for name, path in {"aw": os.environ["AW"], "aw_book": BOOK, **{n: OFFICES / n for n in ("aw_post", "aw_guard", "aw_carry_over")}}.items():
            (bin_ / name).symlink_to(path)
        for name in ("insurance-claim.aw", "client.py"):
            (folder / name).write_bytes((EXAMPLES / name).read_bytes())
        self.environment = {**os.environ, "PATH": "%s:/usr/sbin:/usr/bin:/sbin:/bin" % bin_}

    def type(self, command: str) -> str:
        """What a command writes; one that ends with `&` goes on, until its office listens."""
        if command.endswith("&"):
            self.running.append(subprocess.Popen(["bash", "-c", command[:-1]], cwd=self.folder, env=self.environment, start_new_session=True))
            port = {"front": 7400, "assessor": 7401, "payments": 7402}.get(command.split("cd ")[-1].split()[0])
            until(lambda: port is None or listens(port), "nobody listens after: %s" % command)
            return ""
        done = subprocess.run(["bash", "-c", command], cwd=self.folder, env=self.environment, capture_output=True, text=True, timeout=LONG)
        return done.stdout + done.stderr

    def end(self) -> None:
        """Ends what goes on."""
        for process in self.running:
            os.killpg(process.pid, signal.SIGKILL)
            process.wait()


@pytest.fixture
def terminal(tmp_path: Path) -> Iterator[Terminal]:
    made = Terminal(tmp_path)
    try:
        yield made
    finally:
        made.end()


def test_what_is_shown_comes(terminal: Terminal) -> None:
    if not tells("join"):
        pytest.skip("not run: there is no aw_book with `join` at %s" % BOOK)
    typed = [pair for box in BOX.findall(PAGE) for pair in COMMAND.findall(box)]
    assert len(typed) > 8
    for command, shown in typed:
        if " list" in command or "aw_book " in command:  # (once the letters have come)
            until(lambda: terminal.type(command) == shown, "%s\nwrites\n%sin place of\n%s" % (command, terminal.type(command), shown))
        else:
            assert terminal.type(command) == shown, command


def test_every_number_is_one_of_the_post() -> None:
    assert set(re.findall(r"aw_post_\w+", PAGE)) - {"aw_post_door"} <= set(HELP)


def test_every_unit_and_option_is_there() -> None:
    units = {path.name.removesuffix(".service").removesuffix("@") for path in (OFFICES / "units").glob("*.service")}
    assert set(re.findall(r"^\| `(aw-[a-z-]+)(?:@ROLE)?`(?:, `aw-[a-z.]+`)? \|", PAGE, re.M)) == units
    helps = "".join(subprocess.run([str(OFFICES / name), "--help"], capture_output=True, text=True, timeout=LONG).stdout for name in ("aw_post", "aw_guard"))
    words = re.findall(r"(?:aw_post|aw_guard) .*", PAGE)
    for option in {option for line in words for option in re.findall(r" (--[a-z]+)", line)} - {"--collector"}:
        assert option in helps, option


def test_completions_and_man_page_have_every_option_of_the_book() -> None:
    """Where it is built: its commands and their options."""
    if not BOOK.is_file():
        pytest.skip("not run: there is no aw_book at %s" % BOOK)
    man = (TOP / "packaging" / "man" / "aw_book.1.scd").read_text(encoding="utf-8")
    texts = [man, *((TOP / "packaging" / "completions" / file).read_text(encoding="utf-8") for file in ("aw.bash", "_aw", "aw.fish"))]
    helped = subprocess.run([str(BOOK), "--help"], capture_output=True, text=True, timeout=LONG).stdout
    commands = re.findall(r"^  ([a-z]+) ", helped.split("Commands:")[1].split("Options:")[0], re.M)
    for command in [command for command in commands if command != "help"]:
        assert all(command in text for text in texts) and "*aw_book %s*" % command in man, command
        options = re.findall(r"--([a-z-]+[a-z])", subprocess.run([str(BOOK), command, "--help"], capture_output=True, text=True, timeout=LONG).stdout)
        for option in set(options) - {"help", "version"}:
            assert all(option in text for text in texts) and "*--%s*" % option in man, (command, option)


@pytest.mark.parametrize("name", ["aw_post", "aw_guard"])
def test_completions_and_man_page_have_every_option(name: str) -> None:
    shown = subprocess.run([str(OFFICES / name), "--help"], capture_output=True, text=True, timeout=LONG).stdout
    options = set(re.findall(r"(--[a-z]+)", shown.split("\n\n", 1)[0])) - {"--help", "--version"}
    assert options
    folder = TOP / "packaging" / "completions"
    bash, zsh, fish = ((folder / file).read_text(encoding="utf-8") for file in ("aw.bash", "_aw", "aw.fish"))
    man = (TOP / "packaging" / "man" / "aw_post.1.scd").read_text(encoding="utf-8")
    for option in options:
        assert option in bash and option + "[" in zsh and "-c %s -l %s " % (name, option[2:]) in fish and "*%s*" % option in man, option


def test_bash_completes() -> None:
    script = "source %s/packaging/completions/aw.bash; COMP_WORDS=(aw re); COMP_CWORD=1; _aw; echo ${COMPREPLY[@]}; COMP_WORDS=(aw node lab 1 k); COMP_CWORD=4; _aw; echo ${COMPREPLY[@]}"
    done = subprocess.run(["bash", "-c", script % TOP], capture_output=True, text=True, timeout=LONG)
    assert done.stdout.split() == ["replay", "kept"] and not done.stderr
