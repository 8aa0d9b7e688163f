"""The program `aw`: where it is, and what it writes of an input."""
from __future__ import annotations

import os
import subprocess
from dataclasses import dataclass
from pathlib import Path

TOP = Path(__file__).resolve().parent.parent.parent
BUILT = TOP / "crates" / "aw_prog" / "out" / "aw_prog"
VARIABLE = "AW"
SILENT = {
    2: "the words are no command of the program, or name no role",
    6: "its output would be longer than 67,108,864 bytes",
    7: "reading the input failed",
    8: "writing its output failed",
    9: "a session or a call on the network failed",
    10: "memory ran out",
    11: "the input has more than 16,777,216 bytes",
    12: "a call of the disk failed",
    13: "the journal is of another role or specification, or an event in it does not fit",
    16: "the journal is full",
}


class Sorry(Exception):
    """Why a companion can't go on, as a sentence with what to do, and its status."""

    def __init__(self, words: str, status: int = 2) -> None:
        super().__init__(words)
        self.status = status


@dataclass(frozen=True, slots=True)
class Answer:
    """What the program wrote, and its status."""

    output: str
    status: int

    @property
    def line(self) -> str:
        """Its first line."""
        return self.output.split("\n", 1)[0]


def found() -> Path:
    """Where the program is: what the variable AW says, else where it is built, else in the path of commands."""
    named = os.environ.get(VARIABLE)
    if named:
        path = Path(named)
        if path.is_file() and os.access(path, os.X_OK):
            return path.resolve()
        raise Sorry("The variable AW says that the program is %s, and no program is there; mend the variable, or take it away." % named, 69)
    if BUILT.is_file():
        return BUILT
    for folder in os.environ.get("PATH", "").split(os.pathsep):
        path = Path(folder) / "aw"
        if folder and path.is_file() and os.access(path, os.X_OK):
            return path.resolve()
    raise Sorry("The program aw is not there: build it (README.md, \"Try it\"), or set the variable AW to the path of a built one.", 69)


def ask(words: list[str], data: bytes, timeout: float | None = None) -> Answer:
    """Runs the program with some words on an input."""
    path = found()
    try:
        done = subprocess.run([str(path), *words], input=data, capture_output=True, timeout=timeout, check=False)
    except OSError as error:
        raise Sorry("The program %s could not be started: %s." % (path, (error.strerror or str(error)).lower()), 69) from None
    except subprocess.TimeoutExpired:
        raise Sorry("The program %s did not end within %d seconds; try the words `aw %s` alone." % (path, timeout or 0, " ".join(words)), 69) from None
    if done.returncode < 0:
        raise Sorry("The program %s was ended by signal %d." % (path, -done.returncode), 69)
    return Answer(done.stdout.decode("utf-8", "surrogateescape"), done.returncode)


def sentence(answer: Answer) -> str:
    """A sentence about an answer that has no line."""
    return "The program wrote nothing and ended with status %d: %s." % (answer.status, SILENT.get(answer.status, "docs/SCHEDULE.md tells its statuses"))
