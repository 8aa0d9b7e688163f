"""The program `aw_book`: where it is, and what it says of a journal."""
from __future__ import annotations

import os
import select
import subprocess
import threading
import time
from pathlib import Path

from aw_forms.program import TOP, Sorry

BUILT = TOP / "crates" / "aw_book" / "out" / "aw_book"
VARIABLE = "AW_BOOK"
PATIENCE = 60.0
PIECE = 1 << 16
TRIES, PAUSE, DAMAGED = 5, 0.2, "whole records stand behind those that count"


class NotSaid(Exception):
    """Why the book does not say what is in a journal, as it says so itself; with all that it said, and its status, where it ended."""

    def __init__(self, words: str, whole: str = "", status: int = 0) -> None:
        super().__init__(words)
        self.whole, self.status = whole, status


def found() -> str:
    """Where the program is: what the variable AW_BOOK says, else where it is built, else in the path of commands."""
    named = os.environ.get(VARIABLE)
    if named:
        if os.access(named, os.X_OK) and Path(named).is_file():
            return str(Path(named).resolve())
        raise Sorry("The variable %s says that the program is %s, and no program is there; mend the variable, or take it away." % (VARIABLE, named), 69)
    if BUILT.is_file():
        return str(BUILT)
    for folder in os.environ.get("PATH", "").split(os.pathsep):
        path = Path(folder) / "aw_book"
        if folder and path.is_file() and os.access(path, os.X_OK):
            return str(path.resolve())
    raise Sorry("The program aw_book is not there: build it (README.md, \"Try it\"), or set the variable %s to the path of a built one." % VARIABLE, 69)


def lines_of(data: bytes) -> list[str]:
    """Bytes as lines; those that are no UTF-8 are kept, each as one character."""
    return data.decode("utf-8", "surrogateescape").split("\n")[:-1]


def said(*words: str) -> list[str]:
    """What the book writes for some words. Beside a node that writes much it can take whole records for ones that a node would cut off, so then it is asked
    again."""
    for _ in range(TRIES):
        try:
            return said_once(*words)
        except NotSaid as error:
            if DAMAGED not in str(error):
                raise
            time.sleep(PAUSE)
    return said_once(*words)


def said_once(*words: str) -> list[str]:
    """What the book writes for some words, asked once."""
    try:
        done = subprocess.run([found(), *words], capture_output=True, stdin=subprocess.DEVNULL, timeout=PATIENCE, check=False)
    except (OSError, subprocess.TimeoutExpired) as error:
        raise NotSaid(str(error)) from None
    if done.returncode != 0:
        whole = done.stderr.decode("utf-8", "replace").strip()
        raise NotSaid(whole.splitlines()[-1] if whole else "aw_book ended with status %d" % done.returncode, whole, done.returncode)
    return lines_of(done.stdout)


class Follower:
    """A book that stays open at a journal: asked again, it reads only what is new. Several threads may ask; each gets what one asking gave."""

    def __init__(self, words: list[str]) -> None:
        self.words, self.turn = words, threading.Lock()
        self.child: subprocess.Popen[bytes] | None = None
        self.got = bytearray()

    def lines(self) -> list[str]:
        """What the book says now. A child that ended is begun anew, twice."""
        with self.turn:
            for last in (False, False, True):
                try:
                    if self.child is None:
                        self.begin()
                        return self.answer()
                    return self.ask()
                except NotSaid:
                    self.end()
                    if last:
                        raise
        raise NotSaid("aw_book said nothing")

    def begin(self) -> None:
        """Starts the child."""
        self.got.clear()
        try:
            self.child = subprocess.Popen([found(), *self.words, "--follow"], stdin=subprocess.PIPE, stdout=subprocess.PIPE, stderr=subprocess.PIPE)
        except OSError as error:
            raise NotSaid(str(error)) from None

    def ask(self) -> list[str]:
        """Asks the child once more."""
        assert self.child is not None and self.child.stdin is not None
        try:
            self.child.stdin.write(b"\n")
            self.child.stdin.flush()
        except OSError:
            raise NotSaid("aw_book ended") from None
        return self.answer()

    def answer(self) -> list[str]:
        """Reads up to the empty line that ends an answer; no other line is empty."""
        assert self.child is not None and self.child.stdout is not None and self.child.stderr is not None
        ends = time.monotonic() + PATIENCE
        while not (self.got == b"\n" or self.got.endswith(b"\n\n")):
            ready, _, _ = select.select([self.child.stdout], [], [], max(ends - time.monotonic(), 0))
            if not ready:
                raise NotSaid("aw_book did not answer within %d seconds" % PATIENCE)
            piece = os.read(self.child.stdout.fileno(), PIECE)
            if not piece:
                words = self.child.stderr.read().decode("utf-8", "replace").strip().splitlines()
                raise NotSaid(words[-1] if words else "aw_book ended")
            self.got += piece
        data, self.got = bytes(self.got[:-1]), bytearray()
        return lines_of(data)

    def end(self) -> None:
        """Ends the child."""
        if self.child is not None:
            self.child.kill()
            for stream in (self.child.stdin, self.child.stdout, self.child.stderr):
                if stream is not None:
                    try:
                        stream.close()
                    except OSError:
                        pass
            self.child.wait()
            self.child = None
