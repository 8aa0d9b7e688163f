"""Up to where letters were carried, and the file that keeps it."""
from __future__ import annotations

import fcntl
import hashlib
import json
import os
import threading
import time
from collections import deque
from dataclasses import dataclass, field
from pathlib import Path

from aw_forms.program import Sorry

LOCKED, NOT_WRITTEN = 75, 73
MOST_WAITING, MOST_BYTES = 10_000, 1 << 24


def digest(letter: bytes) -> str:
    """What tells one letter from another."""
    return hashlib.sha256(letter).hexdigest()[:32]


@dataclass(slots=True)
class Letter:
    """A letter that waits: its place in the outbox, its bytes, and since when it is known."""

    place: int
    data: bytes
    since: float


@dataclass(slots=True)
class Pair:
    """The letters of one sender for one receiver.

    Below `place` each was answered; from there up to `known` those that are for the receiver wait. A mark is the digest of the letter in front of a
    place, by which another outbox is told from this one.
    """

    sender: int
    receiver: int
    place: int = 0
    mark: str = ""
    known: int = 0
    known_mark: str = ""
    waiting: deque[Letter] = field(default_factory=deque)
    bytes: int = 0

    def full(self) -> bool:
        """Whether no further letter is taken into memory for now."""
        return len(self.waiting) >= MOST_WAITING or self.bytes >= MOST_BYTES

    def saw(self, at: int, letter: bytes, mark: str, is_for: int) -> bool:
        """Takes the letter at a place of the outbox; whether it was added to those that wait."""
        if at != self.known or self.full():
            return False
        self.known, self.known_mark = at + 1, mark
        if is_for == self.receiver:
            self.waiting.append(Letter(at, letter, time.time()))
            self.bytes += len(letter)
        elif not self.waiting:
            self.place, self.mark = self.known, mark
        return is_for == self.receiver

    def answered(self, letter: Letter) -> None:
        """The receiver has replied to the first letter that waits."""
        if not self.waiting or self.waiting[0] is not letter:
            return
        self.waiting.popleft()
        self.bytes -= len(letter.data)
        self.place, self.mark = (letter.place + 1, digest(letter.data)) if self.waiting else (self.known, self.known_mark)

    def anew(self) -> None:
        """The outbox is another one: all of it is carried again."""
        self.place = self.known = self.bytes = 0
        self.mark = self.known_mark = ""
        self.waiting.clear()


class Places:
    """The pairs of all roles, read from a file and written into it. Two programs never use one file at a time."""

    def __init__(self, path: str, roles: list[str]) -> None:
        self.path, self.roles, self.guard = Path(os.path.realpath(path)), roles, threading.Lock()
        self.lock = self.locked()
        noted = self.noted()
        self.pairs = [[self.pair(s, r, noted) for r in range(len(roles)) if r != s] for s in range(len(roles))]
        self.written = json.dumps(noted, indent=0)

    def locked(self) -> int:
        """The lock beside the file; it ends with the process."""
        try:
            lock = os.open(str(self.path) + ".lock", os.O_RDWR | os.O_CREAT | os.O_CLOEXEC, 0o600)
            fcntl.flock(lock, fcntl.LOCK_EX | fcntl.LOCK_NB)
        except BlockingIOError:
            raise Sorry("Another post uses %s; stop it first, or name another file." % self.path, LOCKED) from None
        except OSError as error:
            raise Sorry("%s.lock can't be written: %s." % (self.path, (error.strerror or str(error)).lower()), NOT_WRITTEN) from None
        return lock

    def noted(self) -> dict[str, list[object]]:
        """What the file says; a file that is not there says nothing."""
        try:
            said = json.loads(self.path.read_bytes())
            if not isinstance(said, dict) or not all(isinstance(v, list) and len(v) == 2 and isinstance(v[0], int) and v[0] >= 0 for v in said.values()):
                raise ValueError
        except FileNotFoundError:
            return {}
        except OSError as error:
            raise Sorry("%s can't be read: %s." % (self.path, (error.strerror or str(error)).lower()), 66) from None
        except ValueError:
            raise Sorry("%s holds no places; take it away, and all letters are carried once more, which changes nothing." % self.path, 65) from None
        return said

    def key(self, sender: int, receiver: int) -> str:
        """How the file names a pair."""
        return "%s %s" % (self.roles[sender], self.roles[receiver])

    def pair(self, sender: int, receiver: int, noted: dict[str, list[object]]) -> Pair:
        """A pair, with the place that was noted."""
        place, mark = noted.get(self.key(sender, receiver), [0, ""])
        assert isinstance(place, int)
        return Pair(sender, receiver, place, str(mark), place, str(mark))

    def all(self) -> list[Pair]:
        """Every pair."""
        return [pair for of_sender in self.pairs for pair in of_sender]

    def save(self) -> None:
        """Writes the places where one has changed: whole, and on the disk before it takes the old file's name."""
        with self.guard:
            text = json.dumps({self.key(p.sender, p.receiver): [p.place, p.mark] for p in self.all() if p.place}, indent=0)
            if text == self.written:
                return
            beside = str(self.path) + ".new"
            with open(os.open(beside, os.O_WRONLY | os.O_CREAT | os.O_TRUNC, 0o600), "w", encoding="utf-8") as file:
                file.write(text)
                file.flush()
                os.fsync(file.fileno())
            os.replace(beside, self.path)
            self.written = text
