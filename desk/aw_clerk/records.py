"""The desk's own notes: who decided what and when, since when a task has been there, and who is at it. The office's journal has none of this."""
from __future__ import annotations

import logging
import sqlite3
import threading
import time
from collections.abc import Iterable
from dataclasses import dataclass
from pathlib import Path

from aw_forms.program import Sorry

LOG = logging.getLogger("aw_desk")
TABLES = """
CREATE TABLE IF NOT EXISTS decided (number INTEGER PRIMARY KEY, at REAL NOT NULL, clerk TEXT NOT NULL, task TEXT NOT NULL, rule TEXT NOT NULL,
                                    entered TEXT NOT NULL, answer TEXT NOT NULL);
CREATE INDEX IF NOT EXISTS decided_task ON decided (task);
CREATE TABLE IF NOT EXISTS seen (task TEXT PRIMARY KEY, at REAL NOT NULL) WITHOUT ROWID;
CREATE TABLE IF NOT EXISTS claimed (task TEXT PRIMARY KEY, clerk TEXT NOT NULL, at REAL NOT NULL) WITHOUT ROWID;
"""
CLAIM_SECONDS = 30 * 60.0
UNSURE = "not known"
MOST_WORDS = 20
HAS_WORD = " AND instr(lower(clerk || ' ' || replace(replace(task, '#', ' '), '_', ' ') || ' ' || replace(rule, '_', ' ') || ' ' || entered), lower(?)) > 0"


@dataclass(frozen=True, slots=True)
class Decision:
    """What somebody decided at this desk: a rule at a task, or with no rule the beginning of a case."""

    at: float
    clerk: str
    task: str
    rule: str
    entered: str
    answer: str


class Records:
    """Notes in a file of SQLite, for several threads."""

    def __init__(self, path: Path) -> None:
        self.turn = threading.Lock()
        try:
            self.base = sqlite3.connect(path, timeout=20, check_same_thread=False, isolation_level=None)
            self.base.executescript("PRAGMA journal_mode=WAL; PRAGMA synchronous=FULL;" + TABLES)
            path.chmod(0o600)
        except (sqlite3.Error, OSError) as error:
            raise Sorry("The desk's notes can't be kept in %s: %s." % (path, error), 73) from None
        self.known: dict[str, float] = dict(self.base.execute("SELECT task, at FROM seen"))

    def close(self) -> None:
        """Closes the file."""
        with self.turn:
            self.base.close()

    def decide(self, clerk: str, task: str, rule: str, entered: str, answer: str) -> None:
        """Notes a decision, and that nobody is at the task any more."""
        with self.turn:
            self.base.execute("INSERT INTO decided (at, clerk, task, rule, entered, answer) VALUES (?, ?, ?, ?, ?, ?)", (time.time(), clerk, task, rule, plain(entered), answer))
            self.base.execute("DELETE FROM claimed WHERE task = ?", (task,))

    def decisions(self, most: int, before: int | None = None, words: str = "") -> list[tuple[int, Decision]]:
        """The last decisions that have each of some words, the newest first, each with its number."""
        looked = words.split()[:MOST_WORDS]
        with self.turn:
            rows = self.base.execute("SELECT number, at, clerk, task, rule, entered, answer FROM decided WHERE number < ?%s ORDER BY number DESC LIMIT ?" % (HAS_WORD * len(looked)),
                                     ((1 << 62) if before is None else before, *map(plain, looked), most)).fetchall()
        return [(row[0], Decision(*row[1:])) for row in rows]

    def of_task(self, task: str) -> Decision | None:
        """How a task was decided at this desk, if it was."""
        with self.turn:
            row = self.base.execute("SELECT at, clerk, task, rule, entered, answer FROM decided WHERE task = ? AND answer IN ('taken', ?) ORDER BY number DESC LIMIT 1",
                                    (task, UNSURE)).fetchone()
        return Decision(*row) if row else None

    def see(self, tasks: Iterable[str]) -> None:
        """Notes since when tasks have been here."""
        now = time.time()
        new = {task: now for task in tasks if task not in self.known}
        if not new:
            return
        with self.turn:
            try:
                self.base.execute("BEGIN")
                self.base.executemany("INSERT OR IGNORE INTO seen VALUES (?, ?)", list(new.items()))
                self.base.execute("COMMIT")
                self.known.update(new)
            except sqlite3.Error as error:
                LOG.warning("since when tasks are here can't be noted: %s", error)
                if self.base.in_transaction:
                    self.base.execute("ROLLBACK")

    def since(self, task: str) -> float:
        """Since when a task has been here."""
        return self.known.get(task, time.time())

    def claim(self, task: str, clerk: str) -> None:
        """Notes that a clerk is at a task, in place of whoever was."""
        with self.turn:
            self.base.execute("INSERT OR REPLACE INTO claimed VALUES (?, ?, ?)", (task, clerk, time.time()))

    def leave(self, task: str, clerk: str) -> None:
        """Notes that a clerk is not at a task any more."""
        with self.turn:
            self.base.execute("DELETE FROM claimed WHERE task = ? AND clerk = ?", (task, clerk))

    def claims(self) -> dict[str, tuple[str, float]]:
        """Who is at which task, and since when."""
        with self.turn:
            rows = self.base.execute("SELECT task, clerk, at FROM claimed WHERE at > ?", (time.time() - CLAIM_SECONDS,)).fetchall()
        return {task: (clerk, at) for task, clerk, at in rows}


def plain(text: str) -> str:
    """A text that can be kept: bytes that are no UTF-8 are written as `\\xHH`."""
    return text.encode("utf-8", "surrogateescape").decode("utf-8", "backslashreplace")
