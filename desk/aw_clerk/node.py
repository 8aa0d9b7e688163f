"""Choices and starts, sent to the office's node."""
from __future__ import annotations

import struct
import threading
from dataclasses import dataclass

from aw_offices.addresses import Address
from aw_offices.frames import ANSWER, BAD_FRAME, BAD_NAME, CHOOSE, TOO_LONG, frame
from aw_offices.sessions import Patience, Session, Trouble

from .tasks import steps_of
from .values import Value, grounds
from .wording import Wording

PATIENCE = Patience(dial=5.0, silence=20.0, session=30.0)
SAID = {BAD_NAME: "bad name", TOO_LONG: "too long", BAD_FRAME: "bad frame"}


class Closed(Exception):
    """Nobody answers: nothing was sent."""


class Unsure(Exception):
    """The session broke off after the choice was sent."""


@dataclass(frozen=True, slots=True)
class Office:
    """Where the node of an office is, and the names of its specification."""

    address: Address
    wording: Wording

    def start(self, sort: str, number: int) -> str:
        """Begins a case; the answer."""
        return self.ask(b"\0" + struct.pack(">HQ", list(self.wording.spec.sorts).index(sort), number))

    def choose(self, task: str, rule: str, entered: list[Value]) -> str:
        """Chooses a rule; the answer."""
        sort, number, steps = steps_of(task) or ("", 0, [])
        sorts, rules = list(self.wording.spec.sorts), list(self.wording.spec.rules)
        data = struct.pack(">HQB", sorts.index(sort), number, len(steps)) + b"".join(struct.pack(">HB", rules.index(name), child) for name, child in steps)
        return self.ask(b"\1" + data + struct.pack(">H", rules.index(rule)) + grounds(entered, self.wording.constructors))

    def ask(self, payload: bytes) -> str:
        """Sends a choice; the answer in the words of the transcript."""
        try:
            session = Session(self.address, PATIENCE, threading.Event())
        except Trouble as trouble:
            raise Closed(str(trouble)) from None
        with session:
            try:
                kind, said = next(session.replies([frame(CHOOSE, payload)]))
            except Trouble as trouble:
                raise Unsure(str(trouble)) from None
        return said.decode("utf-8", "surrogateescape") if kind == ANSWER else SAID.get(kind, "reply %d" % kind)
