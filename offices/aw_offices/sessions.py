"""A session with an office."""
from __future__ import annotations

import select
import socket
import struct
import threading
import time
from collections.abc import Iterator
from dataclasses import dataclass

from .addresses import Address
from .frames import LONGEST_FRAME, ITEM

SLICE = 0.2
PIECE = 1 << 16


class Trouble(Exception):
    """Why a session broke off."""


class Stopped(Exception):
    """The program is to end."""


@dataclass(frozen=True, slots=True)
class Patience:
    """How many seconds are waited for a connection, for a byte, and for a session as a whole."""

    dial: float = 5.0
    silence: float = 10.0
    session: float = 60.0


class Session:
    """A connection to an office, over which requests are sent and replies come in the same order."""

    def __init__(self, address: Address, patience: Patience, stop: threading.Event) -> None:
        self.patience, self.stop = patience, stop
        self.ends = time.monotonic() + patience.session
        self.got = bytearray()
        try:
            self.peer: socket.socket = address.dial(patience.dial)
        except OSError as error:
            raise Trouble("nobody answers at %s (%s)" % (address, words(error))) from None
        self.peer.setblocking(False)

    def __enter__(self) -> Session:
        return self

    def __exit__(self, *_: object) -> None:
        self.peer.close()

    def replies(self, requests: list[bytes]) -> Iterator[tuple[int, bytes]]:
        """The reply to each request, as it comes. Reads while it writes, so that neither side waits for the other."""
        out, due = memoryview(b"".join(requests)), len(requests)
        while due:
            reply = self.taken()
            if reply is not None:
                due -= 1
                yield reply
                continue
            out = self.moved(out)

    def moved(self, out: memoryview) -> memoryview:
        """Waits until bytes can be sent or have come; what is still to be sent."""
        silent = time.monotonic() + self.patience.silence
        poll = select.poll()
        poll.register(self.peer, select.POLLIN | (select.POLLOUT if out else 0))
        while not (events := poll.poll(SLICE * 1000)):
            if self.stop.is_set():
                raise Stopped
            if time.monotonic() > min(silent, self.ends):
                raise Trouble("no byte within %g seconds" % self.patience.silence)
        if time.monotonic() > self.ends:
            raise Trouble("the session was not over within %g seconds" % self.patience.session)
        try:
            if events[0][1] & (select.POLLIN | select.POLLHUP | select.POLLERR):
                self.read()
            if out and events[0][1] & select.POLLOUT:
                out = out[self.peer.send(out[:PIECE]):]
        except BlockingIOError:
            pass
        except OSError as error:
            raise Trouble("the session broke off (%s)" % words(error)) from None
        return out

    def read(self) -> None:
        """Takes bytes that have come."""
        piece = self.peer.recv(PIECE)
        if not piece:
            raise Trouble("the session ended before the reply")
        self.got += piece

    def taken(self) -> tuple[int, bytes] | None:
        """A reply that is whole."""
        if len(self.got) < 5:
            return None
        kind, length = struct.unpack_from(">BI", self.got)
        if not 1 <= kind <= ITEM or length > LONGEST_FRAME:
            raise Trouble("what answers there is no node")
        if len(self.got) < 5 + length:
            return None
        payload = bytes(self.got[5:5 + length])
        del self.got[:5 + length]
        return kind, payload


def words(error: OSError) -> str:
    """What an error of the system says."""
    return (error.strerror or str(error) or type(error).__name__).lower()
