"""The door of an office: lets through only whole requests that fit who is behind it, and cuts who is silent."""
from __future__ import annotations

import asyncio
import contextlib
import signal
from dataclasses import dataclass

from aw_forms.command import parser, tell
from aw_forms.program import Sorry

from . import frames
from .addresses import Address, address, standard
from .sessions import words
from .specification import Offices, offices_in
from .spread import Spread, spread

NAME = "aw_guard"
WHAT = "Stands in front of an office's node and lets through what fits the door."
BEHIND = """
DOOR is WHO=ADDRESS; an address is HOST:PORT, or the path of a socket; WHO alone is a door where clients expect the node. WHO is one of
    person           starts, choices and the worklist
    post             a post that all trust: it takes this office's letters, and brings those of every other role
    post:ROLE,..     a post that takes this office's letters, and brings those of these roles alone
    letters:ROLE,..  whoever brings letters of these roles, and takes none

A letter is let through where it is for this office and where the one role that can have sent it, by the names in it, is one of those behind the
door. Who sends anything else gets the reply `bad frame`, as of the node, and the session ends; it is told on the standard error. The node is
not troubled before a request is whole.

Ends with
    0   it was told to end (SIGTERM, SIGINT)
    2   the words are none of the above
    65  the specification is faulty, or the file of systems is
    66  a file can't be read
    69  a door can't be opened

Examples
    aw_guard claim.aw front person=/run/front/people post=/run/front/post     two doors, each a socket with its owner and mode
    aw_guard claim.aw assessor letters:front=127.0.0.1:8401                   the front office's letters, behind a tunnel
"""
NO_DOOR = 69
PIECE, LAST_LOOK = 1 << 16, 0.05


class Refused(Exception):
    """Why a request is not let through."""


@dataclass(frozen=True, slots=True)
class Door:
    """Who is behind it: which requests pass, and of which roles letters pass."""

    who: str
    where: Address
    kinds: frozenset[int]
    authors: frozenset[int]
    spread: Spread = Spread()

    def look(self, offices: Offices, office: int, kind: int, payload: bytes) -> None:
        """Raises why a request is not let through."""
        try:
            message = frames.message(payload) if kind == frames.PUSH else None
            case = frames.choice(payload) if kind == frames.CHOOSE else None
        except frames.Bad as bad:
            raise Refused("no %s: %s" % ("message" if kind == frames.PUSH else "choice", bad)) from None
        if kind not in self.kinds:
            raise Refused("a %s does not belong here" % frames.REQUESTS[kind])
        if case is not None and not self.spread.is_here(case):
            raise Refused("a choice in another system: %s" % self.spread.elsewhere(case))
        if message is None:
            return
        author = offices.author(message)
        if message.to != office:
            raise Refused("a letter for another office: %s" % offices.words(message))
        if author is None:
            raise Refused("a letter that no role can have sent: %s" % offices.words(message))
        if author not in self.authors:
            raise Refused("a letter of %s: %s" % (offices.roles[author], offices.words(message)))


def door(offices: Offices, office: int, text: str, spread: Spread) -> Door:
    """The door that a word spells."""
    who, equals, where = text.partition("=")
    kind, _, names = who.partition(":")
    authors = {offices.role(name) for name in names.split(",")} if names else set()
    if kind not in ("person", "post", "letters") or (kind == "person") is bool(names) and kind != "post" or office in authors:
        raise Sorry("\"%s\" is no door of %s; write person=ADDRESS, post=ADDRESS, post:ROLE=ADDRESS or letters:ROLE=ADDRESS, with roles of others."
                    % (text, offices.roles[office]))
    kinds = {"person": {frames.CHOOSE, frames.LIST}, "post": {frames.PUSH, frames.PULL}, "letters": {frames.PUSH}}[kind]
    everyone = set(range(len(offices.roles))) - {office} if who == "post" else authors
    return Door(who, address(where) if equals else standard(office), frozenset(kinds), frozenset(everyone), spread)


@dataclass(frozen=True, slots=True)
class Bounds:
    """Seconds without a whole request, seconds of a session, and how many sessions are served at a time."""

    idle: float
    session: float
    peers: int


class Onward:
    """The session with the node behind one peer, opened with the first request."""

    def __init__(self, peer: asyncio.StreamWriter) -> None:
        self.peer, self.ending = peer, False
        self.node: asyncio.StreamWriter | None = None
        self.back: asyncio.Task[None] | None = None

    async def send(self, request: bytes, node: Address, idle: float) -> None:
        """Hands a request on."""
        if self.node is None:
            source, self.node = await (asyncio.open_unix_connection(node.path) if node.path else asyncio.open_connection(node.host, node.port))
            self.back = asyncio.create_task(self.replies(source, idle))
        self.node.write(request)
        await self.node.drain()

    async def replies(self, source: asyncio.StreamReader, idle: float) -> None:
        """Hands replies on until the node ends the session; cuts a peer who does not take them."""
        try:
            while piece := await source.read(PIECE):
                self.peer.write(piece)
                await asyncio.wait_for(self.peer.drain(), idle)
        except TimeoutError:
            self.peer.transport.abort()
        except OSError:
            self.ending = False
        if not self.ending and self.node is not None:
            self.peer.close()
            self.node.transport.abort()

    async def end(self, wait: float) -> None:
        """Ends the node's session, and lets its last replies through."""
        self.ending = True
        if self.node is not None and self.back is not None:
            self.node.write_eof()
            await asyncio.wait_for(self.back, wait)

    def close(self) -> None:
        """Lets go of the node."""
        if self.node is not None and self.back is not None:
            self.back.cancel()
            self.node.transport.abort()


async def closed(writer: asyncio.StreamWriter, wait: float) -> None:
    """Ends a session with a peer, who may take what was written for so many seconds."""
    writer.close()
    try:
        await asyncio.wait_for(writer.wait_closed(), wait)
    except (OSError, TimeoutError):
        writer.transport.abort()


async def whole(data: bytearray, reader: asyncio.StreamReader) -> tuple[int, bytes] | None:
    """The next whole request; nothing at the end of the session."""
    while (request := frames.split(data)) is None:
        piece = await reader.read(PIECE)
        if not piece:
            return None
        data += piece
    return request


class Guard:
    """The doors of an office."""

    def __init__(self, offices: Offices, office: int, node: Address, bounds: Bounds) -> None:
        self.offices, self.office, self.node, self.bounds = offices, office, node, bounds
        self.peers = 0

    def log(self, at: Door, text: str) -> None:
        """A line on the standard error."""
        tell("%s, %s: %s" % (self.offices.roles[self.office], at.who, text))

    async def served(self, at: Door, reader: asyncio.StreamReader, writer: asyncio.StreamWriter) -> None:
        """One session, however it ends."""
        if self.peers >= self.bounds.peers:
            writer.transport.abort()
            self.log(at, "cut: %d sessions are served already" % self.peers)
            return
        self.peers += 1
        try:
            await asyncio.wait_for(self.session(at, reader, writer), self.bounds.session)
        except TimeoutError:
            self.log(at, "cut: the session was not over within %g seconds" % self.bounds.session)
        except OSError:
            pass
        finally:
            self.peers -= 1
            await closed(writer, self.bounds.idle)

    async def session(self, at: Door, reader: asyncio.StreamReader, writer: asyncio.StreamWriter) -> None:
        """Hands on requests that pass, and replies as they come."""
        onward = Onward(writer)
        try:
            refused = await self.requests(at, reader, onward)
            await onward.end(self.bounds.session)
            if refused and not writer.is_closing():
                writer.write(frames.frame(frames.BAD_FRAME, b""))
        finally:
            onward.close()

    async def requests(self, at: Door, reader: asyncio.StreamReader, onward: Onward) -> bool:
        """Hands on requests until there are no more; whether one was refused."""
        data = bytearray()
        try:
            while (request := await self.request(at, data, reader)) is not None:
                await onward.send(frames.frame(*request), self.node, self.bounds.idle)
        except (Refused, frames.Bad) as why:
            self.log(at, "refused: %s" % why)
            return True
        except TimeoutError:
            self.log(at, "cut: no whole request within %g seconds" % self.bounds.idle)
        return False

    async def request(self, at: Door, data: bytearray, reader: asyncio.StreamReader) -> tuple[int, bytes] | None:
        """The next request that passes; nothing at the end of the session. What came while this program itself was held up counts."""
        try:
            request = await asyncio.wait_for(whole(data, reader), self.bounds.idle)
        except TimeoutError:
            request = await asyncio.wait_for(whole(data, reader), LAST_LOOK)
        if request is not None:
            at.look(self.offices, self.office, *request)
        return request

    async def serve(self, doors: list[Door]) -> None:
        """Opens all doors, and serves until the program is told to end."""
        stop = asyncio.Event()
        for sign in (signal.SIGTERM, signal.SIGINT):
            asyncio.get_running_loop().add_signal_handler(sign, stop.set)
        servers = []
        for at in doors:
            try:
                listening = at.where.listen()
            except OSError as error:
                raise Sorry("The door %s can't be opened at %s: %s." % (at.who, at.where, words(error)), NO_DOOR) from None
            start = asyncio.start_unix_server if at.where.path else asyncio.start_server
            servers.append(await start(lambda r, w, at=at: self.served(at, r, w), sock=listening))  # type: ignore[operator]
        await stop.wait()
        for server, at in zip(servers, doors, strict=True):
            server.close()
            if at.where.path:
                with contextlib.suppress(OSError):
                    at.where.clear()


def main(given: list[str]) -> int:
    """The command."""
    said = parser(NAME, WHAT, BEHIND)
    said.add_argument("specification", metavar="SPECIFICATION", help="the specification that the node was started with")
    said.add_argument("office", metavar="ROLE", help="the role whose node stands behind the doors")
    said.add_argument("doors", nargs="+", metavar="DOOR", help="who is behind a door, and where it is: WHO=ADDRESS")
    said.add_argument("--node", metavar="ADDRESS", help="where the node is; else 127.0.0.1 and its port")
    said.add_argument("--idle", type=float, default=10.0, metavar="SECONDS", help="how long a peer may take for a whole request, or to take a reply (10)")
    said.add_argument("--session", type=float, default=300.0, metavar="SECONDS", help="how long a session may last (300)")
    said.add_argument("--peers", type=int, default=64, metavar="NUMBER", help="how many sessions are served at a time (64)")
    said.add_argument("--systems", metavar="FILE", help="let through choices in those cases alone that lie here: a line of FILE is FIRST LAST WHERE, and WHERE is `here` or a place")
    words_ = said.parse_args(given)
    if min(words_.idle, words_.session, words_.peers) <= 0:
        raise Sorry("SECONDS and NUMBER are above 0.")
    offices = offices_in(words_.specification)
    office = offices.role(words_.office)
    node = address(words_.node) if words_.node else standard(office)
    cases = spread(words_.systems)
    doors = [door(offices, office, text, cases) for text in words_.doors]
    asyncio.run(Guard(offices, office, node, Bounds(words_.idle, words_.session, words_.peers)).serve(doors))
    return 0
