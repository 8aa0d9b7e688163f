"""The bytes of messages, choices, requests and replies, as docs/PROTOCOL.md has them."""
from __future__ import annotations

import struct
from dataclasses import dataclass, field

PUSH, CHOOSE, PULL, LIST = 1, 2, 3, 4
REQUESTS = {PUSH: "push", CHOOSE: "choose", PULL: "pull", LIST: "list"}
NEW, AGAIN, CONFLICT, NOT_MINE, BAD_NAME, ANSWER, MESSAGE, TOO_LONG, BAD_FRAME, NONE, ITEM = range(1, 12)
REFUSED = {CONFLICT: "conflict", NOT_MINE: "not mine", BAD_NAME: "bad name"}
LONGEST_FRAME = 1 << 20
LONGEST_SESSION = 1 << 26
LONGEST_TEXT, MOST_PARTS, MOST_STEPS, LARGEST_LOAD, MOST_SYMBOLS, DEEPEST = 1024, 8, 250, 64, 256, 32
MOST_OF_SLOT = (8, 512)
CALL, ASK, TELL = 0, 1, 2
TEXT_BYTE = bytes(b for b in range(256) if b == 0x0A or (0x20 <= b and b != 0x7F))


class Bad(Exception):
    """Bytes that are no message, choice or frame."""


@dataclass(frozen=True, slots=True)
class Node:
    """The name of a task: positions of its sort and of its rules, and the children's numbers."""

    sort: int
    case: int
    steps: tuple[tuple[int, int], ...]


@dataclass(frozen=True, slots=True)
class Ref:
    """A reference: result or part of a task."""

    node: Node
    slot: int
    number: int


@dataclass(frozen=True, slots=True)
class Message:
    """What a message says of itself: for whom, its kind, its task or reference, who asks, and the left sides of its load."""

    to: int
    kind: int
    node: Node
    ref: Ref | None = None
    asker: int | None = None
    load: list[Ref] = field(default_factory=list)


class Items:
    """Bytes, read item by item."""

    def __init__(self, data: bytes) -> None:
        self.data, self.at = data, 0

    def number(self, form: str, most: int | None = None, least: int = 0) -> int:
        """A number of a form of `struct`, within bounds."""
        size = struct.calcsize(form)
        if self.at + size > len(self.data):
            raise Bad("short")
        value: int = struct.unpack_from(">" + form, self.data, self.at)[0]
        if value < least or (most is not None and value > most):
            raise Bad("bad at %d" % self.at)
        self.at += size
        return value

    def text(self) -> None:
        """A text with its length."""
        length = self.number("H", LONGEST_TEXT)
        content = self.data[self.at:self.at + length]
        if content.translate(None, TEXT_BYTE):
            raise Bad("bad text")
        if len(content) < length:
            raise Bad("short")
        self.at += length

    def node(self) -> Node:
        """The name of a task."""
        sort, case, steps = self.number("H"), self.number("Q"), self.number("B", MOST_STEPS)
        return Node(sort, case, tuple((self.number("H"), self.number("B", MOST_PARTS, 1)) for _ in range(steps)))

    def ref(self) -> Ref:
        """A reference."""
        node, slot = self.node(), self.number("B", 1)
        return Ref(node, slot, self.number("H", MOST_OF_SLOT[slot], 1))

    def refs(self) -> None:
        """References with their count."""
        for _ in range(self.number("B", MOST_PARTS)):
            self.ref()

    def equation(self) -> Ref:
        """The left side of an equation, whose body is read past."""
        left, tag = self.ref(), self.number("B", 3)
        if tag == 0:
            self.ref()
        elif tag == 1:
            self.number("H")
            self.refs()
        elif tag == 2:
            self.number("Q")
        else:
            self.text()
        return left

    def grounds(self) -> None:
        """The arguments of a choice: depth first, with the counts of what is still to come."""
        open_parts, symbols = [self.number("B", MOST_PARTS)], 0
        while open_parts:
            if open_parts[-1] == 0:
                open_parts.pop()
                continue
            open_parts[-1] -= 1
            symbols += 1
            if symbols > MOST_SYMBOLS or len(open_parts) > DEEPEST:
                raise Bad("too large")
            tag = self.number("B", 3, 1)
            if tag == 1:
                self.number("H")
                open_parts.append(self.number("B", MOST_PARTS))
            elif tag == 2:
                self.number("Q")
            else:
                self.text()

    def end(self) -> None:
        """Nothing may follow."""
        if self.at != len(self.data):
            raise Bad("more behind it")


def message(data: bytes) -> Message:
    """The message that some bytes are, exactly; raises `Bad` where they are none."""
    items = Items(data)
    version, to, kind = items.number("B", 2, 1), items.number("H"), items.number("B", 2)
    if version == 2 and kind == ASK:
        raise Bad("an ask has no load")
    ref, asker, load = None, None, []
    if kind == CALL:
        node = items.node()
        items.refs()
    else:
        ref = items.ref() if kind == ASK else items.equation()
        node = ref.node
        asker = items.number("H") if kind == ASK else None
    if version == 2:
        load = [items.equation() for _ in range(items.number("B", LARGEST_LOAD, 1))]
    items.end()
    return Message(to, kind, node, ref, asker, load)


def choice(data: bytes) -> int:
    """The number of the case that some bytes choose in; raises `Bad` where they are not exactly one choice."""
    items = Items(data)
    if items.number("B", 1) == 0:
        items.number("H")
        case = items.number("Q")
    else:
        case = items.node().case
        items.number("H")
        items.grounds()
    items.end()
    return case


def frame(kind: int, payload: bytes) -> bytes:
    """A request or a reply."""
    return struct.pack(">BI", kind, len(payload)) + payload


def place(kind: int, number: int) -> bytes:
    """The request of a place in the outbox or in the worklist."""
    return frame(kind, struct.pack(">Q", number))


def split(data: bytearray) -> tuple[int, bytes] | None:
    """Takes the request from the front of some bytes as soon as it is whole; raises `Bad` as soon as there can be none."""
    if not data:
        return None
    kind = data[0]
    if kind not in REQUESTS:
        raise Bad("no kind of request")
    if len(data) < 5:
        return None
    length: int = struct.unpack_from(">I", data, 1)[0]
    if length > LONGEST_FRAME or (kind in (PULL, LIST) and length != 8):
        raise Bad("no length of such a request")
    if len(data) < 5 + length:
        return None
    payload = bytes(data[5:5 + length])
    del data[:5 + length]
    return kind, payload
