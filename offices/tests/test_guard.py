"""The guard: what passes is exactly what fits the door, whole, and nobody is held up by who is silent."""
from __future__ import annotations

import contextlib
import random
import socket
import struct
import subprocess
import threading
from collections.abc import Callable, Iterator
from pathlib import Path

import pytest
from conftest import CLAIM, CLINIC, LONG, OFFICES, System, opened, until

import client
from aw_offices import frames

Make = Callable[[str], System]
SOON = 3.0
DOORS = {"person": "person", "post": "post", "clinic": "post:clinic", "letters": "letters:clinic"}


class Guarded:
    """The lab of a clinic behind doors at sockets of the file system."""

    def __init__(self, system: System, idle: float = LONG) -> None:
        self.system, self.log = system, system.folder / "guard.log"
        system.start()
        with self.log.open("wb") as file:
            system.run("/usr/bin/python3", str(OFFICES / "aw_guard"), str(system.spec), "lab", *("%s=%s" % (who, self.path(name)) for name, who in DOORS.items()),
                       "--idle", str(idle), "--peers", "40", stderr=file)
        until(lambda: all(opened(self.path(name)) for name in DOORS), "the doors are not open")

    def path(self, name: str) -> Path:
        """The socket of a door."""
        return self.system.folder / (name + ".sock")

    def dial(self, name: str) -> socket.socket:
        """A connection to a door."""
        peer = socket.socket(socket.AF_UNIX)
        peer.settimeout(LONG)
        peer.connect(str(self.path(name)))
        return peer

    def told(self) -> str:
        """What the guard told."""
        return self.log.read_text(encoding="utf-8")

    def talk(self, name: str, pieces: list[bytes]) -> bytes:
        """What comes back for some pieces of bytes."""
        with self.dial(name) as peer:
            with contextlib.suppress(OSError):
                for piece in pieces:
                    peer.sendall(piece)
                peer.shutdown(socket.SHUT_WR)
            return received(peer)


def received(peer: socket.socket) -> bytes:
    """All bytes up to the end of a session."""
    data = b""
    try:
        while piece := peer.recv(1 << 16):
            data += piece
    except ConnectionResetError:
        pass
    return data


@pytest.fixture
def guarded(make: Make) -> Guarded:
    return Guarded(make(CLINIC))


@pytest.fixture
def impatient(make: Make) -> Guarded:
    """One that cuts who is silent soon; honest requests are sent whole at once."""
    return Guarded(make(CLINIC), SOON)


def direct(system: System, data: bytes) -> bytes:
    """What the node itself says; it may end the session before all is sent."""
    with socket.create_connection(("127.0.0.1", system.nodes["lab"].port), LONG) as peer:
        with contextlib.suppress(OSError):
            peer.sendall(data)
            peer.shutdown(socket.SHUT_WR)
        return received(peer)


def kinds(data: bytes) -> list[int]:
    """The kinds of some replies."""
    found, at = [], 0
    while at < len(data):
        found.append(data[at])
        at += 5 + int(struct.unpack_from(">I", data, at + 1)[0])
    return found


def message(system: System, text: str) -> bytes:
    """The push of a message in words."""
    return frames.frame(frames.PUSH, client.Words(system.names, text).message()[1])


def start(system: System, case: int) -> bytes:
    """The start of a case."""
    return frames.frame(frames.CHOOSE, b"\0" + struct.pack(">HQ", system.names.number("sort", "visit"), case))


def choice(system: System, task: str, rule: str, arguments: str = "") -> bytes:
    """A choice of a rule."""
    words = client.Words(system.names, arguments)
    grounds = words.several(words.ground, "{", "}") if arguments else []
    head = b"\1" + client.Words(system.names, "").node_bytes(task) + struct.pack(">H", system.names.number("rule", rule))
    return frames.frame(frames.CHOOSE, head + bytes([len(grounds)]) + b"".join(grounds))


CALL = "to lab call visit#1/admit.1 (visit#1:p2) with visit#1:p2 = order(visit#1:p4, visit#1:p3); visit#1:p1 = \"Ada\""
LETTERS = {
    "a call": (CALL, True),
    "a call without a load": ("to lab call visit#1/admit.1 (visit#1:p2)", True),
    "a tell": ("to lab tell visit#1:p1 = \"Ada\" with visit#1:p3 = tube(visit#1:p4); visit#1:p4 = visit#1:p9; visit#1:p9 = 7", True),
    "an ask": ("to lab ask visit#1/admit.1:r1 from clinic", True),
    "a tell of the lab's own": ("to lab tell visit#1/admit.1:r1 = 5", False),
    "a load of the lab's own": ("to lab tell visit#1:p1 = 5 with visit#1/admit.1:p1 = 6", False),
    "an ask in the lab's name": ("to lab ask visit#1/admit.1:r1 from lab", False),
    "an ask for the clinic's own": ("to lab ask visit#1:r1 from clinic", False),
    "a call of the clinic's own": ("to lab call visit#1 ()", False),
    "a call by the lab": ("to lab call visit#1/admit.1/spoiled.2 (visit#1:p2)", False),
    "a letter for the clinic": ("to clinic ask visit#1:p1 from lab", False),
    "a name that is none": ("to lab call visit#1/measure.1 (visit#1:p2)", False),
    "a child that is none": ("to lab call visit#1/admit.2 (visit#1:p2)", False),
}


def test_letters_pass_where_their_author_is_behind_the_door(guarded: Guarded) -> None:
    for name, (text, passes) in LETTERS.items():
        data = message(guarded.system, text)
        for door in ("post", "clinic", "letters"):
            said = kinds(guarded.talk(door, [data]))
            assert (said in ([frames.NEW], [frames.AGAIN])) is passes, (name, door, said)
            assert said == [frames.BAD_FRAME] or passes, (name, door, said)
        assert kinds(guarded.talk("person", [data])) == [frames.BAD_FRAME], name


def test_each_kind_of_request_has_its_doors(guarded: Guarded) -> None:
    system = guarded.system
    guarded.talk("post", [message(system, CALL)])
    requests = {"start": start(system, 1), "choose": choice(system, "visit#1/admit.1", "reject", "{\"no\"}"), "list": frames.place(frames.LIST, 0),
                "pull": frames.place(frames.PULL, 0), "push": message(system, CALL)}
    fits = {"person": {"start", "choose", "list"}, "post": {"pull", "push"}, "clinic": {"pull", "push"}, "letters": {"push"}}
    for door, wanted in fits.items():
        for name, data in requests.items():
            said = kinds(guarded.talk(door, [data]))
            assert (said != [frames.BAD_FRAME]) is (name in wanted), (door, name, said)
    assert "the choice" not in guarded.told() and "a push does not belong here" in guarded.told()


def test_a_letter_of_another_role_does_not_pass(make: Make) -> None:
    system = make(CLAIM)
    system.start()
    path = system.folder / "assessor.sock"
    log = system.folder / "guard.log"
    with log.open("wb") as file:
        system.run("/usr/bin/python3", str(OFFICES / "aw_guard"), str(system.spec), "payments", "letters:assessor=%s" % path, stderr=file)
    until(lambda: opened(path), "the door is not open")
    for text, passes in (("to payments tell claim#1/open_claim.1:r1 = denied(claim#1/open_claim.1:p1)", True),
                         ("to payments call claim#1/open_claim.2 (claim#1:p5, claim#1/open_claim.1:r1)", False),
                         ("to payments tell claim#1:p5 = account(claim#1:p6)", False),
                         ("to payments ask claim#1/open_claim.2:r1 from front", False)):
        with socket.socket(socket.AF_UNIX) as peer:
            peer.settimeout(LONG)
            peer.connect(str(path))
            peer.sendall(message(system, text))
            peer.shutdown(socket.SHUT_WR)
            assert kinds(received(peer)) == [frames.NEW if passes else frames.BAD_FRAME], text
    assert "a letter of front: call claim#1/open_claim.2" in log.read_text(encoding="utf-8")


def test_what_comes_byte_by_byte_is_the_same(guarded: Guarded) -> None:
    system = guarded.system
    for door, data in (("post", message(system, CALL) + frames.place(frames.PULL, 0) + frames.place(frames.PULL, 9)),
                       ("person", choice(system, "visit#1/admit.1", "spoiled", "{\"clotted\"}") + frames.place(frames.LIST, 0) + frames.place(frames.LIST, 7))):
        by_bytes = guarded.talk(door, [data[i:i + 1] for i in range(len(data))])
        assert len(kinds(by_bytes)) == 3 and frames.BAD_FRAME not in kinds(by_bytes)
        assert len(kinds(guarded.talk(door, [data]))) == 3


def test_replies_to_what_passed_come_before_the_refusal(guarded: Guarded) -> None:
    system = guarded.system
    data = message(system, CALL) + frames.place(frames.PULL, 0) + start(system, 1) + frames.place(frames.PULL, 0)
    assert kinds(guarded.talk("post", [data])) == [frames.NEW, frames.MESSAGE, frames.BAD_FRAME]


def samples(system: System) -> list[bytes]:
    """Requests of every form."""
    deep = "tube(" * 30 + "tube(7)" + ")" * 30
    texts = [text for text, _ in LETTERS.values()]
    return ([message(system, text) for text in texts] + [start(system, 1), choice(system, "visit#1/admit.1", "reject", "{%s}" % deep),
            choice(system, "visit#1/admit.1/spoiled.1", "draw", "{order(\"a\\nb\", tube(3)), \"\", 18446744073709551615}"),
            frames.place(frames.PULL, 1 << 63), frames.place(frames.LIST, 0)])


def mutants(system: System, draw: random.Random, count: int) -> Iterator[bytes]:
    """Requests with bytes changed, taken away or added, and garbage."""
    good = samples(system)
    for _ in range(count):
        data = bytearray(draw.choice(good))
        for _ in range(draw.randint(1, 3)):
            at, way = draw.randrange(len(data)), draw.randrange(4)
            if way == 0:
                data[at] = draw.randrange(256)
            elif way == 1:
                data[at] = (data[at] + draw.choice((1, 255))) % 256
            elif way == 2 and len(data) > 6:
                del data[at]
            else:
                data.insert(at, draw.choice((0, 1, 255, draw.randrange(256))))
        if draw.random() < 0.5 and len(data) > 5:  # (so that the length fits, and the payload is looked at)
            data[1:5] = struct.pack(">I", len(data) - 5)
        yield bytes(data)


def at_limits(system: System) -> list[bytes]:
    """Requests at a limit and one past it: depth, symbols, texts, steps, parts, loads and slots."""
    task = client.Words(system.names, "").node_bytes("visit#1")
    head, one = b"\1" + task + b"\0\0", b"\1\0\1\1"
    ref = task + b"\1\0\1"
    found = [head + b"\1" + one * (depth - 1) + b"\2" + bytes(8) for depth in (32, 33)]
    found += [head + b"\4" + (b"\1\0\1\7" + (b"\1\0\1\7" + (b"\2" + bytes(8)) * 7) * 7) * 4 + more for more in (b"", b"\2" + bytes(8))]
    wide = b"\1\0\1\7" + (b"\1\0\1\10" + (b"\2" + bytes(8)) * 8) * 7
    found += [head + b"\5" + wide * 3 + b"\1\0\1\7" + (b"\1\0\1\7" + (b"\2" + bytes(8)) * 7) * 7 + last for last in (one * 6 + b"\2" + bytes(8), one * 7 + b"\2" + bytes(8))]
    found += [head + b"\1\3" + struct.pack(">H", size) + b"a" * size for size in (1024, 1025)] + [head + bytes([count]) + (b"\2" + bytes(8)) * count for count in (8, 9)]
    found += [b"\1" + struct.pack(">HQB", 0, 1, steps) + b"\0\0\1" * steps + b"\0\0\0" for steps in (250, 251)]
    pushes = [b"\2\0\1\2" + ref + b"\2" + bytes(8) + bytes([load]) + (ref + b"\2" + bytes(8)) * load for load in (0, 64, 65)]
    pushes += [b"\1\0\1\1" + task + struct.pack(">BHH", slot, number, 0) for slot, number in ((0, 8), (0, 9), (0, 0), (1, 512), (1, 513), (2, 1))]
    pushes += [b"\1\0\1\0" + task + bytes([count]) + ref * count for count in (8, 9)] + [b"\2\0\1\1" + ref + b"\0\0", b"\3\0\1\1" + ref + b"\0\0", b"\1\0\1\3" + ref]
    return [frames.frame(frames.CHOOSE, data) for data in found] + [frames.frame(frames.PUSH, data) for data in pushes]


def test_the_reader_takes_what_the_node_takes(make: Make) -> None:
    """Bad frames of the guard's reader are exactly those of the node's."""
    system, draw = make(CLINIC), random.Random(7)
    system.start()
    seen = {True: 0, False: 0}
    for data in [*samples(system), *at_limits(system), *mutants(system, draw, 4000)]:
        rest = bytearray(data)
        good = True
        try:
            request = frames.split(rest)
            if request is None:
                continue
            if request[0] == frames.PUSH:
                frames.message(request[1])
            elif request[0] == frames.CHOOSE:
                frames.choice(request[1])
        except frames.Bad:
            good = False
        seen[good] += 1
        first = kinds(direct(system, data))[:1]
        assert (first != [frames.BAD_FRAME]) is good, data.hex()
    assert min(seen.values()) > 100, seen


def test_garbage_harms_nobody(guarded: Guarded) -> None:
    draw = random.Random(8)
    for data in [*mutants(guarded.system, draw, 300), *(draw.randbytes(draw.randint(1, 200)) for _ in range(100)), b"GET / HTTP/1.0\r\n\r\n", b"\1\xff\xff\xff\xff"]:
        guarded.talk(draw.choice(list(DOORS)), [data])
    assert kinds(guarded.talk("person", [frames.place(frames.LIST, 1 << 40)])) == [frames.NONE]
    assert "Traceback" not in guarded.told()


def test_who_is_silent_holds_nobody_up_and_is_cut(impatient: Guarded) -> None:
    silent = [impatient.dial("person") for _ in range(5)] + [impatient.dial("post") for _ in range(5)]
    for number, peer in enumerate(silent):
        with contextlib.suppress(OSError):  # (where this process was held up it is cut already)
            peer.sendall(frames.place(frames.LIST, 0)[:number % 6])
    assert kinds(impatient.talk("person", [frames.place(frames.LIST, 0)])) == [frames.NONE]
    for peer in silent:
        assert received(peer) == b""
        peer.close()
    until(lambda: impatient.told().count("cut: no whole request") == len(silent), "not all are told to be cut")


def test_who_drips_is_cut(impatient: Guarded) -> None:
    with impatient.dial("person") as peer:
        cut = threading.Event()

        def drip() -> None:
            for byte in frames.frame(frames.CHOOSE, bytes(1000)):
                if cut.wait(0.3):
                    return
                try:
                    peer.sendall(bytes([byte]))
                except OSError:
                    return
        threading.Thread(target=drip, daemon=True).start()
        assert received(peer) == b""
        cut.set()


def test_who_takes_no_replies_is_cut(impatient: Guarded) -> None:
    system = impatient.system
    text = "x" * 1000
    tell = client.Words(system.names, "to lab tell visit#1:p1 = \"%s\"" % text).message()[1]
    other = client.Words(system.names, "to lab tell visit#1:p1 = \"%s\"" % ("y" + text[1:])).message()[1]
    assert system.ask("lab", frames.PUSH, tell)[0][0] == frames.NEW
    with impatient.dial("post") as peer:
        with pytest.raises((ConnectionResetError, BrokenPipeError)):  # (each reply is longer than its request, and none is read)
            for _ in range(20000):
                peer.sendall(frames.frame(frames.PUSH, other))
    assert kinds(impatient.talk("person", [frames.place(frames.LIST, 1 << 40)])) == [frames.NONE]


def test_no_more_sessions_than_allowed(guarded: Guarded) -> None:
    peers = [guarded.dial("person") for _ in range(45)]
    until(lambda: "40 sessions are served already" in guarded.told(), "none is cut")
    for peer in peers:
        peer.close()
    until(lambda: kinds(guarded.talk("person", [frames.place(frames.LIST, 1 << 40)])) == [frames.NONE], "the door stays shut")


def test_a_node_that_is_killed_ends_its_sessions(guarded: Guarded) -> None:
    lab = guarded.system.nodes["lab"]
    with guarded.dial("person") as peer:
        peer.sendall(frames.place(frames.LIST, 0))
        assert peer.recv(1) == bytes([frames.NONE])
        lab.kill()
        received(peer)
    assert guarded.talk("person", [frames.place(frames.LIST, 0)]) == b""
    lab.start()
    assert kinds(guarded.talk("person", [frames.place(frames.LIST, 0)])) == [frames.NONE]


def said(*words: str) -> tuple[int, str]:
    """How the guard ends on some words, and what it tells."""
    done = subprocess.run(["/usr/bin/python3", str(OFFICES / "aw_guard"), *words], capture_output=True, timeout=LONG, text=True)
    assert "Traceback" not in done.stderr
    return done.returncode, done.stderr


def test_words_that_are_wrong(make: Make) -> None:
    system = make(CLINIC)
    spec, where = str(system.spec), str(system.folder / "x.sock")
    assert said(spec, "lab")[0] == 2
    for door in ("persons", "nobody=" + where, "letters=" + where, "person:clinic=" + where, "post:lab=" + where, "post:nobody=" + where, "post=8080",
                 "post=127.0.0.1:0"):
        status, text = said(spec, "lab", door)
        assert status == 2 and text, door
    assert said(spec, "nobody", "post=" + where)[0] == 2
    assert said(spec, "lab", "post=/none/x.sock")[0] == 69
    assert said(spec, "lab", "post=192.0.2.1:7400")[0] == 69
    with socket.create_server(("127.0.0.1", 7455)):
        assert said(spec, "lab", "post=127.0.0.1:7455")[0] == 69
