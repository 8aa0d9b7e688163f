#!/usr/bin/env python3
"""edge.py [BIN] [--only CHECK..]
   edge.py BIN --program aw_book [--aw AW]

Does to the built program, at its edge, what no proof covers, and says what was lost, changed, or waited for where it should not be:

closed       each of the standard streams closed, in all combinations, for a kept node, a node and a courier
second       a second node started on a journal that is served, in the same network and in another, while choices are made
race         two nodes started at once on one journal that is not there yet
silent       peers that send nothing, half a frame, and requests without reading a reply: the next one is served after a minute
behind       a courier that comes to a node behind a silent peer
resets       peers that are gone before they are served, and in the middle of a frame and of replies
full         a file system that gets full, is full when the journal is opened again, and has room again
links        links in the journal's place, to nothing, to a journal that is served, and to what is no file
removed      the journal removed while it is served
size         a limit on the size of files, and the signal that comes with it ignored
signals      SIGTERM, SIGINT and SIGHUP under load
foreign      a journal of another role with 1 GiB of zeros behind its head, and a node's own with the same behind its events
modes        who may read a journal that is made
synced       the order of the calls of the system: the lock before a change, the folder and each event synced, timeouts set (needs strace)
interrupted  SIGSTOP and SIGCONT while a node or a courier waits for its peer

BIN is the program; where it is not said, it is what AW names, else crates/aw_prog/out/aw_prog. Each check runs in a network and a process
namespace of its own, beside the others; all of them take about 65 s. Ends with 1 where a check found something, with 2 where it could not run.
Needs unshare (Debian's util-linux) and ip (iproute2).

With `--program aw_book` BIN is that program, and its own edge is looked at: closed and full streams, what is no plain file, a journal that is written
meanwhile, and a journal before 1 GiB of zeros with little memory.
"""
from __future__ import annotations

import argparse
import json
import os
import resource
import shutil
import signal
import socket
import struct
import subprocess
import sys
import tempfile
import threading
import time
from collections.abc import Callable, Iterator
from concurrent.futures import ThreadPoolExecutor
from contextlib import contextmanager
from itertools import combinations
from pathlib import Path

sys.dont_write_bytecode = True
import kill
import nodes
import readers
import sessions
from client import Node, Trouble

HERE = Path(__file__).resolve().parent
BUILT = HERE.parent / "crates" / "aw_prog" / "out" / "aw_prog"
OWN_NETWORK = ["unshare", "-n", "sh", "-c", 'ip link set lo up && exec "$@"', "sh"]
READ_FAULT, WRITE_FAULT, DISK_FAULT, BAD_JOURNAL = 7, 8, 12, 13
CLINIC = sessions.example("clinical-test.aw")
NAMES = nodes.Names(CLINIC.decode())
ROLE, OTHER_ROLE = "clinic", "lab"
KEPT = ["node", ROLE, "1000000", "kept"]
# Seconds for which a read and a write wait: of a node, and of a courier.
SERVED, DIALED = (60, 20), (600, 600)
SOON, LATE = 15, SERVED[0] + 15
MEBIBYTE = 1 << 20


class Run:
    """What the checks share: the program, and folders for journals."""

    def __init__(self, program: str) -> None:
        self.program = program

    @contextmanager
    def folder(self) -> Iterator[Path]:
        with tempfile.TemporaryDirectory(dir=nodes.FAST) as name:
            yield Path(name)

    def start(self, words: list[str], folder: Path | None = None, begin: Callable[[], None] | None = None,
              before: list[str] | None = None) -> subprocess.Popen[bytes]:
        return nodes.started([*(before or []), self.program, *words], CLINIC, folder, begin=begin)

    def lost(self, folder: Path, taken: list[bytes], begin: Callable[[], None] | None = None) -> int:
        """How many of these choices a node that is started in this folder does not have."""
        process = self.start(KEPT, folder, begin)
        try:
            return kill.lost(node_of(process), taken)
        finally:
            stop(process)


def node_of(process: subprocess.Popen[bytes], patience: float = 10, role: str = ROLE) -> Node:
    """A session with a node, as soon as it listens."""
    peer = nodes.connect(nodes.port_of(NAMES, role), process)
    if peer is None:
        raise Trouble("the node ended with status %s before it listened" % nodes.ended(process).status)
    peer.close()
    return Node(NAMES, role, patience)


def stop(process: subprocess.Popen[bytes], number: int = signal.SIGKILL) -> nodes.Ended | None:
    """How a process ends by a signal; nothing where it was seen to end before."""
    if process.returncode is not None:
        return None
    process.send_signal(number)
    return nodes.ended(process, 10)


def choices(count: int, first: int = 0) -> list[bytes]:
    """So many choices, each of which is taken."""
    endless = kill.choices(NAMES, first)
    return [next(endless) for _ in range(count)]


def frames(asked: list[bytes]) -> bytes:
    return b"".join(nodes.frame(nodes.CHOOSE, one) for one in asked)


def journal(folder: Path) -> Path:
    return folder / nodes.JOURNAL


def state(path: Path) -> tuple[bytes, int]:
    return path.read_bytes(), path.stat().st_mtime_ns


# Closed streams.

def without(streams: tuple[int, ...]) -> Callable[[], None]:
    """What a process does before the program begins that is to have none of these streams."""
    def begin() -> None:
        for number in streams:
            os.close(number)
    return begin


def low(process: subprocess.Popen[bytes], streams: tuple[int, ...]) -> Iterator[str]:
    """What stands at the numbers of these streams, where nothing should."""
    for number in streams:
        try:
            yield "descriptor %d is %s" % (number, os.readlink("/proc/%d/fd/%d" % (process.pid, number)))
        except OSError:
            pass


def served_without(run: Run, streams: tuple[int, ...], kept: bool) -> tuple[list[str], object]:
    """What stands at low numbers, and all that a node gave that was started without these streams."""
    with run.folder() as folder:
        process = run.start(["node", ROLE, "2"] + ["kept"] * kept, folder, without(streams))
        if 0 in streams:
            end = nodes.ended(process, 10)
            return [], (end.status, end.written, journal(folder).exists())
        replies = nodes.session(nodes.port_of(NAMES, ROLE), frames(choices(5)), process)
        node = Node(NAMES, ROLE, 10)
        told = [node.ask(nodes.CHOOSE, one) for one in choices(5, 10)]
        wrong = list(low(process, streams))
        node.peer.close()
        end = nodes.ended(process, 10)
        return wrong, (end.status, end.written, replies, told, journal(folder).read_bytes() if kept else b"")


def carried_without(run: Run, streams: tuple[int, ...]) -> tuple[list[str], object]:
    """The same of a courier that was started so, and of the nodes that it asked."""
    clinic, lab = run.start(["node", ROLE, "3"]), run.start(["node", OTHER_ROLE, "2"])
    try:
        nodes.session(nodes.port_of(NAMES, ROLE), frames(choices(4)), clinic)
        nodes.connect(nodes.port_of(NAMES, OTHER_ROLE), lab).close() if 0 in streams else None
        end = nodes.ended(run.start(["courier", "2"], begin=without(streams)), 10)
        if 0 in streams:
            return [], (end.status, end.written)
        told = [nodes.ended(one, 10) for one in (clinic, lab)]
        return [], (end.status, end.written, [(one.status, one.written) for one in told])
    finally:
        stop(clinic)
        stop(lab)


def wanted_without(whole: tuple, streams: tuple[int, ...], carries: bool) -> tuple:
    """What has to come without these streams, by what comes with all of them."""
    if 0 in streams:
        return (READ_FAULT, b"") if carries else (READ_FAULT, b"", False)
    return (WRITE_FAULT, b"", *whole[2:]) if 1 in streams else whole


def closings(run: Run) -> Iterator[tuple[str, list[str]]]:
    """Each program without each of the standard streams, and what is wrong then."""
    made = {"a kept node": lambda streams: served_without(run, streams, True), "a node": lambda streams: served_without(run, streams, False),
            "a courier": lambda streams: carried_without(run, streams)}
    for name, make in made.items():
        whole = make(())[1]
        yield name, [] if whole[0] == 0 else ["status %s" % whole[0]]
        for streams in (some for count in (1, 2, 3) for some in combinations((0, 1, 2), count)):
            wrong, got = make(streams)
            wanted = wanted_without(whole, streams, name == "a courier")
            wrong += [] if got == wanted else ["%.300r, and not %.300r" % (got, wanted)]
            yield "%s without descriptor%s %s" % (name, "s" if len(streams) > 1 else "", ", ".join(map(str, streams))), wrong


def closed(run: Run) -> Iterator[str]:
    for what, wrong in closings(run):
        yield from ("%s: %s" % (what, one) for one in wrong)


# Two processes.

def second(run: Run) -> Iterator[str]:
    with run.folder() as folder:
        first = run.start(KEPT, folder)
        taken: list[bytes] = []
        worker = threading.Thread(target=kill.live, args=(node_of(first), kill.choices(NAMES, 0), taken), daemon=True)
        worker.start()
        for turn in range(10):
            time.sleep(0.3)
            end = nodes.ended(run.start(KEPT, folder, before=OWN_NETWORK if turn % 2 else None), 10)
            if (end.status, end.written) != (DISK_FAULT, b""):
                yield "the second start ended with status %s and wrote %r; it should end with %d" % (end.status, end.written, DISK_FAULT)
                break
            before, until = len(taken), time.monotonic() + 5
            while len(taken) == before and time.monotonic() < until:
                time.sleep(0.01)
            if len(taken) == before:
                yield "the first node answers no more"
        stop(first)
        worker.join()
        missing = run.lost(folder, taken)
        if missing:
            yield "%d of %d answered choices are lost" % (missing, len(taken))
        yield from refused_alone(run, folder)


def refused_alone(run: Run, folder: Path) -> Iterator[str]:
    """A second start beside a node that does nothing changes nothing."""
    first = run.start(KEPT, folder)
    node_of(first).peer.close()
    before = state(journal(folder))
    status = nodes.ended(run.start(KEPT, folder), 10).status
    if status != DISK_FAULT or state(journal(folder)) != before:
        yield "a second start ended with status %s, and %s the journal" % (
            status, "left" if state(journal(folder)) == before else "changed")
    stop(first)


def race(run: Run) -> Iterator[str]:
    for _ in range(10):
        with run.folder() as folder:
            both = [run.start(KEPT, folder, before=OWN_NETWORK) for _ in range(2)]
            until = time.monotonic() + 10
            while not any(map(nodes.has_ended, both)) and time.monotonic() < until:
                time.sleep(0.005)
            serving = [one for one in both if not nodes.has_ended(one)]
            statuses = [nodes.ended(one).status for one in both if one not in serving]
            for one in serving:
                stop(one)
            if len(serving) != 1 or statuses != [DISK_FAULT]:
                yield "of two nodes that were started at once %d served, and the others ended with %s" % (len(serving), statuses)
                break


# Silent peers.

def idle(peer: socket.socket) -> int:
    return 0


def half_a_frame(peer: socket.socket) -> int:
    peer.sendall(nodes.frame(nodes.CHOOSE, choices(1)[0])[:7])
    return 0


def never_reads(peer: socket.socket) -> int:
    """Asks until nothing more is taken, and says how many requests were sent whole."""
    data = nodes.place(nodes.LIST, 0) * 1000
    sent, quiet_since = 0, time.monotonic()
    peer.setblocking(False)
    while time.monotonic() - quiet_since < 2:
        try:
            sent += peer.send(data[sent % len(data):])
            quiet_since = time.monotonic()
        except BlockingIOError:
            time.sleep(0.02)
    return sent // 13


def peer_at_once() -> socket.socket:
    """A session whose peer has little room for replies."""
    peer = socket.socket()
    peer.setsockopt(socket.SOL_SOCKET, socket.SO_RCVBUF, 4096)
    peer.connect(("127.0.0.1", nodes.port_of(NAMES, ROLE)))
    return peer


def peer_at(process: subprocess.Popen[bytes]) -> socket.socket:
    """The same as soon as the node listens, behind two sessions with nothing."""
    node_of(process).peer.close()
    return peer_at_once()


def wait_behind(run: Run, act: Callable[[socket.socket], int], kept: bool) -> Iterator[str]:
    what = "a %s behind a peer that is %s" % ("kept node" if kept else "node", act.__name__.replace("_", " "))
    with run.folder() as folder:
        process = run.start(["node", ROLE, "4"] + ["kept"] * kept, folder)
        peer = peer_at(process)
        act(peer)
        began = time.monotonic()
        try:
            answer = Node(NAMES, ROLE, LATE).ask(nodes.CHOOSE, choices(1)[0])
        except Trouble as trouble:
            yield "%s: after %.0f s: %s" % (what, time.monotonic() - began, trouble)
            stop(process)
            return
        took = time.monotonic() - began
        if answer != (6, b"taken") or not SOON < took < LATE:
            yield "%s: %r after %.0f s" % (what, answer, took)
        peer.close()
        end = nodes.ended(process, 10)
        hows = [how for _, how in nodes.log_lines(end.written)]
        if end.status != 0 or hows[2:] != ["fault", "end"]:
            yield "%s: status %s, the sessions ended by %s" % (what, end.status, hows)


SILENT = [(act, kept) for act in (idle, half_a_frame, never_reads) for kept in (False, True)]


def silent(run: Run, number: int) -> Iterator[str]:
    act, kept = SILENT[number]
    yield from wait_behind(run, act, kept)


def behind(run: Run) -> Iterator[str]:
    served = [run.start(["node", role, "1000000"]) for role in NAMES.roles]
    peer = peer_at(served[0])
    began = time.monotonic()
    end = nodes.ended(run.start(["courier", "10"]), LATE)
    if (end.status, end.written) != (0, b"quiet\n"):
        yield "after %.0f s: status %s, %r" % (time.monotonic() - began, end.status, end.written)
    peer.close()
    for one in served:
        stop(one)


def reset(peer: socket.socket) -> None:
    """Ends a session at once, without what is still to be sent or read."""
    peer.setsockopt(socket.SOL_SOCKET, socket.SO_LINGER, struct.pack("ii", 1, 0))
    peer.close()


def resets(run: Run) -> Iterator[str]:
    with run.folder() as folder:
        process = run.start(KEPT, folder)
        holder = peer_at(process)
        gone = [peer_at_once() for _ in range(100)]
        for number, peer in enumerate(gone):
            peer.sendall((b"", frames(choices(1))[:7], nodes.place(nodes.LIST, 0) * 100)[number % 3])
            reset(peer)
        reset(holder)
        for _ in range(100):
            peer = peer_at_once()
            peer.sendall(nodes.place(nodes.LIST, 0) * 100)
            reset(peer)
        answer = Node(NAMES, ROLE, 10).ask(nodes.CHOOSE, choices(1)[0])
        if answer != (6, b"taken"):
            yield "behind peers that were gone a choice is answered %r" % (answer,)
        stop(process)


# The file.

def answer_all(process: subprocess.Popen[bytes], most: int = 1_000_000) -> list[bytes]:
    """Asks for one choice after the other until the node is gone, and gives those that were answered."""
    taken: list[bytes] = []
    node, endless = node_of(process), kill.choices(NAMES, 0)
    kill.live(node, (next(endless) for _ in range(most)), taken)
    return taken


@contextmanager
def small_disk(folder: Path) -> Iterator[Path]:
    """Has a file system of 1 MiB in the folder, of which 128 KiB are free; gives the file that takes the rest."""
    subprocess.run(["mount", "-t", "tmpfs", "-o", "size=1m", "edge", folder], check=True)
    try:
        filler = folder / "filler"
        filler.write_bytes(bytes(MEBIBYTE - (128 << 10)))
        yield filler
    finally:
        subprocess.run(["umount", "-l", folder], check=True)


def full(run: Run) -> Iterator[str]:
    with run.folder() as folder, small_disk(folder) as filler:
        process = run.start(KEPT, folder)
        taken = answer_all(process)
        end = nodes.ended(process, 10)
        if (end.status, end.written) != (DISK_FAULT, b""):
            yield "status %s, %r where the file system is full" % (end.status, end.written)
        for what in ("while it is full", "with room again"):
            missing = run.lost(folder, taken)
            if missing or not taken:
                yield "%d of %d answered choices are lost when the journal is opened %s" % (missing, len(taken), what)
            filler.unlink(missing_ok=True)
        more = run.start(KEPT, folder)
        answer = node_of(more).ask(nodes.CHOOSE, choices(1, 1_000_000)[0])
        if answer != (6, b"taken"):
            yield "with room again a choice is answered %r" % (answer,)
        stop(more)


def links(run: Run) -> Iterator[str]:
    with run.folder() as folder:
        here, there = folder / "here", folder / "there"
        for one in (here, there):
            one.mkdir()
        journal(here).symlink_to(there / "target")
        process = run.start(KEPT, here)
        taken = answer_all(process, 50)
        if not (there / "target").is_file():
            yield "a link to nothing: its target was not made"
        (there / nodes.JOURNAL).symlink_to(there / "target")
        before = state(there / "target")
        status = nodes.ended(run.start(KEPT, there, before=OWN_NETWORK), 10).status
        if status != DISK_FAULT or state(there / "target") != before:
            yield "a node on a link to a journal that is served ended with status %s" % status
        stop(process)
        missing = run.lost(here, taken)
        if missing:
            yield "a link to nothing: %d of %d answered choices are lost" % (missing, len(taken))
        yield from no_files(run, folder)


def no_files(run: Run, folder: Path) -> Iterator[str]:
    for name in ("a folder", "a pipe", "itself", "/dev/null", "/dev/full", "/dev/zero"):
        place = folder / name.replace("/", "_")
        place.mkdir()
        if name == "a folder":
            journal(place).mkdir()
        elif name == "a pipe":
            os.mkfifo(journal(place))
        else:
            journal(place).symlink_to(journal(place) if name == "itself" else name)
        began = time.monotonic()
        end = nodes.ended(run.start(["node", ROLE, "1", "kept"], place), 10)
        if (end.status, end.written) != (DISK_FAULT, b"") or time.monotonic() - began > 5:
            yield "%s in the journal's place: status %s after %.1f s" % (name, end.status, time.monotonic() - began)


def removed(run: Run) -> Iterator[str]:
    with run.folder() as folder:
        process = run.start(KEPT, folder)
        node = node_of(process)
        journal(folder).unlink()
        answers = {node.ask(nodes.CHOOSE, one) for one in choices(10)}
        if answers != {(6, b"taken")} or journal(folder).exists():
            yield "a node whose journal was removed answers %s" % answers
        stop(process)


def limited(size: int, ignored: bool) -> Callable[[], None]:
    def begin() -> None:
        resource.setrlimit(resource.RLIMIT_FSIZE, (size, resource.RLIM_INFINITY))
        signal.signal(signal.SIGXFSZ, signal.SIG_IGN if ignored else signal.SIG_DFL)
    return begin


def size(run: Run) -> Iterator[str]:
    for ignored in (False, True):
        with run.folder() as folder:
            process = run.start(KEPT, folder, limited(30_000, ignored))
            taken = answer_all(process)
            end = nodes.ended(process, 10)
            if end.status != (DISK_FAULT if ignored else -signal.SIGXFSZ):
                yield "a limit on the size of files, its signal %s: status %s" % ("ignored" if ignored else "not ignored", end.status)
            missing = run.lost(folder, taken)
            if missing or not taken:
                yield "a limit on the size of files: %d of %d answered choices are lost" % (missing, len(taken))


def signals(run: Run) -> Iterator[str]:
    for number in (signal.SIGTERM, signal.SIGINT, signal.SIGHUP):
        with run.folder() as folder:
            process = run.start(KEPT, folder, lambda: signal.signal(signal.SIGINT, signal.SIG_DFL))
            taken: list[bytes] = []
            worker = threading.Thread(target=kill.live, args=(node_of(process), kill.choices(NAMES, 0), taken), daemon=True)
            worker.start()
            time.sleep(0.5)
            end = stop(process, number)
            worker.join()
            if (end.status, end.written) != (-number, b""):
                yield "%s: status %s, %r" % (signal.Signals(number).name, end.status, end.written)
            missing = run.lost(folder, taken)
            if missing:
                yield "%s: %d of %d answered choices are lost" % (signal.Signals(number).name, missing, len(taken))


def little_memory() -> None:
    resource.setrlimit(resource.RLIMIT_AS, (200 * MEBIBYTE, resource.RLIM_INFINITY))


def foreign(run: Run) -> Iterator[str]:
    with run.folder() as folder:
        process = run.start(KEPT, folder)
        taken = answer_all(process, 10)
        stop(process)
        path = journal(folder)
        whole = path.read_bytes()
        path.write_bytes(whole[:1] + struct.pack(">H", 1) + whole[3:nodes.head_length(whole)])
        os.truncate(path, 1024 * MEBIBYTE)
        began = time.monotonic()
        end = nodes.ended(run.start(KEPT, folder, little_memory), 10)
        took = time.monotonic() - began
        if end.status != BAD_JOURNAL or took > 5:
            yield "a head of another role before 1 GiB of zeros: status %s after %.1f s with at most 200 MiB" % (end.status, took)
        path.write_bytes(whole)
        os.truncate(path, 1024 * MEBIBYTE)
        began = time.monotonic()
        try:
            missing = run.lost(folder, taken, little_memory)
            if missing or time.monotonic() - began > 5:
                yield "10 events before 1 GiB of zeros: %d lost, after %.1f s" % (missing, time.monotonic() - began)
        except Trouble as trouble:
            yield "10 events before 1 GiB of zeros, with at most 200 MiB: %s" % trouble


def modes(run: Run) -> Iterator[str]:
    with run.folder() as folder:
        for there, wanted in ((False, 0o600), (True, 0o640)):
            if there:
                journal(folder).chmod(wanted)
            process = run.start(KEPT, folder, lambda: os.umask(0) and None)
            answer_all(process, 2)
            stop(process)
            mode = journal(folder).stat().st_mode & 0o777
            if mode != wanted:
                yield "a journal that %s has the mode %o, and not %o" % ("was there" if there else "is made", mode, wanted)


# Calls of the system.

TRACED = "trace=openat,open,fcntl,dup,flock,fsync,fdatasync,write,pwrite64,ftruncate,bind,sendto,setsockopt"


def traced(run: Run, words: list[str], folder: Path, work: Callable[[], None]) -> list[str]:
    """The calls of a run, in order."""
    told = folder / "calls"
    process = run.start(words, folder, before=["strace", "-qq", "-yy", "-s", "64", "-e", TRACED, "-e", "signal=none", "-o", str(told)])
    work()
    nodes.ended(process, 10)
    return told.read_text(errors="replace").splitlines()


def place_of(calls: list[str], *words: str, first: int = 0) -> int:
    """Where the first call stands that has all these words, from some place on; past the end where none has."""
    return next((at for at in range(first, len(calls)) if all(word in calls[at] for word in words)), len(calls))


def synced(run: Run) -> Iterator[str]:
    if not shutil.which("strace"):
        yield "SKIPPED: install Debian's package strace to look at the calls of the system"
        return
    with run.folder() as folder:
        def work() -> None:
            peer = None
            while peer is None:
                try:
                    peer = socket.create_connection(("127.0.0.1", nodes.FIRST_PORT), timeout=20)
                except OSError:
                    time.sleep(0.01)
            nodes.send_all(peer, frames(choices(2)))
            nodes.receive_all(peer)
        calls = traced(run, ["node", ROLE, "1", "kept"], folder, work)
        yield from order(calls, folder)
        yield from timeouts(calls, SERVED, "a session of a node")
    with run.folder() as folder:
        served = [run.start(["node", role, "1000000"]) for role in NAMES.roles[1:]]
        first = run.start(["node", ROLE, "1000000"])
        for process, role in zip(served + [first], NAMES.roles[1:] + NAMES.roles[:1]):
            node_of(process, role=role).peer.close()
        calls = traced(run, ["courier", "1"], folder, lambda: None)
        for process in served + [first]:
            stop(process)
        yield from timeouts(calls, DIALED, "a session of a courier")


def order(calls: list[str], folder: Path) -> Iterator[str]:
    file = "/" + nodes.JOURNAL + ">"
    opened = place_of(calls, "open", '"%s"' % nodes.JOURNAL)
    locked = place_of(calls, "flock(", "LOCK_EX|LOCK_NB", "= 0")
    named = place_of(calls, "fsync(", "<%s>" % folder, "= 0")
    changed = min(place_of(calls, "write(", file), place_of(calls, "pwrite64(", file), place_of(calls, "ftruncate(", file))
    if opened == len(calls) or "O_TRUNC" in calls[opened] or not opened < locked < changed:
        yield "the journal is not locked before it is changed: %s" % calls[opened:opened + 8]
    if not named < changed:
        yield "the folder is not synced before the journal is written"
    if changed == len(calls):
        yield "the journal was not written, as far as strace tells"
    for at, call in enumerate(calls):
        if "sendto(" in call:
            before = [one for one in calls[:at] if file in one]
            if not before or not ("fsync(" in before[-1] and before[-1].endswith("= 0")):
                yield "a reply is sent before the journal is synced: %s" % before[-1:]


def timeouts(calls: list[str], wanted: tuple[int, int], what: str) -> Iterator[str]:
    """The timeouts of reads and writes have to be set to so many seconds."""
    for option, seconds in zip(("SO_RCVTIMEO", "SO_SNDTIMEO"), wanted):
        set_so = [call for call in calls if option in call]
        if not set_so:
            yield "%s has no %s" % (what, option)
        elif not all(told_seconds(call) == seconds for call in set_so):
            yield "%s has another timeout than %d s: %s" % (what, seconds, set_so[0])


def told_seconds(call: str) -> int:
    """The seconds of a timeout, from the bytes that strace shows."""
    inside = call[call.index('"') + 1:call.rindex('"')]
    return struct.unpack_from("<q", inside.encode("latin-1").decode("unicode_escape").encode("latin-1"))[0]


# Signals that break off a call.

def nudge(process: subprocess.Popen[bytes], times: int = 10) -> None:
    """Stops a process and lets it go on, a few times."""
    for _ in range(times):
        process.send_signal(signal.SIGSTOP)
        time.sleep(0.02)
        process.send_signal(signal.SIGCONT)
        time.sleep(0.02)


def interrupted(run: Run) -> Iterator[str]:
    process = run.start(["node", ROLE, "3"])
    node = node_of(process)
    for one in choices(3):
        nudge(process)
        answer = node.ask(nodes.CHOOSE, one)
        if answer != (6, b"taken"):
            yield "a node that was stopped in a read replies %r" % (answer,)
    node.peer.close()
    nudge(process)
    peer = peer_at_once()
    asked = never_reads(peer)
    nudge(process)
    peer.setblocking(True)
    peer.shutdown(socket.SHUT_WR)
    replies = len(nodes.split(nodes.receive_all(peer)))
    if replies != asked:
        yield "a node that was stopped in a write replied to %d of %d requests" % (replies, asked)
    end = nodes.ended(process, 10)
    if end.status != 0 or [how for _, how in nodes.log_lines(end.written)][:2] != ["end", "end"]:
        yield "a node that was stopped: status %s, %r" % (end.status, end.written)
    yield from interrupted_courier(run)


def interrupted_courier(run: Run) -> Iterator[str]:
    ports = [socket.create_server(("127.0.0.1", nodes.port_of(NAMES, role))) for role in NAMES.roles]
    courier = run.start(["courier", "3"])
    for port in ports:
        peer, _ = port.accept()
        nodes.split(peer.recv(13))
        nudge(courier)
        peer.sendall(nodes.place(10, 0))
        peer.recv(1)
        peer.close()
    end = nodes.ended(courier, 10)
    if (end.status, end.written) != (0, b"quiet\n"):
        yield "a courier that was stopped while it waited: status %s, %r" % (end.status, end.written)


CHECKS: dict[str, Callable[..., Iterator[str]]] = {
    "closed": closed, "second": second, "race": race, "silent": silent, "behind": behind, "resets": resets, "full": full, "links": links,
    "removed": removed, "size": size, "signals": signals, "foreign": foreign, "modes": modes, "synced": synced, "interrupted": interrupted}


# Running the checks.

def one_check(program: str, name: str) -> None:
    """Runs a check in this process, and writes what it found as a line of JSON."""
    word, _, number = name.partition(":")
    found: list[str] = []
    try:
        found.extend(CHECKS[word](Run(program), *([int(number)] if number else [])))
    except (Trouble, OSError, TimeoutError, subprocess.SubprocessError, ValueError, IndexError) as trouble:
        found.append("it broke off: %s: %s" % (type(trouble).__name__, trouble))
    print(json.dumps(found), flush=True)


def apart(program: str, name: str) -> tuple[str, float, list[str]]:
    """The same in a network, a mount and a process namespace of its own."""
    began = time.monotonic()
    words = ["unshare", "-n", "-m", "-p", "-f", "--kill-child", "--mount-proc", "sh", "-c", 'ip link set lo up && exec "$@"', "sh",
             sys.executable, str(HERE / "edge.py"), program, "--one", name]
    try:
        ran = subprocess.run(words, capture_output=True, text=True, timeout=LATE + 45)
        found = json.loads(ran.stdout.splitlines()[-1]) if ran.stdout.strip() else ["it ended with status %d: %s" % (ran.returncode, ran.stderr[-500:])]
    except subprocess.TimeoutExpired:
        found = ["it had not ended after %d s" % (LATE + 45)]
    return name, time.monotonic() - began, found


def names_of(only: list[str]) -> list[str]:
    """The checks, the slow ones first; each silent peer has one of its own."""
    slow = ["silent:%d" % number for number in range(len(SILENT))] if "silent" in only else []
    return slow + [name for name in ("behind", *CHECKS) if name in only and name != "silent" and not (name == "behind" and name in slow)]


def all_checks(program: str, only: list[str]) -> int:
    names = list(dict.fromkeys(names_of(only)))
    with ThreadPoolExecutor(len(names)) as pool:
        answers = list(pool.map(lambda name: apart(program, name), names))
    wrong = 0
    for name, took, found in answers:
        skipped = [one for one in found if one.startswith("SKIPPED: ")]
        wrong += len(found) > len(skipped)
        shown = name if ":" not in name else "silent (%s%s)" % (SILENT[int(name[7:])][0].__name__.replace("_", " "),
                                                                 ", kept" if SILENT[int(name[7:])][1] else "")
        print("%-32s %5.1f s  %s" % (shown, took, "skipped" if skipped else "WRONG" if found else "well"))
        for one in found:
            print("    " + one)
    print("%d of %d checks found something" % (wrong, len(answers)))
    return 1 if wrong else 0


def begin_apart() -> None:
    """Begins this script anew where it is root, sees its own processes alone, and may mount."""
    for name, package in (("unshare", "util-linux"), ("ip", "iproute2"), ("mount", "mount")):
        if not shutil.which(name):
            stop_with("%s is missing: install Debian's package %s." % (name, package))
    words = ["unshare", *(["-r"] if os.geteuid() else []), "-n", "-m", "-p", "-f", "--kill-child", "--mount-proc"]
    if subprocess.run([*words, "true"], capture_output=True).returncode:
        stop_with("The system lets this user make no namespaces of its own (unshare -n -m -p); run it as root.")
    os.environ["EDGE_INSIDE"] = "1"
    os.execvp(words[0], [*words, sys.executable, *sys.argv])


def stop_with(sentence: str) -> None:
    print(sentence, file=sys.stderr)
    sys.exit(2)


def main() -> None:
    asked = argparse.ArgumentParser(description=__doc__, formatter_class=argparse.RawDescriptionHelpFormatter)
    asked.add_argument("program", nargs="?", default=os.environ.get("AW", str(BUILT)), metavar="BIN")
    asked.add_argument("--only", nargs="+", choices=list(CHECKS), default=list(CHECKS), metavar="CHECK")
    asked.add_argument("--one", help=argparse.SUPPRESS)
    readers.word_of(asked)
    given = asked.parse_args()
    if given.program_is != "aw":
        nodes.alone()
        readers.guarded(lambda: sys.exit(1 if readers.edge(*readers.both(given)) else 0))
    program = os.path.abspath(given.program)
    if not os.access(program, os.X_OK):
        stop_with('There is no program at "%s"; build it with rt ci, or name it: edge.py BIN.' % program)
    if given.one:
        one_check(program, given.one)
        return
    if not os.environ.get("EDGE_INSIDE"):
        begin_apart()
    sys.exit(all_checks(program, given.only))


if __name__ == "__main__":
    main()
