"""The parts of cuts.py, changes.py, faults.py, hostile.py and edge.py for the program that reads journals (aw_book), and for the companions in Python.

What aw_book has to say of a file comes from docs/JOURNAL.md and docs/BOOK.md, as `nodes.events` reads the format a second time. Of a companion is
asked that it ends with a status that its page has, and never with a traceback or a fault of its own (70)."""
from __future__ import annotations

import argparse
import itertools
import os
import re
import resource
import shutil
import signal
import socket
import struct
import subprocess
import sys
import tempfile
import time
from collections import Counter
from collections.abc import Callable, Iterable, Iterator
from concurrent.futures import ThreadPoolExecutor
from itertools import combinations
from pathlib import Path

sys.dont_write_bytecode = True
import living
import nodes
import sessions

sys.path[:0] = [str(living.TOP / "offices"), str(living.TOP / "forms")]
from aw_offices import frames

WORDS = ("spec", "check", "check --digest", "events")
GOOD, NOT_GOOD, USAGE, NOT_READ, NOT_WRITTEN, NO_MEMORY = 0, 1, 2, 3, 4, 5
REPLACED = [b"\0", b"\1", b"\2", b"\x7f", b"\xff", b"\n", b"a"]
SHOWN = 200
JOINING, MOST_ROLES, ROLE = ("join", "cases"), 64, re.compile(rb"(?m)^role ([a-z][a-z0-9_]*)")
CLEAN = {b"taken", b"new"}
VISITS = 100_000
MEBIBYTE = 1 << 20
TEXT = sessions.example("insurance-claim.aw").split(b"\nschedule")[0] + b"\n"


def word_of(parser: argparse.ArgumentParser) -> None:
    """The words --program and --aw, for a script."""
    parser.add_argument("--program", dest="program_is", choices=("aw", "aw_book", "companions"), default="aw",
                        help="what BIN is: aw, or aw_book; for companions, the aw that they ask (aw)")
    parser.add_argument("--aw", help="with --program aw_book: the aw that makes the journals; else what AW names, else the built one")


def both(given: argparse.Namespace) -> tuple[str, str, str]:
    """Which program is looked at, where it is, and where aw is."""
    binary = living.program(getattr(given, "binary", None) or given.program, "AW_BOOK", "aw_book")
    return given.program_is, binary, binary if given.program_is == "companions" else living.program(given.aw, "AW", "aw_prog")


def guarded(work: Callable[[], None]) -> None:
    """A script, which ends with 2 and a sentence where it could not run."""
    try:
        work()
    except KeyboardInterrupt:
        sys.exit(130)
    except (living.Sorry, OSError, TimeoutError, subprocess.SubprocessError) as trouble:
        print("%s: %s" % (os.path.basename(sys.argv[0]), trouble), file=sys.stderr)
        sys.exit(2)


def journals(aw: str) -> dict[str, bytes]:
    """Journals of real nodes, by names."""
    found = {}
    for asked in sessions.ASKED:
        served = nodes.serve(aw, ["node", asked.role, "1", "kept"], asked.text, [b"".join(nodes.split(b"".join(asked.sessions())))])
        if not served.journal:
            raise living.Sorry("%s made no journal (status %s); name the program aw with --aw." % (aw, served.status))
        found[asked.name] = served.journal
    return found


def asked_of(book: str) -> list[list[str]]:
    """The commands that read one journal."""
    return [words.split() for words in WORDS] + [[word] for word in ("tasks", "join", "cases") if living.tells(book, word)]


def alone(command: list[str], data: bytes) -> list[str]:
    """A command that reads one journal. What joins all of them is told that every other role of its head never served."""
    end = nodes.head_length(data) if data else None
    if command[0] not in JOINING or end is None or b"\nschedule" in data[:end]:
        return command
    own, roles = struct.unpack_from(">H", data, 1)[0], ROLE.findall(data[11:end])[:MOST_ROLES]
    return [*command, *(word for at, role in enumerate(roles) if at != own for word in ("--without", role.decode()))]


Answer = tuple[int, bytes, bytes]


def answer(words: list[str], given: bytes = b"", env: dict[str, str] | None = None, limit: float = 60) -> Answer:
    """The status, and what was written on both outputs; status -999 where it had not ended."""
    try:
        done = subprocess.run(words, input=given, capture_output=True, timeout=limit, check=False, env={**os.environ, **(env or {})})
    except subprocess.TimeoutExpired:
        return -999, b"", b"it had not ended after %d seconds" % limit
    return done.returncode, done.stdout, done.stderr


# The program that reads journals.

def stands(data: bytes) -> tuple[set[str], int]:
    """The words of a file by a second reader, and how many events count."""
    head = nodes.head_length(data) if data else None
    if not data:
        return {"empty"}, 0
    if head is None or head >= len(data):
        return {"headless", "damaged"}, 0
    events, counted = nodes.events(data)
    good = list(itertools.takewhile(is_event, events))
    closed = len(counted) == len(data) and data[-1] != 1
    return ({"sound"} if len(good) == len(events) and closed else {"cut", "damaged"}), len(good)


def is_event(data: bytes) -> bool:
    """Whether some bytes are a choice or a letter, as the companions read them."""
    try:
        if data[:1] == b"\1":
            frames.choice(data[1:])
        elif data[:1] == b"\2":
            frames.message(data[1:])
        else:
            return False
    except frames.Bad:
        return False
    return True


def differs(book: str, commands: list[list[str]], path: Path, data: bytes, cut: bool, whole: list[bytes]) -> tuple[str | None, str]:
    """What is wrong with what is said of a file, or nothing; and how it stands."""
    path.write_bytes(data)
    words, count = stands(data)
    kind = "?"
    for command in commands:
        status, written, told = answer([book, *alone(command, data), str(path)])
        lines = written.split(b"\n")[:-1]
        if status not in (GOOD, NOT_GOOD, NO_MEMORY) or b"panic" in told or (status and not told and command[0] != "check"):
            return "%s: status %d, %r" % (" ".join(command), status, told[:SHOWN]), "wrong"
        if command[0] == "check":
            found = lines[0].split()
            kind = found[0].decode()
            if kind not in words or int(found[3]) != count or (cut and kind == "damaged"):
                return "check says %s with %d events, and it stands %s with %d" % (kind, int(found[3]), " or ".join(sorted(words)), count), "wrong"
        if command == ["events"] and status == GOOD and (len(lines) != count or (cut and lines != whole[:len(lines)])):
            return "events writes %d lines, and %d events count" % (len(lines), count), "wrong"
    if path.read_bytes() != data:
        return "the file was changed", "wrong"
    return None, kind


def told(what: str, judged: Iterable[tuple[str, tuple[str | None, str]]]) -> int:
    """Prints how often each answer came, and the first that differ. How many differ."""
    counts, wrong = Counter[str](), []
    for name, (fault, kind) in judged:
        counts[kind] += 1
        wrong += ["%s: %s" % (name, fault)] if fault else []
    print("%s, %d runs: %s" % (what, sum(counts.values()), ", ".join("%s: %d" % pair for pair in sorted(counts.items()))), flush=True)
    for line in wrong[:20]:
        print("  " + line)
    return len(wrong)


def each_file(book: str, made: Iterator[tuple[str, bytes]], cut: bool, whole: list[bytes], jobs: int = 2) -> Iterator[tuple[str, tuple[str | None, str]]]:
    """What is said of each of some files."""
    commands = asked_of(book)
    with tempfile.TemporaryDirectory(dir=nodes.FAST) as folder, ThreadPoolExecutor(jobs) as pool:
        numbered = enumerate(made)
        while True:
            some = [(number, name, data) for number, (name, data) in (pair for pair, _ in zip(numbered, range(64)))]
            if not some:
                return
            yield from zip([name for _, name, _ in some],
                           list(pool.map(lambda one: differs(book, commands, Path(folder) / str(one[0] % 64), one[2], cut, whole), some)))


def cuts(program: str, binary: str, aw: str, every: int = 1) -> int:
    """Cuts journals, or what companions are given, after each byte; how many answers differ."""
    if program == "companions":
        return companions(aw, lambda data: ((data[:length]) for length in range(0, len(data) + 1, max(every, len(data) // 60 or 1))), "cut")
    wrong = 0
    for name, data in journals(aw).items():
        whole = whole_of(binary, data)
        made = (("cut to %d bytes" % length, data[:length]) for length in range(0, len(data) + 1, every))
        wrong += told("a journal, cut: " + name, each_file(binary, made, True, whole))
    return wrong + joins(binary, aw, "cut", lambda data, at: [("cut to %d bytes" % at, data[:at])], every)


def whole_of(book: str, data: bytes) -> list[bytes]:
    """The events of a whole journal."""
    with tempfile.NamedTemporaryFile(dir=nodes.FAST) as file:
        file.write(data)
        file.flush()
        return answer([book, "events", file.name])[1].split(b"\n")[:-1]


def changed(data: bytes, every: int) -> Iterator[tuple[str, bytes]]:
    """A file with a byte taken out, doubled or replaced, at each place or each so-manyth."""
    for at in range(0, len(data), every):
        yield from changes_at(data, at)


def changes_at(data: bytes, at: int) -> Iterator[tuple[str, bytes]]:
    """A file with a byte taken out, doubled or replaced."""
    yield "byte %d taken out" % at, data[:at] + data[at + 1:]
    yield "byte %d doubled" % at, data[:at] + data[at:at + 1] + data[at:]
    for other in REPLACED:
        if other != data[at:at + 1]:
            yield "byte %d is %r" % (at, other), data[:at] + other + data[at + 1:]


def changes(program: str, binary: str, aw: str, every: int) -> int:
    """The same for files in which a byte was changed."""
    if program == "companions":
        return companions(aw, lambda data: (one for _, one in changed(data, max(every, len(data) // 12 or 1))), "changed")
    wrong = 0
    for name, data in journals(aw).items():
        wrong += told("a journal, changed: " + name, each_file(binary, changed(data, every), False, []))
    return wrong + joins(binary, aw, "changed", changes_at, 5 * every)


# Journals that are joined.

CLAIMS = ("start claim 1", 'choose claim#1 open_claim {7, "storm, roof", 120, "DK50"}', "start claim 2", 'choose claim#2 open_claim {8, "fire", 9000, "DK51"}',
          "choose claim#1/open_claim.1 inspect", "choose claim#1/open_claim.1/inspect.1 find_repairable {90}", "choose claim#1/open_claim.1/inspect.2 pay_repair",
          "choose claim#1/open_claim.2 pay", 'choose claim#2/open_claim.1 deny {"no cover"}', "choose claim#2/open_claim.2 file_away")


def system(aw: str) -> dict[str, bytes]:
    """The journals of three offices, by roles, through which two claims went."""
    with tempfile.TemporaryDirectory(dir=nodes.FAST) as folder:
        world = living.World(aw, TEXT.decode(), Path(folder), 0)
        try:
            for office in world.offices.values():
                office.start()
            for line in CLAIMS:
                one = living.step(world.text, world.names, 0, line)
                if not world.choose(one.role, [one])[0]:
                    raise living.Sorry("%s is not taken by the node of %s; name the program aw with --aw." % (line, one.role))
                answer([aw, "courier", "100"], TEXT)
        finally:
            world.stop()
        return {role: office.journal.read_bytes() for role, office in world.offices.items()}


def joins(book: str, aw: str, how: str, make: Callable[[bytes, int], Iterable[tuple[str, bytes]]], every: int) -> int:
    """One of all journals is cut or changed, at each so-manyth place of its events and some of its head, and all are joined; how many answers differ."""
    if not living.tells(book, "join"):
        return 0
    wrong, whole = 0, system(aw)
    for role, data in whole.items():
        with tempfile.TemporaryDirectory(dir=nodes.FAST) as folder:
            places = [Path(folder) / name for name in whole]
            for place in places:
                place.write_bytes(whole[place.name])
            wrong += told("all journals joined, that of %s %s" % (role, how), (
                (name, joined_differs(book, aw, places, Path(folder) / role, one)) for at in places_of(data, every) for name, one in make(data, at)))
    return wrong


def places_of(data: bytes, every: int) -> list[int]:
    """Places of a journal: some of its head, and each so-manyth of its events."""
    head = nodes.head_length(data) or 0
    return [*range(0, head, 50 * every), *range(head, len(data) + 1, every)]


def joined_differs(book: str, aw: str, places: list[Path], path: Path, data: bytes) -> tuple[str | None, str]:
    """What is wrong with how journals are joined of which one is these bytes, or nothing; and the status."""
    path.write_bytes(data)
    files = [str(place) for place in places]
    status, written, said = answer([book, "join", "--settled", *files])
    cases = answer([book, "cases", *files])
    if status not in (GOOD, NOT_GOOD) or b"panic" in said or cases[0] != status or (status == NOT_GOOD and (written or cases[1] or not said)):
        return "join has status %d and cases %d, %r" % (status, cases[0], said[:SHOWN]), "wrong"
    reached = written if status == GOOD else answer([book, "join", "--reach", *files])[1]
    count = len(re.findall(rb"(?m)^(?:start|choose|deliver) ", reached.partition(b"\nschedule")[2]))
    if status == GOOD and count != sum(stands(place.read_bytes())[1] for place in places):
        return "%d events are joined" % count, "wrong"
    ended, replayed, _ = answer([aw, "replay"], reached) if reached else (0, b"", b"")
    answers = re.findall(rb"(?m)^(?:start|choose|deliver) .*: (.*)$", replayed)[:count]
    if ended or set(answers) - CLEAN or len(answers) != count:
        return "what is joined is replayed with status %d, %s" % (ended, sorted(set(answers) - CLEAN)[:2]), "wrong"
    if status == GOOD and replayed[replayed.find(b"\nartifacts "):].split(b"\n")[2:-1] != cases[1].split(b"\n")[:-1]:
        return "cases are not the artifacts of what is joined", "wrong"
    return None, "fit" if status == GOOD else "do not fit"


def faults(program: str, binary: str, aw: str, source: str, first: int) -> int:
    """Makes each allocation, reading of the file and writing of aw_book fail; how many answers differ. Companions are killed at each change of a file."""
    if program == "companions":
        return killed(aw)
    wrong, data = 0, next(iter(journals(aw).values()))
    with tempfile.TemporaryDirectory(dir=nodes.FAST) as folder:
        path, count, shim = Path(folder) / "journal", Path(folder) / "count", str(Path(folder) / "faulty.so")
        path.write_bytes(data)
        subprocess.run(["cc", "-O2", "-shared", "-fPIC", "-o", shim, source], check=True)

        def run(words: list[str], call: str, at: int, rest: int) -> Answer:
            return answer([*words, str(path)], env={"LD_PRELOAD": shim, "FAULTY_CALL": call, "FAULTY_AT": str(at), "FAULTY_REST": str(rest), "FAULTY_COUNT": str(count)})
        for command in (alone(one, data) for one in asked_of(binary)):
            for call in ("memory", "disk", "write"):
                whole = run([binary, *command], call, 0, 0)
                calls = int(count.read_text() or 0)
                judged = []
                for at in range(1, min(calls, first) + 1):
                    for rest in (0, 1):
                        status, written, said = run([binary, *command], call, at, rest)
                        fits = (status, written) == whole[:2] or (whole[1].startswith(written) and fails_so(call, rest, status, said))
                        judged.append(("%s %d%s" % (call, at, " and all behind it" if rest else ""), (
                            None if fits else "status %d, %d bytes, %r" % (status, len(written), said[:SHOWN]), "unchanged" if status == whole[0] else str(status))))
                wrong += told("aw_book %s, %s, %d calls" % (" ".join(command), call, calls), judged)
        if path.read_bytes() != data:
            wrong += told("the journal", [("afterwards", ("it was changed", "wrong"))])
    return wrong


def fails_so(call: str, rest: int, status: int, said: bytes) -> bool:
    """Whether a call that fails has the status of its kind and a sentence. There is none where there is no memory for it, nor where the call fails that
    would write it, which then is what the status tells."""
    if call == "memory":
        return status == NO_MEMORY or (status == USAGE and b"out of memory" in said)
    if call == "disk":
        return (status == NOT_READ and (bool(said) or rest == 1)) or (status == NO_MEMORY and (not said or rest == 1))
    return status == NOT_WRITTEN and bool(said)


def large(aw: str) -> Iterator[tuple[str, bytes]]:
    """Journals that nobody in good faith gives."""
    import hostile
    for attack in hostile.journals(aw):
        yield attack.name, attack.journal or b""
    whole = next(iter(journals(aw).values()))
    head = whole[:nodes.head_length(whole)]
    yield "a head of 16 MiB of names", b"\x01\0\0" + struct.pack(">Q", 16 * MEBIBYTE) + b"role a\n" * (16 * MEBIBYTE // 7 + 1) + b"\0"
    yield "a head of one line of 16 MiB", b"\x01\0\0" + struct.pack(">Q", 16 * MEBIBYTE) + b"a" * (16 * MEBIBYTE) + b"\0"
    yield "a head whose terms are a million deep", b"\x01\0\0" + struct.pack(">Q", 3_000_006) + b"rule r" + b"c(" * 1_500_000 + b"\0"
    yield "1,000,000 letters of one byte", head + b"".join(b"\x01" + struct.pack(">Q", 2) + b"\x02\x01" for _ in range(1_000_000)) + b"\0"


def sets(aw: str) -> Iterator[tuple[str, list[bytes], int]]:
    """Journals of a clinic and a laboratory that nobody in good faith joins, and the status that is called for."""
    text, case = sessions.example("clinical-test.aw").split(b"\nschedule")[0] + b"\n", 0x1122334455667788
    names = nodes.Names(text.decode())
    lines = ["start visit %d" % case, 'choose visit#%d admit {"Ada", 7, glucose}' % case, "pull 0"]
    served = nodes.serve(aw, ["node", "clinic", "1", "kept"], text, [b"".join(nodes.requests(names, "\n".join(lines)))])
    empty = nodes.serve(aw, ["node", "lab", "1", "kept"], text, [b""]).journal or b""
    made, call = nodes.events(served.journal)[0], b"\2" + nodes.split(served.replies[0])[-1][5:]
    heads = [data[:nodes.head_length(data)] for data in (served.journal, empty)]

    def of(event: bytes, numbers: Iterable[int]) -> list[bytes]:
        return [event.replace(struct.pack(">Q", case), struct.pack(">Q", number)) for number in numbers]

    def both_of(clinic: list[bytes], lab: list[bytes]) -> list[bytes]:
        return [head + b"".join(b"\1" + struct.pack(">Q", len(event)) + event for event in events) + b"\0" for head, events in zip(heads, (clinic, lab))]
    visits = [event for pair in zip(of(made[0], range(VISITS)), of(made[1], range(VISITS))) for event in pair]
    calls, strange = of(call, range(VISITS)), of(call, range(VISITS, 2 * VISITS))
    yield "%d visits, whose calls came in their order" % VISITS, both_of(visits, calls), GOOD
    yield "the calls came in falling order", both_of(visits, calls[::-1]), GOOD
    yield "the first call is of a visit that never was", both_of(visits, strange[:1] + calls), NOT_GOOD
    yield "the last call is of a visit that never was", both_of(visits, calls + strange[:1]), NOT_GOOD
    yield "%d calls of visits that never were" % VISITS, both_of([], strange), NOT_GOOD
    yield "each call came twice", both_of(visits, [one for call in calls for one in (call, call)]), NOT_GOOD
    yield "the laboratory has the clinic's choices", both_of(visits, visits), NOT_GOOD


def joined_rows(book: str, aw: str, limit: int) -> bool:
    """A row for each set of journals; whether each ended as it is called for."""
    good = True
    with tempfile.TemporaryDirectory(dir=nodes.FAST) as folder:
        places = [Path(folder) / name for name in ("clinic", "lab")]
        for name, journals_, wanted in sets(aw):
            for place, data in zip(places, journals_):
                place.write_bytes(data)
            for command in (["join"], ["join", "--reach"], ["join", "--case", "visit#7"], ["cases"]):
                took, held, status = living.measured([book, *command, *map(str, places)], b"", limit)
                fits = status == wanted or (command[1:2] == ["--case"] and status == GOOD)
                good = good and fits
                print("| %s | `%s` | %.1f | %s%s | %.2f | %.1f |" % (name, " ".join(command), sum(map(len, journals_)) / MEBIBYTE, "none" if status is None else status,
                                                                     "" if fits else " !", took, held / 1024), flush=True)
    return good


def hostile_rows(program: str, binary: str, aw: str, limit: int) -> bool:
    """A row for each; whether each ended with a status that is called for, and within its time."""
    if program != "aw_book":
        raise living.Sorry("Of the companions cuts.py and changes.py have what is given in bad faith.")
    print("| Journal | Command | MiB | Status | Processor s | MiB held |\n|---|---|---|---|---|---|")
    good = True
    with tempfile.TemporaryDirectory(dir=nodes.FAST) as folder:
        path = Path(folder) / "journal"
        for name, data in large(aw):
            path.write_bytes(data)
            for command in asked_of(binary):
                took, held, status = living.measured([binary, *alone(command, data), str(path)], b"", limit)
                fits = status in (GOOD, NOT_GOOD, NO_MEMORY)
                good = good and fits
                print("| %s | `%s` | %.1f | %s%s | %.2f | %.1f |" % (name, " ".join(command), len(data) / MEBIBYTE, "none" if status is None else status,
                                                                     "" if fits else " !", took, held / 1024), flush=True)
    return (joined_rows(binary, aw, limit) if living.tells(binary, "join") else True) and good


# The edge of aw_book.

def closed_ends(book: str, path: Path) -> Iterator[str]:
    whole = answer([book, "check", str(path)])
    for streams in (some for count in (1, 2, 3) for some in combinations((0, 1, 2), count)):
        close = " ".join("%d>&-" % one if one else "<&-" for one in streams)
        status, written, _ = answer(["/bin/sh", "-c", '"$0" check "$1" %s' % close, book, str(path)])
        wanted = (NOT_WRITTEN, b"") if 1 in streams else whole[:2]
        if (status, written) != wanted and not ({1, 2} <= set(streams) and status in (NOT_WRITTEN, NO_MEMORY)):
            yield "without descriptors %s: status %d, %r, and not %r" % (streams, status, written[:SHOWN], wanted)
    for ends in ("> /dev/full", "1< /dev/null"):
        status = answer(["/bin/sh", "-c", '"$0" events "$1" %s' % ends, book, str(path)])[0]
        if status != NOT_WRITTEN:
            yield "%s: status %d, and not %d" % (ends, status, NOT_WRITTEN)
    process = subprocess.Popen([book, "events", *[str(path)] * 5000], stdout=subprocess.PIPE, stderr=subprocess.DEVNULL)
    assert process.stdout is not None
    process.stdout.read(10)
    process.stdout.close()
    if process.wait(60) != NOT_WRITTEN:
        yield "a pipe that nobody reads any more: status %d" % process.returncode


def no_files(book: str, folder: Path, path: Path) -> Iterator[str]:
    (folder / "folder").mkdir()
    os.mkfifo(folder / "pipe")
    (folder / "loop").symlink_to(folder / "loop")
    (folder / "nothing").symlink_to(folder / "nobody")
    door = socket.socket(socket.AF_UNIX)
    door.bind(str(folder / "socket"))
    for name in ("folder", "pipe", "loop", "nothing", "socket", "nobody", "/dev/null", "/dev/zero", "/dev/full", "/dev/tty"):
        for command in asked_of(book):
            status, _, told_ = answer([book, *command, str(folder / name)], limit=10)
            if status != NOT_READ or not told_:
                yield "%s %s: status %d, %r" % (" ".join(command), name, status, told_[:SHOWN])
    door.close()
    (folder / "link").symlink_to(path)
    if answer([book, "events", str(folder / "link")])[:2] != answer([book, "events", str(path)])[:2]:
        yield "a link to a journal is not read as the journal"


def beside(book: str, aw: str, folder: Path) -> Iterator[str]:
    """Reads a journal while its node writes: each reading is a beginning of the next."""
    import kill
    text = sessions.example("clinical-test.aw")
    process = nodes.started([aw, "node", "clinic", "1", "kept"], text, folder)
    peer = nodes.connect(nodes.FIRST_PORT, process)
    names, before, grown = nodes.Names(text.decode()), b"", 0
    choices = kill.choices(names, 0)
    for _ in range(60):
        peer.sendall(b"".join(nodes.frame(nodes.CHOOSE, next(choices)) for _ in range(40)))
        status, written, told_ = answer([book, "events", str(folder / nodes.JOURNAL)])
        if status != GOOD or not written.startswith(before):
            yield "beside a node that writes: status %d, %r" % (status, told_[:SHOWN])
            break
        grown, before = grown + (written != before), written
        peer.recv(1 << 16)
    peer.close()
    nodes.ended(process)
    if grown < 2:
        yield "the journal did not grow while it was read"


def zeros(book: str, folder: Path, data: bytes) -> Iterator[str]:
    path = folder / "zeros"
    path.write_bytes(data)
    os.truncate(path, 1024 * MEBIBYTE)
    for command in asked_of(book):
        began = time.monotonic()
        status = subprocess.run([book, *command, str(path)], capture_output=True, timeout=120, check=False,
                                preexec_fn=lambda: resource.setrlimit(resource.RLIMIT_AS, (400 * MEBIBYTE,) * 2)).returncode
        if status not in (GOOD, NOT_GOOD, NO_MEMORY) or time.monotonic() - began > 60:
            yield "%s of a journal before 1 GiB of zeros, with 400 MiB: status %d after %.0f s" % (" ".join(command), status, time.monotonic() - began)


def edge(program: str, binary: str, aw: str) -> int:
    """What is wrong at the edge of aw_book; how much."""
    if program != "aw_book":
        raise living.Sorry("The edge of the companions is looked at by their own tests: ci/companions.")
    data, wrong = next(iter(journals(aw).values())), 0
    checks: dict[str, Callable[[Path, Path], Iterator[str]]] = {
        "closed": lambda folder, path: closed_ends(binary, path), "files": lambda folder, path: no_files(binary, folder, path),
        "beside": lambda folder, path: beside(binary, aw, folder), "zeros": lambda folder, path: zeros(binary, folder, data)}
    for name, check in checks.items():
        with tempfile.TemporaryDirectory(dir=nodes.FAST) as made:
            path = Path(made) / "journal"
            path.write_bytes(data)
            before = path.stat().st_mtime_ns
            found = list(check(Path(made), path))
            if path.read_bytes() != data or path.stat().st_mtime_ns != before:
                found.append("the journal was changed")
        wrong += len(found)
        print("%-12s %s" % (name, "WRONG" if found else "well"))
        for one in found:
            print("    " + one)
    return wrong


# Companions.

SYSTEMS = b"% the east\n1 999999 https://west.example\n1000000 1999999 here\n"
LASTING = {"aw_post": 1.5, "aw_guard": 1.5, "aw_desk": 5.0}


def given_to(aw: str) -> Iterator[tuple[str, list[str], bytes]]:
    """What each companion is given, as a file in the place of FILE."""
    top, text = living.TOP, sessions.example("clinical-test.aw")
    forms = top / "forms"
    for name, words in (("aw_fmt", ["--check", "FILE"]), ("aw_fmt", ["--diff", "FILE"]), ("aw_lint", ["FILE"]), ("aw_explain", ["FILE"]),
                        ("aw_explain", ["replay", "FILE"]), *(("aw_draw", [picture, "FILE"]) for picture in ("offices", "case", "messages"))):
        yield "%s %s" % (name, " ".join(words)), [str(forms / name), *words], text
    data = next(iter(journals(aw).values()))
    spec = data[11:nodes.head_length(data)]
    yield "aw_carry_over FILE", [str(top / "offices" / "aw_carry_over"), "FILE", "SPEC", "RESULT"], data
    yield "aw_carry_over .. FILE", [str(top / "offices" / "aw_carry_over"), "JOURNAL", "FILE", "RESULT"], spec
    yield "aw_post .. FILE", [str(top / "offices" / "aw_post"), "SPEC", "FILE"], b'{"clinic lab": [3, "00"], "lab clinic": [1, "11"]}'
    yield "aw_post FILE ..", [str(top / "offices" / "aw_post"), "FILE", "PLACES"], spec
    yield "aw_guard FILE ..", [str(top / "offices" / "aw_guard"), "FILE", "lab", "person=127.0.0.1:8401"], spec
    yield "aw_guard --systems FILE", [str(top / "offices" / "aw_guard"), "--systems", "FILE", "SPEC", "lab", "person=127.0.0.1:8401"], SYSTEMS
    desk = [str(top / "desk" / "aw_desk"), "--listen", "127.0.0.1:8400"]
    yield "aw_desk FILE ..", [*desk, "FILE", "JOURNAL", "STATE"], spec
    yield "aw_desk .. FILE ..", [*desk, "SPEC", "FILE", "STATE"], data
    yield "aw_desk --logins FILE", [*desk, "--logins", "FILE", "SPEC", "JOURNAL", "STATE"], b"ada:scrypt$32768$8$1$c2FsdHNhbHQ=$a2V5a2V5a2V5a2V5a2V5a2V5a2V5a2V5\n"
    yield "aw_desk --systems FILE", [*desk, "--systems", "FILE", "SPEC", "JOURNAL", "STATE"], SYSTEMS


def companions(aw: str, make: Callable[[bytes], Iterable[bytes]], how: str) -> int:
    """Gives each companion what was made of a good file; how many answers are none that its page has."""
    wrong, data = 0, next(iter(journals(aw).values()))
    for name, words, good in given_to(aw):
        with tempfile.TemporaryDirectory(dir=nodes.FAST) as folder:
            files = {word: str(Path(folder) / word) for word in ("FILE", "SPEC", "JOURNAL", "RESULT", "PLACES", "STATE")}
            Path(files["SPEC"]).write_bytes(data[11:nodes.head_length(data)])
            Path(files["JOURNAL"]).write_bytes(data)
            judged = []
            for number, one in enumerate(make(good)):
                Path(files["FILE"]).write_bytes(one)
                Path(files["RESULT"]).unlink(missing_ok=True)
                judged.append(("input %d" % number, companion([files.get(word, word) for word in words], aw)))
            wrong += told("%s, %s" % (name, how), judged)
    return wrong


def companion(words: list[str], aw: str) -> tuple[str | None, str]:
    """What is wrong with how a companion ends, or nothing; and its status. One that goes on is told to end."""
    process = subprocess.Popen([sys.executable, "-B", *words], stdin=subprocess.DEVNULL, stdout=subprocess.PIPE, stderr=subprocess.PIPE, env={**os.environ, "AW": aw})
    told_to_end = False
    try:
        written, said = process.communicate(timeout=LASTING.get(os.path.basename(words[0]), 60))
    except subprocess.TimeoutExpired:
        told_to_end = True
        process.send_signal(signal.SIGTERM)
        written, said = process.communicate(timeout=60)
    status = process.returncode
    if told_to_end and status in (-signal.SIGTERM, 128 + signal.SIGTERM):
        status = 0
    bad = status < 0 or status > 75 or status == 70 or b"Traceback" in said or (status > 2 and not said + written)
    return ("status %d, %r" % (status, said[-SHOWN:]) if bad else None), str(status)


def killed(aw: str) -> int:
    """Kills companions that change files at each call that changes one: a file is the old one or the new one whole."""
    if not shutil.which("strace"):
        raise living.Sorry("strace is missing: install Debian's package strace.")
    data = next(iter(journals(aw).values()))
    spec = data[11:nodes.head_length(data)]
    unformed = spec.replace(b"(", b"( ", 1)
    offices, forms = living.TOP / "offices", living.TOP / "forms"
    wrong = told("aw_carry_over, killed at each change of a file",
                 kills([str(offices / "aw_carry_over"), "JOURNAL", "SPEC", "RESULT"], {"JOURNAL": data, "SPEC": spec}, "RESULT", aw))
    return wrong + told("aw_fmt -w, killed at each change of a file", kills([str(forms / "aw_fmt"), "-w", "SPEC"], {"SPEC": unformed}, "SPEC", aw))


def kills(words: list[str], files: dict[str, bytes], result: str, aw: str) -> Iterator[tuple[str, tuple[str | None, str]]]:
    """Every kill, up to the run that is not killed any more."""
    calls = "write,pwrite64,rename,renameat,renameat2,link,linkat,unlink,unlinkat,fsync,fdatasync,ftruncate"
    wanted: bytes | None = None
    for at in range(0, 400):
        with tempfile.TemporaryDirectory(dir=nodes.FAST) as folder:
            for name, data in files.items():
                (Path(folder) / name).write_bytes(data)
            inject = ["strace", "-qq", "-o", "/dev/null", "-e", "trace=" + calls, "-e", "inject=%s:signal=SIGKILL:when=%d" % (calls, at)] if at else []
            named = [str(Path(folder) / word) if word in files or word == result else word for word in words]
            status = answer([*inject, sys.executable, "-B", *named], env={"AW": aw}, limit=120)[0]
            place = Path(folder) / result
            now = place.read_bytes() if place.exists() else None
            changed_ = [name for name, data in files.items() if name != result and (Path(folder) / name).read_bytes() != data]
            if not at:
                wanted = now
            fits = not changed_ and now in (files.get(result), wanted)
            yield "call %d" % at, (None if fits else "status %d, %s" % (status, "%s was changed" % changed_[0] if changed_ else "the result is neither old nor new"),
                                   "killed" if status in (-9, 137) else "status %d" % status)
            if at and status == 0:
                return
