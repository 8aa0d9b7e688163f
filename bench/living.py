"""What month.py and scale.py share: kept nodes and posts as processes, and choices that are asked in sessions."""
from __future__ import annotations

import json
import os
import re
import resource
import shutil
import signal
import socket
import struct
import subprocess
import sys
import tempfile
import threading
import time
from collections.abc import Iterator
from dataclasses import dataclass
from pathlib import Path

sys.dont_write_bytecode = True
import nodes
from client import Names, Shown, Words
from nodes import CHOOSE, JOURNAL, PULL, PUSH
from offices import home_of

HERE = Path(__file__).resolve().parent
TOP = HERE.parent
POST, CARRY_OVER = TOP / "offices" / "aw_post", TOP / "offices" / "aw_carry_over"
NEW, AGAIN, CONFLICT, MESSAGE, NONE = 1, 2, 3, 7, 10
CASE = re.compile(r"#(\d+)")


class Sorry(Exception):
    """Why a script cannot go on, and what to do, in one sentence."""


def program(given: str | None, variable: str, built: str) -> str:
    """Where a program is: what was said, else what a variable names, else where it is built."""
    path = os.path.abspath(given or os.environ.get(variable) or str(TOP / "crates" / built / "out" / built))
    if not os.access(path, os.X_OK):
        raise Sorry('There is no program at "%s"; build it with rt ci, name it, or set the variable %s.' % (path, variable))
    return path


def tells(book: str, command: str) -> bool:
    """Whether the program that reads journals has a command."""
    said = subprocess.run([book, "--help"], capture_output=True, text=True, timeout=60, check=False).stdout
    return re.search(r"(?m)^  %s\b" % command, said) is not None


def takes(book: str, command: str, word: str) -> bool:
    """Whether a command of it takes a word."""
    return word in subprocess.run([book, command, "--help"], capture_output=True, text=True, timeout=60, check=False).stdout


def ran(words: list[str], given: str | None = None, env: dict[str, str] | None = None) -> subprocess.CompletedProcess[str]:
    """A program that has run."""
    return subprocess.run(words, input=given, capture_output=True, text=True, errors="surrogateescape", check=False,
                          env={**os.environ, **(env or {})})


def measured(words: list[str], source: bytes, limit: int, written: Path | None = None) -> tuple[float, int, int | None]:
    """Seconds of the processor, KiB held, and the status of a program; none where it took too long. GNU time tells what it holds, since a process holds
    at first what its parent does. What it writes goes to a file where one is named."""
    with tempfile.TemporaryFile() as file, tempfile.NamedTemporaryFile("r") as told, open(written or os.devnull, "wb") as output:
        file.write(source)
        file.seek(0)
        process = subprocess.Popen(["/usr/bin/time", "-q", "-f", "%M", "-o", told.name, *words], stdin=file, stdout=output, stderr=subprocess.DEVNULL,
                                   preexec_fn=lambda: resource.setrlimit(resource.RLIMIT_CPU, (limit, limit)))
        _, code, used = os.wait4(process.pid, 0)
        process.returncode = status = os.waitstatus_to_exitcode(code)
        return used.ru_utime + used.ru_stime, int(told.read() or 0), status if 0 <= status < 128 else None


@dataclass
class Step:
    """A choice of a case: where it is asked, as a line of a schedule and in bytes, and whether a session broke off in which it was asked."""

    case: int
    role: str
    line: str
    data: bytes
    in_hand: bool = False
    redone: bool = False


def step(text: str, names: Names, case: int, line: str) -> Step:
    """The choice that a line of a schedule says, at the office that it is for."""
    words = line.split(" ", 3)
    if words[0] == "start":
        data = b"\0" + struct.pack(">HQ", names.number("sort", words[1]), int(words[2]))
        return Step(case, home_of(text, words[1]), line, data)
    task = Words(names, "").node_bytes(words[1])
    said = Words(names, words[3] if len(words) > 3 else "")
    grounds = said.several(said.ground, "{", "}") if said.tokens else []
    data = b"\1" + task + struct.pack(">HB", names.number("rule", words[2]), len(grounds)) + b"".join(grounds)
    return Step(case, home_of_rule(text, words[2]), line, data)


def home_of_rule(text: str, rule: str) -> str:
    found = re.search(r"(?m)^rule %s\b[^:]*: *([a-z0-9_]+)" % rule, text)
    assert found is not None, rule
    return home_of(text, found[1])


def bound_of(text: str, rule: str, roles: int) -> int:
    """The most messages that a choice of a rule adds, where each argument is one number or text: a call for each child of another role, and a
    question and an answer for each reference that it makes and each role."""
    found = re.search(r"(?m)^rule %s *(?:\{([^}]*)\})? *: *([a-z0-9_]+)\([^=]*?\)<([^=]*?)> *(?:= *(.*))?$" % rule, text)
    assert found is not None, rule
    fields, sort, results, children = found.groups()
    built = set(re.findall(r"(?m)^con ([a-z0-9_]+)", text))
    made = len(re.findall(r"[a-z][a-z0-9_]*", fields or ""))
    calls = 0
    for child, given, names in re.findall(r"([a-z0-9_]+)\((.*?)\)<([^>]*)>(?: *;|$)", children or ""):
        calls += home_of(text, child) != home_of(text, sort)
        made += len([word for word in re.findall(r"[a-z][a-z0-9_]*|\d+", given) if word in built or word.isdigit()])
        made += len(re.findall(r"[a-z][a-z0-9_]*", names))
    for result in re.split(r",\s*(?![^(]*\))", results):
        symbols = re.findall(r"[a-z][a-z0-9_]*|\d+", result)
        made += len([word for word in symbols[1:] if word in built or word.isdigit()])
    return calls + 2 * made * roles


def held(process: subprocess.Popen[bytes] | None) -> int:
    """The most KiB that a process held; 0 where it has ended."""
    try:
        told = re.search(r"VmHWM:\s+(\d+)", Path("/proc/%d/status" % process.pid).read_text(encoding="ascii")) if process else None
    except OSError:
        return 0
    return int(told[1]) if told else 0


class Office:
    """The kept node of a role, in a folder of its own."""

    def __init__(self, world: World, role: str) -> None:
        self.world, self.role, self.folder = world, role, world.folder / role
        self.folder.mkdir(mode=0o700)
        self.process: subprocess.Popen[bytes] | None = None
        self.held = 0
        self.reopened = 0.0

    @property
    def journal(self) -> Path:
        return self.folder / JOURNAL

    @property
    def port(self) -> int:
        return nodes.port_of(self.world.names, self.role)

    def start(self) -> None:
        """Starts it, and waits until it listens."""
        began = time.monotonic()
        with open(self.world.form, "rb") as file:
            self.process = subprocess.Popen([self.world.binary, "node", self.role, "1000000", "kept"], stdin=file, stdout=subprocess.DEVNULL, cwd=self.folder)
        wanted = ":%04X " % self.port
        while not any(wanted in line and line.split()[3] == "0A" for line in Path("/proc/net/tcp").read_text(encoding="ascii").splitlines()[1:]):
            if self.process.poll() is not None:
                raise Sorry("The node of %s ended with status %d when it was started; see docs/SCHEDULE.md, and whether its port is free." % (self.role, self.process.returncode))
            time.sleep(0.01)
        self.reopened = time.monotonic() - began

    def measured(self) -> int:
        """The most KiB that it held, in all its lives."""
        self.held = max(self.held, held(self.process))
        return self.held

    def kill(self) -> None:
        """Ends it as a power cut does."""
        if self.process is not None:
            self.measured()
            self.process.kill()
            self.process.wait()
            self.process = None

    def ask(self, kind: int, payloads: list[bytes], crash: float | None = None, patience: float = 120) -> list[tuple[int, bytes]] | None:
        """The replies to some requests in one session, as many as came; nothing where nobody listens. With a number for `crash` the node is killed so
        many seconds after they were sent."""
        try:
            peer = socket.create_connection(("127.0.0.1", self.port), timeout=patience)
        except OSError:
            return None
        replies: list[tuple[int, bytes]] = []
        data = b"".join(nodes.frame(kind, payload) for payload in payloads)
        sender = threading.Thread(target=nodes.send_all, args=(peer, data), daemon=True)
        sender.start()
        if crash is not None:
            time.sleep(crash)
            self.kill()
        got = nodes.receive_all(peer)
        peer.close()
        sender.join(10)
        for one in nodes.split(got):
            replies.append((one[0], one[5:]))
        return replies

    def sent(self) -> int:
        """How many letters its outbox has."""
        replies = self.ask(PULL, [struct.pack(">Q", (1 << 64) - 1)])
        if not replies or replies[0][0] != NONE:
            raise Sorry("The node of %s does not tell how many letters it has; was it ended by somebody else?" % self.role)
        return int(struct.unpack(">Q", replies[0][1])[0])

    def letters(self) -> Iterator[bytes]:
        """The letters of its outbox, in pieces of a session each."""
        count, at = self.sent(), 0
        while at < count:
            replies = self.ask(PULL, [struct.pack(">Q", place) for place in range(at, min(at + 2000, count))]) or []
            found = [payload for kind, payload in replies if kind == MESSAGE]
            if not found:
                raise Sorry("The node of %s shows no letter %d; was it ended by somebody else?" % (self.role, at))
            yield from found
            at += len(found)

    def items(self) -> list[str]:
        """The lines of its worklist."""
        found: list[str] = []
        while True:
            replies = self.ask(nodes.LIST, [struct.pack(">Q", len(found) + at) for at in range(2000)]) or []
            more = [payload.decode() for kind, payload in replies if kind == 11]
            found += more
            if len(more) < 2000:
                return found


class Post:
    """A post that carries the letters of some offices."""

    def __init__(self, world: World, number: int, senders: list[str]) -> None:
        self.world, self.name, self.senders = world, "post%d" % number, senders
        self.places, self.log = world.folder / (self.name + ".places"), world.folder / (self.name + ".log")
        self.process: subprocess.Popen[bytes] | None = None

    def start(self) -> None:
        words = [sys.executable, "-B", str(POST), str(self.world.form), str(self.places), "--interval", str(self.world.interval), "--longest", "1", "--timeout", "60"]
        words += [word for role in self.senders for word in ("--from", role)]
        with open(self.log, "ab") as log:
            self.process = subprocess.Popen(words, stdin=subprocess.DEVNULL, stdout=subprocess.DEVNULL, stderr=log)

    def kill(self) -> None:
        if self.process is not None:
            self.process.kill()
            self.process.wait()
            self.process = None

    def ended(self) -> bool:
        """Whether it ended of itself, which it never should."""
        return self.process is not None and self.process.poll() is not None

    def told(self) -> list[str]:
        return self.log.read_text(encoding="utf-8", errors="replace").splitlines() if self.log.exists() else []

    def carried(self, counts: dict[str, int]) -> bool:
        """Whether it has noted each letter of its offices as carried."""
        try:
            noted = json.loads(self.places.read_bytes())
        except (OSError, ValueError):
            noted = {}
        return all(noted.get("%s %s" % (role, other), [0])[0] == counts[role] for role in self.senders for other in counts if other != role)


class World:
    """The offices of a specification, their posts, and the choices that were answered."""

    def __init__(self, binary: str, text: str, folder: Path, posts: int, interval: float = 0.2) -> None:
        self.binary, self.folder, self.form, self.interval = binary, folder, folder / "form.aw", interval
        self.set_form(text)
        roles = self.names.roles
        self.offices = {role: Office(self, role) for role in roles}
        self.posts = [Post(self, number, roles[number::posts]) for number in range(min(posts, len(roles)))]
        self.taken: dict[str, list[Step]] = {role: [] for role in roles}
        self.found: dict[str, list[Step]] = {role: [] for role in roles}
        self.lines: dict[int, list[str]] = {}
        self.wrong: list[str] = []
        self.counted = 0
        self.lock = threading.RLock()

    def set_form(self, text: str) -> None:
        self.text, self.names = text, Names(text)
        self.form.write_text(text, encoding="utf-8")

    def start(self) -> None:
        for one in (*self.offices.values(), *self.posts):
            one.start()

    def stop(self) -> None:
        for one in (*self.posts, *self.offices.values()):
            one.kill()

    def choose(self, role: str, steps: list[Step], crash: float | None = None) -> tuple[list[Step], list[Step], list[Step]]:
        """Asks for some choices in one session: those that are done, those that have to wait, and those that got no reply."""
        replies = self.offices[role].ask(CHOOSE, [one.data for one in steps], crash)
        done: list[Step] = []
        late: list[Step] = []
        for one, (kind, payload) in zip(steps, replies or []):
            answer = payload.decode("utf-8", "replace") if kind == 6 else "reply %d" % kind
            if answer == "taken" or (answer in ("known", "developed") and one.in_hand):
                (self.taken if answer == "taken" else self.found)[role].append(one)
                if not one.redone:
                    self.lines.setdefault(one.case, []).append(one.line)
                done.append(one)
            elif answer == "unknown" or answer.startswith("waits "):
                late.append(one)
            else:
                self.wrong.append("%s: %s is answered %s" % (role, one.line, answer))
        rest = steps[len(replies or []):]
        for one in rest:
            one.in_hand = one.in_hand or replies is not None
        return done, late, rest

    def quiet(self, patience: float) -> bool:
        """Waits until every letter is noted as carried; whether that came about."""
        until = time.monotonic() + patience
        while time.monotonic() < until:
            counts = {role: office.sent() for role, office in self.offices.items()}
            if all(post.carried(counts) for post in self.posts) and counts == {role: office.sent() for role, office in self.offices.items()}:
                return True
            for post in self.posts:
                if post.ended():
                    raise Sorry("%s ended of itself: %s" % (post.name, " ".join(post.told()[-2:])))
            time.sleep(0.5)
        return False

    def pushed_again(self) -> dict[int, list[bytes]]:
        """Brings each letter of each outbox once more, and counts them: those that were not known already, by the replies that came."""
        replies: dict[int, list[bytes]] = {}
        for office in self.offices.values():
            for_whom: dict[int, list[bytes]] = {}
            for letter in office.letters():
                for_whom.setdefault(struct.unpack_from(">H", letter, 1)[0], []).append(letter)
            for to, letters in for_whom.items():
                for at in range(0, len(letters), 2000):
                    piece = letters[at:at + 2000]
                    for letter, (kind, _) in zip(piece, self.offices[self.names.roles[to]].ask(PUSH, piece) or []):
                        self.counted += 1
                        if kind != AGAIN:
                            replies.setdefault(kind, []).append(letter)
        return replies

    def choices_differ(self) -> Iterator[str]:
        """Where a journal has other choices than those that were answered, or in another order."""
        for role, office in self.offices.items():
            kept = [event[1:] for event in nodes.events(office.journal.read_bytes())[0] if event[0] == 1]
            taken = [one.data for one in self.taken[role]]
            direct, all_of = set(taken), set(taken) | {one.data for one in self.found[role]}
            if [data for data in kept if data in direct] != taken:
                yield "the journal of %s has not each choice that was answered taken, in its order" % role
            if len(set(kept)) != len(kept) or set(kept) != all_of:
                yield "the journal of %s has %d choices, and %d were answered" % (role, len(kept), len(all_of))


def words_of(names: Names, letter: bytes) -> str:
    """A letter in the words of a transcript."""
    return str(Shown(names, letter).whole())


def message(names: Names, words: str) -> bytes:
    """A message in bytes, by its words, as `to front tell ..`."""
    return bytes(Words(names, words).message()[1])


def on_end() -> None:
    """Lets a script that is told to end take its processes and folders with it."""
    signal.signal(signal.SIGTERM, lambda *_: sys.exit(143))


def needs() -> None:
    """What has to be installed."""
    for name, package in (("unshare", "util-linux"), ("ip", "iproute2")):
        if not shutil.which(name):
            raise Sorry("%s is missing: install Debian's package %s." % (name, package))
