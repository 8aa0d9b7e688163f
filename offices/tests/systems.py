"""Systems of real nodes, with a post and a client: what the tests of several companions share."""
from __future__ import annotations

import contextlib
import json
import os
import re
import subprocess
import sys
import time
from collections.abc import Callable, Iterator
from pathlib import Path
from typing import TYPE_CHECKING

if TYPE_CHECKING:
    from machines import Machine

TOP = Path(__file__).resolve().parent.parent.parent
OFFICES = TOP / "offices"
EXAMPLES = TOP / "examples"
sys.dont_write_bytecode = True
sys.path[:0] = [str(OFFICES), str(TOP / "forms"), str(EXAMPLES)]

import client  # noqa: E402
from aw_offices import frames  # noqa: E402
from aw_offices.specification import FIRST_PORT, offices  # noqa: E402

LONG = 120.0 * float(os.environ.get("PATIENCE", "1"))
BOOK = Path(os.environ.get("AW_BOOK") or TOP / "crates" / "aw_book" / "out" / "aw_book")
FAST = "/dev/shm" if os.path.isdir("/dev/shm") else None


def text_of(example: str) -> str:
    """The specification of an example, without its schedule."""
    return (EXAMPLES / example).read_text(encoding="utf-8").split("\nschedule")[0] + "\n"


CLINIC = text_of("clinical-test.aw")
CLAIM = text_of("insurance-claim.aw")


def until(what: Callable[[], object], why: str | Callable[[], str], limit: float = LONG) -> None:
    """Waits until something holds, and fails where it does not within a generous time; why is asked then. It looks seldom where a look takes
    long: a node has one session at a time, and who lists it all the time keeps its post out."""
    ends = time.monotonic() + limit
    while True:
        began = time.monotonic()
        if what():
            return
        assert began < ends, why if isinstance(why, str) else why()
        time.sleep(max(0.02, 4 * (time.monotonic() - began)))


def tells(command: str) -> bool:
    """Whether `aw_book` is built, and has a command."""
    if not BOOK.is_file():
        return False
    said = subprocess.run([str(BOOK), "--help"], capture_output=True, timeout=LONG, check=False).stdout.decode(errors="replace")
    return re.search(r"(?m)^  %s\b" % command, said) is not None


def begin_visits(system: System) -> None:
    """Starts a clinic and its post, begins three visits, and admits one, of which the laboratory hears."""
    system.start()
    system.start_post()
    for case in (1, 2, 3):
        assert system.choose("start visit %d" % case) == "taken"
    assert system.choose("choose visit#1 admit {\"Ada\", 7, glucose}") == "taken"
    until(lambda: "visit#1/admit.1 measure" in system.ready("lab"), "the letters did not come")


def listens(port: int) -> bool:
    """Whether somebody listens at a port of this machine; opens no session."""
    lines = Path("/proc/net/tcp").read_text(encoding="ascii").splitlines()[1:]
    return any(line.split()[3] == "0A" and int(line.split()[1].split(":")[1], 16) == port for line in lines)


def opened(path: Path) -> bool:
    """Whether somebody listens at a socket of the file system, which is there a moment before; opens no session."""
    lines = [line.split() for line in Path("/proc/net/unix").read_text(encoding="utf-8").splitlines()[1:]]
    return any(words[3] == "00010000" and words[-1] == str(path) for words in lines)


def files_of(process: int) -> Iterator[str]:
    """The files that a process has open; one that it closes meanwhile is left out, and so is all where it ends."""
    with contextlib.suppress(OSError):
        for descriptor in os.listdir("/proc/%d/fd" % process):
            with contextlib.suppress(OSError):
                yield os.readlink("/proc/%d/fd/%s" % (process, descriptor))


class Node:
    """The kept node of a role, in a folder of its own."""

    def __init__(self, system: "System", role: str) -> None:
        self.system, self.role, self.folder = system, role, system.folder / role
        self.folder.mkdir(mode=0o700, exist_ok=True)
        self.process: subprocess.Popen[bytes] | None = None

    @property
    def port(self) -> int:
        return FIRST_PORT + self.system.offices.roles.index(self.role)

    def start(self) -> None:
        """Starts it, and waits until it listens."""
        with open(self.system.spec, "rb") as file:
            words = [*self.system.words(self.role), os.environ["AW"], "node", self.role, "1000000", "kept"]
            self.process = subprocess.Popen(words, stdin=file, stdout=subprocess.DEVNULL, cwd=self.folder)
        until(lambda: self.process.poll() is not None or self.system.listens(self.role, self.port), "no node of %s" % self.role)
        assert self.process.poll() is None, "the node of %s ended with %s" % (self.role, self.process.returncode)

    def kill(self) -> None:
        """Ends it as a power cut does."""
        if self.process is not None:
            self.process.kill()
            self.process.wait()
            self.process = None


class System:
    """The nodes of a specification, their post, and a client that chooses."""

    def __init__(self, text: str, folder: Path) -> None:
        self.folder, self.spec = folder, folder / "form.aw"
        self.spec.write_text(text, encoding="utf-8")
        self.text, self.names, self.offices = text, client.Names(text), offices(text, str(self.spec))
        self.nodes = {role: Node(self, role) for role in self.offices.roles}
        self.running: list[subprocess.Popen[bytes]] = []
        self.lines: list[str] = []
        self.post: subprocess.Popen[bytes] | None = None
        self.machines: dict[str, Machine] = {}

    def words(self, role: str) -> list[str]:
        """What stands before a command that is to run on the machine of a role."""
        return self.machines[role].words() if role in self.machines else []

    def listens(self, role: str, port: int) -> bool:
        """Whether somebody listens at a port of the machine of a role."""
        return self.machines[role].listens(port) if role in self.machines else listens(port)

    def start(self) -> None:
        """Starts every node."""
        for node in self.nodes.values():
            node.start()

    def run(self, *words: str, **more: object) -> subprocess.Popen[bytes]:
        """Runs a program that ends with the test."""
        process = subprocess.Popen(list(words), **more)  # type: ignore[call-overload]
        self.running.append(process)
        return process

    def start_post(self, *words: str, log: str = "post.log", before: list[str] | None = None) -> subprocess.Popen[bytes]:
        """Starts a post that is quick to ask again, and patient with an office that is slow to reply where no other words say so."""
        (self.folder / "post.prom").unlink(missing_ok=True)
        with open(self.folder / log, "ab") as file:
            self.post = self.run(*(before or []), "/usr/bin/python3", str(OFFICES / "aw_post"), str(self.spec), str(self.folder / "places"), "--metrics",
                                 str(self.folder / "post.prom"), "--interval", "0.1", "--longest", "0.4", "--timeout", str(LONG), *words, stderr=file)
        return self.post

    def post_works(self) -> bool:
        """Whether the post has read its words, and goes about its work."""
        assert self.post is not None and self.post.poll() is None, self.log()[-2000:]
        return any(file.endswith("/places.lock") for file in files_of(self.post.pid))

    def kill_post(self) -> None:
        """Kills the post, at whatever it is."""
        assert self.post is not None
        self.post.kill()
        self.post.wait()

    def log(self, name: str = "post.log") -> str:
        """What the post told."""
        return (self.folder / name).read_text(encoding="utf-8")

    def session(self, role: str) -> client.Node:
        """A session with a node."""
        with self.machines[role].inside() if role in self.machines else contextlib.nullcontext():
            try:
                return client.Node(self.names, role, LONG)
            except client.Broken as broken:
                process = self.nodes[role].process
                raise AssertionError("%s (its process: %s)" % (broken, process and (process.poll(), process.pid))) from None

    def ask(self, role: str, kind: int, *payloads: bytes) -> list[tuple[int, bytes]]:
        """The replies of a node to some requests."""
        node = self.session(role)
        try:
            return [node.ask(kind, payload) for payload in payloads]
        finally:
            node.peer.close()

    def asked(self, line: str) -> tuple[str, bytes]:
        """The office that a line of a schedule is for, and what it asks for, in bytes."""
        words = line.split(" ", 3)
        if words[0] == "start":
            role = self.offices.roles[self.offices.homes[self.names.number("sort", words[1])]]
            return role, b"\0" + self.names.number("sort", words[1]).to_bytes(2, "big") + int(words[2]).to_bytes(8, "big")
        said = client.Words(self.names, words[3] if len(words) > 3 else "")
        grounds = said.several(said.ground, "{", "}") if said.tokens else []
        task = client.Words(self.names, "").node_bytes(words[1])
        rule = self.names.number("rule", words[2]).to_bytes(2, "big")
        return self.home(task), b"\1" + task + rule + bytes([len(grounds)]) + b"".join(grounds)

    def choose(self, line: str) -> str:
        """Does what a line of a schedule says, at the office that it is for; the answer."""
        role, data = self.asked(line)
        answer = self.ask(role, frames.CHOOSE, data)[0][1].decode()
        if answer == "taken":
            self.lines.append(line)
        return answer

    def kept(self, role: str) -> list[bytes]:
        """The choices in the journal of a role, in their order, as docs/JOURNAL.md has the file."""
        data = (self.nodes[role].folder / "workspace.journal").read_bytes()
        at, found = 11 + int.from_bytes(data[3:11], "big"), []
        while data[at] == 1:
            end = at + 9 + int.from_bytes(data[at + 1:at + 9], "big")
            if data[at + 9] == 1:
                found.append(data[at + 10:end])
            at = end
        return found

    def joined(self) -> bool:
        """Whether the journals hold each choice that was answered `taken`, once and in its order; and, where `aw_book` is built, whether they
        are joined to the cases of the undivided run, and its tasks are those of all journals."""
        asked = [self.asked(line) for line in self.lines]
        if any(self.kept(role) != [data for home, data in asked if home == role] for role in self.offices.roles):
            return False
        if not tells("cases"):
            return True
        plain = aw("plain", self.text + "schedule\n" + "".join(line + "\n" for line in self.lines)).splitlines()
        rows = plain[next(at for at, line in enumerate(plain) if line.startswith("artifacts ")) + 1:]
        journals = [str(node.folder / "workspace.journal") for node in self.nodes.values()]
        joined = subprocess.run([str(BOOK), "cases", *journals], capture_output=True, timeout=5 * LONG, check=True).stdout.decode().splitlines()
        return joined == rows and sorted(row for role in self.offices.roles for row in self.tasks(role)) == sorted(rows)

    def tasks(self, role: str) -> list[str]:
        """The tasks in the journal of a role with their values, as `aw_book` has them."""
        words = [str(BOOK), "tasks", str(self.nodes[role].folder / "workspace.journal")]
        said = subprocess.run(words, capture_output=True, timeout=5 * LONG, check=True).stdout.decode()
        return [line for line in said.splitlines() if not line.startswith("item ")]

    def home(self, task: bytes) -> str:
        """The role of a task, by its bytes."""
        home = self.offices.home(frames.Items(task).node())
        assert home is not None
        return self.offices.roles[home]

    def all_of(self, role: str, kind: int) -> list[bytes]:
        """The whole outbox or worklist of a node."""
        node, got = self.session(role), []
        try:
            while (reply := node.ask(kind, len(got).to_bytes(8, "big")))[0] != frames.NONE:
                got.append(reply[1])
        finally:
            node.peer.close()
        return got

    def items(self, role: str) -> list[str]:
        """The worklist of a role."""
        return [item.decode() for item in self.all_of(role, frames.LIST)]

    def ready(self, role: str) -> list[str]:
        """Tasks and rules that can be chosen."""
        return [item[5:-6] for item in self.items(role) if item.endswith(" ready")]

    def replayed(self) -> str:
        """What the program writes of the choices that were taken, with every worklist."""
        lines = "".join("%s\nsettle\n" % line for line in self.lines) + "".join("list %s\n" % role for role in self.offices.roles)
        return aw("replay", self.text + "schedule 2\n" + lines)

    def unsettled(self) -> list[str]:
        """The roles whose worklists are not those of the replay."""
        lines = self.replayed().splitlines()
        wrong = []
        for role in self.offices.roles:
            begin = lines.index("list " + role) + 1
            end = next((at for at in range(begin, len(lines)) if not lines[at].startswith("item ")), len(lines))
            if self.items(role) != lines[begin:end]:
                wrong.append(role)
        return wrong

    def carried(self) -> bool:
        """Whether the post has noted every letter of every outbox as carried, and no letter came of it meanwhile."""
        counts = self.letters()
        noted = json.loads((self.folder / "places").read_bytes()) if (self.folder / "places").exists() else {}
        for role in self.offices.roles:
            if any(noted.get("%s %s" % (role, other), [0])[0] != counts[role] for other in self.offices.roles if other != role):
                return False
        return self.letters() == counts

    def letters(self) -> dict[str, int]:
        """How many letters the outbox of each role holds."""
        return {role: len(self.all_of(role, frames.PULL)) for role in self.offices.roles}

    def undelivered(self) -> dict[int, int]:
        """Pushes each letter of each outbox once more: how often each reply came."""
        replies: dict[int, int] = {}
        for role in self.offices.roles:
            for letter in self.all_of(role, frames.PULL):
                kind, _ = self.ask(self.offices.roles[frames.message(letter).to], frames.PUSH, letter)[0]
                replies[kind] = replies.get(kind, 0) + 1
        return replies

    def number(self, name: str) -> float:
        """The sum of a number of the post over its labels."""
        with contextlib.suppress(FileNotFoundError):
            lines = (self.folder / "post.prom").read_text(encoding="utf-8").splitlines()
            return sum(float(line.split()[-1]) for line in lines if line.split("{")[0].split()[0] == name)
        return 0.0

    def end(self) -> None:
        """Ends everything."""
        for process in self.running:
            process.kill()
            process.wait()
        for node in self.nodes.values():
            node.kill()


def aw(word: str, text: str) -> str:
    """What the program writes."""
    return subprocess.run([os.environ["AW"], word], input=text.encode(), capture_output=True, timeout=5 * LONG, check=False).stdout.decode()
