"""What the scripts share that run nodes and couriers: requests in the words of the transcript, sessions at this machine's ports, journals as
docs/JOURNAL.md has them, and a network of their own."""
import os
import re
import shutil
import socket
import struct
import subprocess
import sys
import tempfile
import threading
import time
from dataclasses import dataclass, field

sys.dont_write_bytecode = True
HERE = os.path.dirname(os.path.abspath(__file__))
sys.path.insert(0, os.path.join(HERE, "..", "examples"))
from client import FIRST_PORT, Names, Words

PUSH, CHOOSE, PULL, LIST = 1, 2, 3, 4
JOURNAL = "workspace.journal"
# A folder in memory, where there is one: journals are synced often.
FAST = "/dev/shm" if os.path.isdir("/dev/shm") else None


def alone():
    """Begins this script anew in a network of its own, where the system lets it; else the ports from 7400 on have to be free."""
    if os.environ.get("BENCH_ALONE") or not shutil.which("unshare") or not shutil.which("ip"):
        return
    inner = ["unshare", "-n", "sh", "-c", 'ip link set lo up && exec "$@"', "sh"]
    if subprocess.run(inner + ["true"], capture_output=True).returncode == 0:
        os.environ["BENCH_ALONE"] = "1"
        os.execvp(inner[0], inner + [sys.executable] + sys.argv)


# Requests.

def frame(kind, payload):
    return struct.pack(">BI", kind, len(payload)) + payload


def place(kind, number):
    return frame(kind, struct.pack(">Q", number))


def arguments_of(words):
    terms = words.several(words.ground, "{", "}") if words.tokens else []
    words.end()
    return bytes([len(terms)]) + b"".join(terms)


def request(names, line):
    """The frame of a line: `start SORT CASE`, `choose TASK RULE {..}`, `push to ROLE ..`, `pull PLACE`, `list PLACE`."""
    kind, _, behind = line.partition(" ")
    words = Words(names, behind)
    if kind == "start":
        return frame(CHOOSE, b"\x00" + struct.pack(">H", names.number("sort", words.take("a sort"))) + struct.pack(">Q", words.number()))
    if kind == "choose":
        node, rule = words.node(), names.number("rule", words.take("a rule"))
        return frame(CHOOSE, b"\x01" + node + struct.pack(">H", rule) + arguments_of(words))
    if kind == "push":
        return frame(PUSH, words.message()[1])
    return place({"pull": PULL, "list": LIST}[kind], words.number())


def requests(names, lines):
    return [request(names, line.strip()) for line in lines.strip().splitlines()]


def split(data):
    """The frames, or replies, that stand whole at the front of some bytes."""
    found, at = [], 0
    while at + 5 <= len(data):
        end = at + 5 + struct.unpack_from(">I", data, at + 1)[0]
        if end > len(data):
            break
        found.append(data[at:end])
        at = end
    return found


# Sessions.

def has_ended(process):
    """Whether it ended; how is still to be asked for."""
    return os.waitid(os.P_PID, process.pid, os.WEXITED | os.WNOHANG | os.WNOWAIT) is not None


def connect(port, process, limit=20):
    """A session at a port, as soon as somebody listens there; None where the process ends before."""
    until = time.monotonic() + limit
    while time.monotonic() < until:
        try:
            return socket.create_connection(("127.0.0.1", port), timeout=60)
        except OSError:
            if has_ended(process):
                return None
            time.sleep(0.0005)
    raise TimeoutError("nobody listens at port %d" % port)


def send_all(peer, data):
    try:
        peer.sendall(data)
        peer.shutdown(socket.SHUT_WR)
    except OSError:
        pass


def receive_all(peer, keep=True):
    """What comes until the session ends; its length alone where it is not to be kept."""
    got, length = [], 0
    try:
        while True:
            piece = peer.recv(1 << 18)
            if not piece:
                break
            length += len(piece)
            if keep:
                got.append(piece)
    except OSError:
        pass
    return b"".join(got) if keep else length


def session(port, data, process, keep=True):
    """The replies in one session; None where there was none any more."""
    peer = connect(port, process)
    if peer is None:
        return None
    sender = None
    if len(data) < 60_000:
        send_all(peer, data)
    else:
        sender = threading.Thread(target=send_all, args=(peer, data), daemon=True)
        sender.start()
    got = receive_all(peer, keep)
    peer.close()
    if sender:
        sender.join(10)
    return got


# Processes.

def started(words, text, folder=None, env=None, begin=None):
    """A process that reads this text. What it writes goes to a file, so that it never waits for a reader."""
    with tempfile.TemporaryFile() as source:
        source.write(text)
        source.seek(0)
        written = tempfile.TemporaryFile()
        process = subprocess.Popen(words, stdin=source, stdout=written, stderr=subprocess.DEVNULL, cwd=folder, env=env, preexec_fn=begin)
    process.written = written
    return process


@dataclass
class Ended:
    """How a process ended: its status, what it wrote, and seconds of the processor."""
    status: int
    written: bytes
    seconds: float


def ended(process, limit=60):
    """Waits for the end. Status None where it took too long, in which case it is killed."""
    timer = threading.Timer(limit, process.kill)
    timer.daemon = True
    timer.start()
    _, code, used = os.wait4(process.pid, 0)
    late = not timer.is_alive()
    timer.cancel()
    process.returncode = os.waitstatus_to_exitcode(code)
    with process.written as file:
        file.seek(0)
        return Ended(None if late else process.returncode, file.read(), used.ru_utime + used.ru_stime)


@dataclass
class Served:
    """How a node ended, the replies in its sessions, and its journal where it has one."""
    status: int
    written: bytes
    replies: list = field(default_factory=list)
    journal: bytes = None


def port_of(names, role):
    return FIRST_PORT + names.number("role", role)


def serve(binary, words, text, sessions, journal=None, env=None, limit=60):
    """Runs a node (`words` from the word `node` on) in a folder of its own, and asks it these sessions."""
    port = port_of(Names(text.decode("utf-8", "surrogateescape")), words[1])
    with tempfile.TemporaryDirectory(dir=FAST) as folder:
        path = os.path.join(folder, JOURNAL)
        if journal is not None:
            with open(path, "wb") as file:
                file.write(journal)
        process = started([binary, *words], text, folder, env)
        replies = []
        for data in sessions:
            got = session(port, data, process)
            if got is None:
                break
            replies.append(got)
        end = ended(process, limit)
        kept = None
        if os.path.exists(path):
            with open(path, "rb") as file:
                kept = file.read()
        return Served(end.status, end.written, replies, kept)


def log_lines(written):
    """For each session the frames that were handled and how it ended."""
    return [(int(frames), how.decode()) for frames, how in re.findall(rb"^session \d+ frames (\d+) (\w+)$", written, re.M)]


# Journals.

def head_length(journal):
    """Where the first gate behind the head stands; None where there is no whole head."""
    if len(journal) < 11 or journal[0] != 1:
        return None
    end = 11 + struct.unpack_from(">Q", journal, 3)[0]
    return end if end <= len(journal) else None


def events(journal):
    """The events of a journal, those that count, and the bytes from its start through the closed gate behind the last."""
    at = head_length(journal) if journal else None
    if at is None:
        return [], b""
    found = []
    while at < len(journal) and journal[at] == 1 and at + 9 <= len(journal):
        end = at + 9 + struct.unpack_from(">Q", journal, at + 1)[0]
        if end >= len(journal):
            break
        found.append(journal[at + 9:end])
        at = end
    return found, journal[:at] + b"\x00"
