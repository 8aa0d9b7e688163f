"""Puts the events of a journal under a specification that only adds behind what stands."""
from __future__ import annotations

import ctypes
import fcntl
import os
import signal
import struct
import subprocess
import tempfile
import time
from dataclasses import dataclass
from pathlib import Path

from aw_forms.command import NO_FILE, parser, read_file, say
from aw_forms.program import SILENT, Sorry, found

NAME = "aw_carry_over"
WHAT = "Puts the events of a journal under a specification that only adds behind what stands."
BEHIND = """
The node of JOURNAL has to be stopped. SPECIFICATION may have more roles, constructors, sorts and rules, each behind those of its form that
stand, and more lines of the other forms; each line that stands stays, and those four in their order. RESULT is a new file, which a node
started with SPECIFICATION opens; JOURNAL is left as it is. Do it for the journal of every role before one of the nodes is started.

The program itself reads both specifications, writes the new head, and opens both journals, each in a copy.

Ends with
    0   RESULT is written
    2   the words are none of the above
    65  the specification changes or takes away what stands, or the program refuses it or the journal; nothing is written
    66  a file can't be read
    69  the program is not there, or its port is taken
    73  RESULT can't be written, or is there
    75  a node serves JOURNAL

Example
    aw_carry_over front/workspace.journal new.aw front/new.journal
"""
JOURNAL = "workspace.journal"
BY_POSITION = ("role", "con", "sort", "rule")
REFUSED, NOT_THERE, NOT_WRITTEN, SERVED = 65, 69, 73, 75
HEAD, NO_SESSION, OPENED_WITHIN = 11, 9, 600.0
LIBC = ctypes.CDLL(None)
REASONS = {3: "a line of the specification is faulty; `aw check` tells which", 4: "the specification is circular; `aw check` tells where",
           13: "an event in the journal does not fit the specification"}


@dataclass(frozen=True, slots=True)
class Journal:
    """The parts of a journal: the role, the specification as the program writes it, and the bytes behind the head."""

    role: int
    specification: bytes
    records: bytes

    def lines(self) -> list[str]:
        """The lines of the specification."""
        return self.specification.decode("utf-8", "surrogateescape").splitlines()

    def role_name(self) -> str:
        """The name of the role."""
        roles = [line.split()[1] for line in self.lines() if line.startswith("role ")]
        if self.role >= len(roles):
            raise Sorry("The journal is of a role that its specification does not declare; it was altered.", REFUSED)
        return roles[self.role]

    def bytes(self) -> bytes:
        """The file."""
        return struct.pack(">BHQ", 1, self.role, len(self.specification)) + self.specification + self.records


def journal(data: bytes, name: str) -> Journal:
    """The parts of a file."""
    if len(data) < HEAD or data[0] != 1:
        raise Sorry("%s is no journal, or one without a head, in which nothing is kept." % name, REFUSED)
    role, length = struct.unpack_from(">HQ", data, 1)
    if len(data) < HEAD + length:
        raise Sorry("%s is no whole journal: its head says more than stands there." % name, REFUSED)
    return Journal(role, data[HEAD:HEAD + length], data[HEAD + length:])


def unlocked(name: str) -> bytes:
    """The bytes of a journal that no node serves."""
    if os.path.exists(name) and not os.path.isfile(name):
        raise Sorry("%s can't be read: it is no plain file." % name, NO_FILE)
    read_file(name, 0)
    with open(name, "rb") as file:
        try:
            fcntl.flock(file, fcntl.LOCK_SH | fcntl.LOCK_NB)
        except OSError:
            raise Sorry("A node serves %s; stop it first." % name, SERVED) from None
        return read_file(name, -1)


def listens(pid: int) -> bool:
    """Whether a process waits for a session."""
    try:
        own = {os.readlink("/proc/%d/fd/%s" % (pid, fd)) for fd in os.listdir("/proc/%d/fd" % pid)}
        lines = Path("/proc/%d/net/tcp" % pid).read_text(encoding="ascii").splitlines()[1:]
    except OSError:
        return False
    return any(line.split()[3] == "0A" and "socket:[%s]" % line.split()[9] in own for line in lines)


def ends_with_us() -> None:
    """Has a child end with this process, so that none is left that holds a port."""
    LIBC.prctl(1, signal.SIGKILL)


def opened(role: str, specification: bytes, kept: bytes | None) -> bytes:
    """The journal that a node leaves which was started on some bytes, or on none, and ended as soon as it waits for a session."""
    with tempfile.TemporaryDirectory() as folder, tempfile.TemporaryFile() as text:
        text.write(specification)
        text.seek(0)
        if kept is not None:
            (Path(folder) / JOURNAL).write_bytes(kept)
        node = subprocess.Popen([str(found()), "node", role, "1", "kept"], stdin=text, stdout=subprocess.PIPE, cwd=folder, preexec_fn=ends_with_us)
        try:
            ends = time.monotonic() + OPENED_WITHIN
            while node.poll() is None and not listens(node.pid):
                if time.monotonic() > ends:
                    raise Sorry("A node of %s did not wait for a session within %g seconds; nothing is written." % (role, OPENED_WITHIN), REFUSED)
                time.sleep(0.01)
        finally:
            node.terminate()
            told = node.communicate()[0].decode("utf-8", "replace").split("\n")[0]
        if node.returncode == NO_SESSION:
            raise Sorry("The port of %s is taken on this machine; stop its node first." % role, NOT_THERE)
        if node.returncode > 0:
            why = REASONS.get(node.returncode, SILENT.get(node.returncode, "docs/OPERATING.md tells its statuses"))
            raise Sorry("A node of %s ended with status %d%s: %s." % (role, node.returncode, told and " (%s)" % told, why), REFUSED)
        return (Path(folder) / JOURNAL).read_bytes()


def of_form(lines: list[str], form: str) -> list[str]:
    """The lines of a form."""
    return [line for line in lines if line.split()[0] == form]


def check_adds(before: list[str], after: list[str]) -> None:
    """Raises where a specification does more than add behind what stands."""
    for form in BY_POSITION:
        old, new = of_form(before, form), of_form(after, form)
        at = next((at for at, line in enumerate(old) if at >= len(new) or new[at] != line), None)
        if at is not None:
            there = "`%s` stands in its place" % new[at] if at < len(new) else "it is gone"
            raise Sorry("The line `%s` has to stay number %d of its form: %s. Put new lines behind those that stand, and change none." % (old[at], at + 1, there), REFUSED)
    gone = [line for line in before if line not in set(after)]
    if gone:
        raise Sorry("The line `%s` has to stay." % gone[0], REFUSED)


def carried(data: bytes, name: str, specification: bytes) -> bytes:
    """The journal under the new specification."""
    role = journal(data, name).role_name()
    old = journal(opened(role, journal(data, name).specification, data), name)
    head = journal(opened(role, specification, None), "The new journal")
    check_adds(old.lines(), head.lines())
    result = Journal(head.role, head.specification, old.records).bytes()
    if opened(role, specification, result) != result:
        raise Sorry("A node that opens the result does not take all its events; nothing is written.", REFUSED)
    return result


def write_new(name: str, data: bytes) -> None:
    """Writes a file that is not there yet, for its owner alone, and syncs it."""
    beside = name + ".new-%d" % os.getpid()
    try:
        with open(os.open(beside, os.O_WRONLY | os.O_CREAT | os.O_EXCL, 0o600), "wb") as file:
            file.write(data)
            file.flush()
            os.fsync(file.fileno())
        os.link(beside, name)
        folder = os.open(os.path.dirname(os.path.abspath(name)), os.O_RDONLY)
        os.fsync(folder)
        os.close(folder)
    except FileExistsError:
        raise Sorry("%s is there already; name a file that is not." % name, NOT_WRITTEN) from None
    except OSError as error:
        raise Sorry("%s can't be written: %s." % (name, (error.strerror or str(error)).lower()), NOT_WRITTEN) from None
    finally:
        Path(beside).unlink(missing_ok=True)


def main(given: list[str]) -> int:
    """The command."""
    said = parser(NAME, WHAT, BEHIND)
    said.add_argument("journal", metavar="JOURNAL", help="the journal of a node that is stopped")
    said.add_argument("specification", metavar="SPECIFICATION", help="the specification with more")
    said.add_argument("result", metavar="RESULT", help="where the journal under it is written; a new file")
    words = said.parse_args(given)
    if os.path.lexists(words.result):
        raise Sorry("%s is there already; name a file that is not." % words.result, NOT_WRITTEN)
    result = carried(unlocked(words.journal), words.journal, read_file(words.specification))
    write_new(words.result, result)
    say("%s: %d bytes of records under the new specification\n" % (words.result, len(journal(result, words.result).records) - 1))
    return 0
