#!/usr/bin/env python3
"""cuts.py BIN [--beside OTHER] [--only WORD..] [FILE..]
   cuts.py BIN --program aw_book [--aw AW]
   cuts.py BIN --program companions

Cuts inputs after each byte, runs the commands on what is left, and looks at each answer:

- no run ends by a signal or takes more than ten seconds;
- the status, and the line of a refusal, are those of the second reader in reading.py;
- what is told of the events before the last is the front of what is told of all that are left, and of the whole input;
- a refused line is the last line of what is left.

Cuts what three nodes are sent after each byte too: each frame that stands whole is answered as in the whole session, and the node's line tells
how many there were and how the session ended; where the node is kept, its journal has the events that were answered and no other.

With `--beside` each answer also has to be that of another program of the same commands. `--only` takes words of `check`, `plain`, `replay`,
`node`, `kept`. Prints the counts, and each run that differs. Without FILE the inputs are the examples.

With `--program aw_book` BIN is that program, and journals of real nodes are cut after each byte: each command has to say how such a file stands, as a
second reader of the format has it, to write the events that count, and to leave the file. With `--program companions` BIN is aw, and the companions
in Python are given cut specifications, journals and places: each ends with a status of its page, and none with a traceback.
"""
import argparse
import os
import re
import subprocess
import sys
from collections import Counter
from concurrent.futures import ThreadPoolExecutor

sys.dont_write_bytecode = True
import nodes
import readers
import reading
import sessions

HERE = os.path.dirname(os.path.abspath(__file__))
EXAMPLES = ["clinical-test.aw", "editorial-review.aw", "insurance-claim.aw", "task-note.aw", "insurance-claim-typed.aw", "repair-order.aw",
            "tutorial/apart.aw", "tutorial/waiting.aw"]
COMMANDS = ("check", "plain", "replay")
LINE = re.compile(r"bad (specification|schedule) line (\d+) [a-z]+\Z")


def answer(binary, command, data):
    run = subprocess.run([binary, command], input=data, stdout=subprocess.PIPE, timeout=10)
    return run.returncode, run.stdout


def transcript(written):
    """What stands before the ending, or nothing where there is none."""
    ending = re.search(rb"^(artifacts|undelivered) \d+\n", written, re.M)
    return written[:ending.start()] if ending else None


class Cutting:
    """An input that is cut, and a command that is run on what is left."""

    def __init__(self, binary, command, data, other=None):
        self.binary, self.command, self.data, self.other = binary, command, data, other
        self.one_role = answer(binary, "replay", b"role a\nrole b\n")[0] == 3
        self.status, self.whole = answer(binary, command, data)

    def differs(self, length):
        """What is wrong with the answer to the input cut to a length, or nothing; and the kind of answer."""
        left = self.data[:length]
        status, written = answer(self.binary, self.command, left)
        if self.other and answer(self.other, self.command, left) != (status, written):
            return "the other program answers %r" % (answer(self.other, self.command, left),), None
        wanted, line = reading.refusal(left, self.command, self.one_role)
        if status != wanted:
            return "status %d for %d, %r" % (status, wanted, written[:80]), None
        if line is not None:
            return self.refused(left, written, line)
        if self.command == "check":
            wrong = written != reading.accepted(left).encode()
        else:
            wrong = not self.is_front(left, written)
        return ("%r is not what is wanted" % written[-200:] if wrong else None), "0 good"

    def refused(self, left, written, line):
        if written != (line + "\n").encode():
            return "%r for %r" % (written, line), None
        told, last = LINE.match(line), len(reading.lines_of(left))
        if told and int(told[2]) != last:
            return "line %s is not the last of %d" % (told[2], last), None
        return None, "%s %s" % (reading.refusal(left, self.command, self.one_role)[0], line.split()[-1] if told else line)

    def is_front(self, left, written):
        """Whether what is told without the last line is the front of what is told with it, and of the whole."""
        told = transcript(written)
        if told is None or self.status != 0:
            return told is not None
        before = left[:left[:-1].rfind(b"\n") + 1]
        first = transcript(answer(self.binary, self.command, before)[1]) or b""
        return told.startswith(first) and transcript(self.whole).startswith(first)


def cut(binary, path, command, other=None):
    """Cuts one input at every byte. The whole's status, the counts of answers, and what differs."""
    with open(path, "rb") as file:
        cutting = Cutting(binary, command, file.read(), other)
    counts, wrong = Counter(), []
    with ThreadPoolExecutor(2) as pool:
        for length, (fault, kind) in enumerate(pool.map(cutting.differs, range(len(cutting.data) + 1))):
            counts[kind or "wrong"] += 1
            if fault:
                wrong.append("%s %s cut to %d bytes: %s" % (command, os.path.basename(path), length, fault))
    return cutting.status, len(cutting.data) + 1, counts, wrong


def tell(what, runs, counts, wrong):
    """Prints how often each answer came, and the first answers that differ. How many differ."""
    print("%s, %d runs: %s" % (what, runs, ", ".join("%s: %d" % pair for pair in sorted(counts.items()))), flush=True)
    for line in wrong[:20]:
        print("  " + line)
    return len(wrong)


def finish(faults):
    """Ends with 1 where an answer differed."""
    print("%d runs differ" % faults)
    sys.exit(1 if faults else 0)


class CutSession:
    """A node whose sessions, as one, are cut."""

    def __init__(self, binary, asked, kept, other=None):
        self.binary, self.asked, self.other = binary, asked, other
        self.words = ["node", asked.role, "1"] + ["kept"] * kept
        self.data = b"".join(asked.sessions())
        self.frames = nodes.split(self.data)
        self.whole = self.serve(binary, self.data)
        self.replies = nodes.split(self.whole.replies[0])

    def serve(self, binary, data):
        return nodes.serve(binary, self.words, self.asked.text, [data])

    def wanted(self, length):
        """How many frames stand whole in so many bytes, and how the session ends."""
        count, end = 0, 0
        while count < len(self.frames) and end + len(self.frames[count]) <= length:
            end += len(self.frames[count])
            count += 1
        if length == end:
            return count, "end"
        return count, "bad" if self.data[end] not in (nodes.PUSH, nodes.CHOOSE, nodes.PULL, nodes.LIST) else "cut"

    def differs(self, length):
        """What is wrong with how the session is served that is cut to a length, or nothing; and how it ended."""
        count, how = self.wanted(length)
        served = self.serve(self.binary, self.data[:length])
        replies = b"".join(self.replies[:count]) + (nodes.frame(9, b"") if how == "bad" else b"")
        if (served.status, served.written) != (0, b"session 1 frames %d %s\n" % (count, how.encode())):
            return "status %s, %r for %d %s" % (served.status, served.written, count, how), None
        if served.replies != [replies]:
            return "replies %r for %r" % (served.replies, replies), None
        if served.journal is not None and not self.is_kept(served.journal, count):
            return "the journal has %d events" % len(nodes.events(served.journal)[0]), None
        if self.other:
            beside = self.serve(self.other, self.data[:length])
            if (beside.status, beside.written, beside.replies, beside.journal) != (0, served.written, served.replies, served.journal):
                return "the other program answers %r" % beside, None
        return None, how

    def is_kept(self, journal, count):
        """Whether the events are those of the frames, of so many, that were answered `taken` or `new`, and nothing stands behind them."""
        kept = [frame[5:] for frame, reply in zip(self.frames[:count], self.replies) if reply in (nodes.frame(6, b"taken"), nodes.frame(1, b""))]
        found, counted = nodes.events(journal)
        return [event[1:] for event in found] == kept and counted == journal


def cut_sessions(binary, kept, other):
    faults = 0
    for asked in sessions.ASKED:
        cutting, counts, wrong = CutSession(binary, asked, kept, other), Counter(), []
        for length in range(len(cutting.data) + 1):
            fault, how = cutting.differs(length)
            counts[how or "wrong"] += 1
            if fault:
                wrong.append("cut to %d bytes: %s" % (length, fault))
        faults += tell("node%s: %s" % (" kept" * kept, asked.name), len(cutting.data) + 1, counts, wrong)
    return faults


def main():
    parser = argparse.ArgumentParser(description=__doc__, formatter_class=argparse.RawDescriptionHelpFormatter)
    parser.add_argument("binary")
    parser.add_argument("files", nargs="*")
    parser.add_argument("--beside")
    parser.add_argument("--only", action="append", choices=(*COMMANDS, "node", "kept"))
    readers.word_of(parser)
    arguments = parser.parse_intermixed_args()
    if arguments.program_is != "aw":
        finish(readers.cuts(*readers.both(arguments)))
    binary, only = os.path.abspath(arguments.binary), arguments.only or (*COMMANDS, "node", "kept")
    other = arguments.beside and os.path.abspath(arguments.beside)
    faults = 0
    for path in arguments.files or [os.path.join(HERE, "..", "examples", name) for name in EXAMPLES]:
        for command in COMMANDS:
            if command in only:
                status, runs, counts, wrong = cut(binary, path, command, other)
                faults += tell("%s %s (whole: %d)" % (command, os.path.basename(path), status), runs, counts, wrong)
    for kept in (False, True):
        if ("kept" if kept else "node") in only:
            faults += cut_sessions(binary, kept, other)
    finish(faults)


if __name__ == "__main__":
    nodes.alone()
    readers.guarded(main)
