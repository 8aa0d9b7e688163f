#!/usr/bin/env python3
"""faults.py BIN [--first N] [--more N] [--only WORD..]
   faults.py BIN --program aw_book [--aw AW] [--first N]
   faults.py BIN --program companions

Makes each call of the program fail in turn, takes its memory away, and gives it broken input and output, in every command. What has to come is
in docs/SCHEDULE.md ("Statuses") and docs/JOURNAL.md:

- an allocation that fails: status 10 and nothing written, or the answer unchanged;
- a read that fails: status 7 and nothing written; a write that fails: status 8 and a beginning of the answer;
- a call on the network that fails: status 9 and nothing written; but a read or write in a node's session ends that session alone, and the rest is
  as where its peer had ended it;
- a call of the disk that fails, or at which the program is killed: status 12 and nothing written; and whatever a crash leaves of the journal has
  what was answered when it is opened again;
- moves of one byte: the answer unchanged.

Where an input has more calls than the first thousand (`--first`), of those behind every Nth is made to fail, so that at most 500 (`--more`) are.
Each fails once alone, and once with all behind it. `--only` takes words of `check`, `plain`, `replay`, `trial`, `node`, `kept`, `courier`, `pieces`,
`ends`, `limits`. Prints the counts, and each run that differs. Needs cc, for faulty.c; nodes are in a network of their own where the system lets
them, else the ports from 7400 on have to be free.

With `--program aw_book` BIN is that program, and of each of its commands the first calls fail: an allocation (status 5), a call on the file (3), and
a write (4); or the answer is unchanged. With `--program companions` BIN is aw, and the companions that change files are killed at each such call:
each file is the old one or the new one whole (needs strace; the post is killed by month.py and by ci/nightly).
"""
import argparse
import os
import resource
import subprocess
import sys
import tempfile
from collections import Counter
from concurrent.futures import ThreadPoolExecutor

sys.dont_write_bytecode = True
import edge
import inputs
import nodes
import readers
import served
import sessions

HERE = os.path.dirname(os.path.abspath(__file__))
READ_FAULT, WRITE_FAULT, NO_MEMORY, USAGE = 7, 8, 10, 2

MEMO = open(os.path.join(HERE, "..", "crates", "aw_prog", "stdin"), "rb").read()
CLINIC = sessions.example("clinical-test.aw")
CLAIM = sessions.example("insurance-claim-typed.aw")
APART = sessions.example("tutorial/apart.aw")
OWN_RESULT = inputs.text([
    "role r", "con ok 0", "con two 2", "sort top r 0 1", "sort s r 1 2", "start top",
    "rule call : top()<two(y1, y2)> = s(y2)<y1, y2>", "rule body : s(x)<x, ok>", "schedule",
    "start top 1", "choose top#1 call", "choose top#1/call.1 body"])
CIRCULAR = inputs.text([
    "role r", "con ok 0", "sort top r 0 0", "sort s r 1 1", "start top", "rule loop : top()<> = s(y)<y>",
    "rule pass : s(x)<x>"])

CASES = [
    ("a memo", "replay", MEMO),
    ("a node fed by its own result", "replay", OWN_RESULT),
    ("a refused form", "replay", b"con a"),
    ("a refused event", "replay", MEMO + b"choose task#1 note {memo(1, 2)}\n"),
    ("an empty input", "replay", b""),
    ("a wrong word", "play", MEMO),
    ("the replay of an example of two roles", "replay", CLINIC),
    ("the replay of an example with types, with loads", "replay", CLAIM.replace(b"\nschedule\n", b"\nschedule 2\n")),
    ("a worklist", "replay", MEMO + b"start task 2\nlist desk\n"),
    ("ten doublings", "replay", inputs.doubled(10)),
    ("a case of 30 forks", "replay", inputs.tree(30)),
    ("a circle", "check", CIRCULAR),
    ("the dependences of an example", "check", CLINIC),
    ("an example with types", "check", CLAIM),
    ("roles apart, and waiting", "check", APART.replace(b"rule", b"free\nrule", 1)),
    ("the undivided run of an example", "plain", CLINIC),
    ("the undivided run of an example with types", "plain", CLAIM),
    ("a hundred cases", "plain", inputs.visits(100)),
    ("a trial", "trial 0", b""),
    ("another trial", "trial 7", b""),
    ("a trial of the largest number", "trial 18446744073709551615", b""),
]


class Program:
    def __init__(self, binary, shim, jobs):
        self.binary, self.shim, self.jobs = binary, shim, jobs

    def run(self, word, data, **settings):
        """Status, what was written, and how many calls were counted."""
        with tempfile.NamedTemporaryFile() as count, tempfile.TemporaryFile() as source:
            source.write(data)
            source.seek(0)
            env = {"LD_PRELOAD": self.shim, "FAULTY_COUNT": count.name}
            env.update({"FAULTY_" + name.upper(): str(value) for name, value in settings.items()})
            run = subprocess.run([self.binary, *word.split()], stdin=source, stdout=subprocess.PIPE, stderr=subprocess.PIPE,
                                 env=env, timeout=60)
            told = count.read()
            return run.returncode, run.stdout, int(told) if told else -1


class Told:
    """What is wrong, counted and printed."""

    def __init__(self):
        self.judged = self.wrong = 0

    def check(self, good, text):
        self.judged += 1
        if not good:
            self.wrong += 1
            print("  WRONG " + text)


class Spread:
    """Which of some calls are made to fail: the first ones, and of the others every Nth."""

    def __init__(self, first, more):
        self.first, self.more = first, more

    def __call__(self, total):
        """The numbers, from 1, and how they are told."""
        step = max(1, -(-(total - self.first) // self.more))
        numbers = list(range(1, min(total, self.first) + 1)) + list(range(self.first + step, total + 1, step))
        return numbers, "each" if len(numbers) == total else "each of %d, then each %dth" % (self.first, step)


def fail_each(program, told, case, call, spread, good, **settings):
    """Makes each call fail, once alone and once with all behind it. `good` judges an answer."""
    name, word, data = case
    whole = program.run(word, data, call=call, **settings)
    numbers, which = spread(whole[2])
    runs = [(at, rest) for at in numbers for rest in (0, 1)]
    with ThreadPoolExecutor(program.jobs) as pool:
        answers = list(pool.map(lambda run: program.run(word, data, call=call, at=run[0], rest=run[1], **settings), runs))
    kinds = Counter()
    for (at, rest), (status, written, _) in zip(runs, answers):
        kinds["unchanged" if (status, written) == whole[:2] else status] += 1
        told.check(good(at, status, written, whole), "%s: %s %d%s: status %d, %d bytes" % (
            name, call, at, " and all behind it" if rest else "", status, len(written)))
    served.row("`%s`: %s" % (word.split()[0], name), call, settings, whole[2], which, kinds)


def memory_good(at, status, written, whole):
    return (status, written) in ((NO_MEMORY, b""), whole[:2])


def read_good(at, status, written, whole):
    return (status, written) == (READ_FAULT, b"")


def write_good(at, status, written, whole):
    return status == WRITE_FAULT and written == whole[1][:10 * (at - 1)]


def fail_all(program, told, spread, word):
    """Makes each call of a command fail."""
    cases = [case for case in CASES if case[1].split()[0] in (word, "play" if word == "replay" else word)]
    for case in cases:
        fail_each(program, told, case, "memory", spread, memory_good)
    for case in cases:
        if case[1] != "play" and word != "trial":
            fail_each(program, told, case, "read", spread, read_good, piece=40)
    for case in cases:
        fail_each(program, told, case, "write", spread, write_good, piece=10)


def move_one_byte(program, told):
    for name, word, data in CASES:
        whole = program.run(word, data)
        told.check(program.run(word, data, piece=1)[:2] == whole[:2], "%s: one byte at a time" % name)
    print("\nOne byte at a time: %d inputs" % len(CASES))


def limited(binary, word, data, mebibytes):
    """Status and what was written under a limit of address space."""
    with tempfile.TemporaryFile() as source:
        source.write(data)
        source.seek(0)
        run = subprocess.run([binary, word], stdin=source, stdout=subprocess.PIPE, stderr=subprocess.PIPE, timeout=600,
                             preexec_fn=lambda: resource.setrlimit(resource.RLIMIT_AS, (mebibytes << 20,) * 2))
        return run.returncode, run.stdout


def limits_from(least):
    """Limits in MiB, each a quarter larger than the one before."""
    size = least
    while size <= 4096:
        yield size
        size += max(1, size // 4)


LIMITED = [
    ("10,000 cases", "replay", lambda: inputs.visits(10_000), 0),
    ("100,000 cases", "replay", lambda: inputs.visits(100_000), 0),
    ("forty doublings", "replay", lambda: inputs.doubled(40), 6),
    ("a missing value doubled 40 times", "replay", lambda: inputs.doubled_hole(40), 6),
    ("a written term 1,000,000 deep", "check", lambda: inputs.deep_term(1_000_000, True), 3),
    ("a list of 8,000,000 terms", "check", inputs.one_list_of_terms, 3),
]


def limit_memory(binary, told):
    """Runs under limits of memory, from that under which the program starts up to that under which the answer is
    whole."""
    print("\n| Input under a limit of memory | Status 10 up to | Whole from |\n|---|---|---|")
    least = next(size for size in range(1, 64) if limited(binary, "play", b"", size) == (USAGE, b"usage\n"))
    for name, word, make, wanted in LIMITED:
        data, refused, whole = make(), "never", "not up to 4,096 MiB"
        for size in limits_from(least):
            status, written = limited(binary, word, data, size)
            if (status, written) != (NO_MEMORY, b""):
                told.check(status == wanted, "%s under %d MiB: status %d, %d bytes" % (name, size, status, len(written)))
                whole = "%d MiB, status %d" % (size, status)
                break
            refused = "%d MiB" % size
        print("| %s | %s | %s |" % (name, refused, whole), flush=True)


BROKEN = [
    ("standard input closed", "replay", "<&-", READ_FAULT, b""),
    ("a directory as standard input", "replay", "< /", READ_FAULT, b""),
    ("standard input open for writing alone", "replay", "0> /dev/null", READ_FAULT, b""),
    ("standard input closed, a wrong word", "play", "<&-", USAGE, b"usage\n"),
    ("an empty standard input", "replay", "< /dev/null", 0, b"artifacts 0\n"),
    ("standard output closed", "replay", "< MEMO >&-", WRITE_FAULT, b""),
    ("standard output open for reading alone", "replay", "< MEMO 1< /dev/null", WRITE_FAULT, b""),
    ("a full device as standard output", "replay", "< MEMO > /dev/full", WRITE_FAULT, b""),
    ("a full device, a refused input", "replay", "< BAD > /dev/full", WRITE_FAULT, b""),
    ("a full device, a wrong word", "play", "< MEMO > /dev/full", WRITE_FAULT, b""),
    ("a full device, an output that is too large", "replay", "< LARGE > /dev/full", 6, b""),
    ("a full device, an input that is too long", "replay", "< LONG > /dev/full", 11, b""),
]


def break_ends(binary, told):
    """Runs with standard input and output that are no files or pipes in order."""
    print("\n| Ends | Status |\n|---|---|")
    with tempfile.TemporaryDirectory() as folder:
        for name, data in (("MEMO", MEMO), ("BAD", b"con a"), ("LARGE", inputs.doubled(40)),
                           ("LONG", b"\n" * (inputs.INPUT_LIMIT + 1))):
            with open(os.path.join(folder, name), "wb") as file:
                file.write(data)
        for name, word, ends, status, written in BROKEN:
            run = run_shell(binary, word, ends, folder)
            told.check((run.returncode, run.stdout) == (status, written), "%s: status %d for %d, %r" % (
                name, run.returncode, status, run.stdout[:60]))
            print("| %s | %d |" % (name, run.returncode))
        print("| a pipe that is closed after 100 bytes | %d |" % close_early(binary, told, 100))
        print("| a pipe that is closed at once | %d |" % close_early(binary, told, 0))
    without = list(edge.closings(edge.Run(binary)))
    for what, wrong in without:
        told.check(not wrong, "%s: %s" % (what, "; ".join(wrong)))
    print("\nNodes and couriers without some of the standard streams: %d" % len(without))


def run_shell(binary, word, ends, folder):
    return subprocess.run(["/bin/sh", "-c", '"$0" "$1" %s' % ends, binary, word], cwd=folder, timeout=60,
                          stdout=subprocess.PIPE, stderr=subprocess.PIPE)


def close_early(binary, told, length):
    """The status where a reader of two megabytes goes away after some bytes."""
    with tempfile.TemporaryFile() as source:
        source.write(inputs.visits(30_000))
        source.seek(0)
        run = subprocess.Popen([binary, "replay"], stdin=source, stdout=subprocess.PIPE, stderr=subprocess.PIPE)
        if length:
            os.read(run.stdout.fileno(), length)
        run.stdout.close()
        status = run.wait(timeout=60)
        told.check(status == WRITE_FAULT, "a pipe closed after %d bytes: status %d" % (length, status))
        return status


COMMANDS = ("check", "plain", "replay", "trial")
ALL = (*COMMANDS, "node", "kept", "courier", "pieces", "ends", "limits")


def fail_calls(program, told, spread, only):
    print("| Input | Call that fails | Calls | Which | Answers |\n|---|---|---|---|---|")
    for word in COMMANDS:
        if word in only:
            fail_all(program, told, spread, word)
    for word in ("node", "kept"):
        for case in served.node_cases(program.binary, program.shim, word == "kept") if word in only else ():
            served.fail_node(case, told, spread)
    for carried in served.CARRIED if "courier" in only else ():
        served.fail_courier(served.CourierCase(program.binary, program.shim, carried), told, spread)


def main():
    parser = argparse.ArgumentParser(description=__doc__, formatter_class=argparse.RawDescriptionHelpFormatter)
    parser.add_argument("binary")
    parser.add_argument("--first", type=int, default=1000, help="calls of a kind that are all made to fail, for each input")
    parser.add_argument("--more", type=int, default=500, help="and how many of those behind, at most")
    parser.add_argument("--only", nargs="*", default=ALL, choices=ALL, metavar="WORD")
    parser.add_argument("--jobs", type=int, default=2, help="runs beside each other, where they need no network")
    readers.word_of(parser)
    arguments = parser.parse_args()
    if arguments.program_is != "aw":
        wrong = readers.faults(*readers.both(arguments), os.path.join(HERE, "faulty.c"), arguments.first)
        print("%d answers differ" % wrong)
        sys.exit(1 if wrong else 0)
    binary, told, only = os.path.abspath(arguments.binary), Told(), arguments.only
    with tempfile.TemporaryDirectory() as folder:
        shim = os.path.join(folder, "faulty.so")
        subprocess.run(["cc", "-O2", "-shared", "-fPIC", "-o", shim, os.path.join(HERE, "faulty.c")], check=True)
        program = Program(binary, shim, arguments.jobs)
        fail_calls(program, told, Spread(arguments.first, arguments.more), only)
        if "pieces" in only:
            move_one_byte(program, told)
    if "ends" in only:
        break_ends(binary, told)
    if "limits" in only:
        limit_memory(binary, told)
    print("\n%d answers judged, %d differ" % (told.judged, told.wrong))
    sys.exit(1 if told.wrong else 0)


if __name__ == "__main__":
    nodes.alone()
    readers.guarded(main)
