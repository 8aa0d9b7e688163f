#!/usr/bin/env python3
"""run.py BIN [--only WORD] [--runs N] [--limit SECONDS] [--memory MIB]

Runs the program on inputs of growing size and prints a table in Markdown: the least processor time of some runs, the
least time by the clock, the most memory, and how the processor time grows from one size to the next. A status that is
neither the one that the language calls for nor that of want of memory is marked with `!`, and makes this script end
with 1. Needs GNU time.
"""
import argparse
import dataclasses
import math
import os
import resource
import subprocess
import sys
import tempfile
import time

sys.dont_write_bytecode = True
import inputs

SECTIONS = (("growing", inputs.growing), ("at limits", inputs.at_limits), ("filling", inputs.filling),
            ("slow", inputs.slow))


def limit(arguments):
    """Limits the process to come."""
    resource.setrlimit(resource.RLIMIT_CPU, (arguments.limit, arguments.limit))
    if arguments.memory:
        resource.setrlimit(resource.RLIMIT_AS, (arguments.memory << 20, arguments.memory << 20))


@dataclasses.dataclass
class Measured:
    """Seconds of the processor and by the clock, KiB held, and the status; none where the run was killed."""
    processor: float
    clock: float
    memory: int
    status: int


def measure(binary, command, path, arguments):
    with tempfile.NamedTemporaryFile("r") as told, open(path, "rb") as source:
        begun = time.perf_counter()
        run = subprocess.Popen(["/usr/bin/time", "-q", "-f", "%M", "-o", told.name, binary, command], stdin=source,
                               stdout=subprocess.DEVNULL, stderr=subprocess.DEVNULL,
                               preexec_fn=lambda: limit(arguments))
        _, code, used = os.wait4(run.pid, 0)
        clock = time.perf_counter() - begun
        run.returncode = status = os.waitstatus_to_exitcode(code)
        return Measured(used.ru_utime + used.ru_stime, clock, int(told.read() or 0), status if 0 <= status < 128 else None)


def best(binary, command, path, arguments):
    """The least times and the most memory of some runs. A run that takes more than five seconds is not repeated."""
    found = measure(binary, command, path, arguments)
    for _ in range(arguments.runs - 1):
        if found.status is None or found.processor > 5:
            break
        again = measure(binary, command, path, arguments)
        found = Measured(min(found.processor, again.processor), min(found.clock, again.clock),
                         max(found.memory, again.memory), again.status)
    return found


def growth(before, now):
    """The power of the size with which the time grew, where both times are long enough to tell."""
    if before is None or now is None or before[1] < 0.02 or now[0] <= before[0]:
        return ""
    return "%.1f" % (math.log(now[1] / before[1]) / math.log(now[0] / before[0]))


def row(given, command, size, found, power):
    if found.status is None:
        status, took = "none", "> %d | > %d" % (found.processor, found.clock)
    else:
        fits = found.status in (given.status, inputs.NO_MEMORY)
        status = str(found.status) if fits else "%d ! not %d" % (found.status, given.status)
        took = "%.3f | %.3f" % (found.processor, found.clock)
    return "| %s | %s %s | `%s` | %.2f | %s | %s | %.1f | %s |" % (
        given.family, "{:,}".format(given.size) if given.size else "all", given.unit, command, size / 2 ** 20, status,
        took, found.memory / 1024, power)


def table(section, binary, arguments):
    """Prints the rows of a section. Whether each status was the one that is called for."""
    good, last = True, {}
    for given in section():
        if arguments.only not in given.family:
            continue
        data = given.data()
        with tempfile.NamedTemporaryFile() as source:
            source.write(data)
            source.flush()
            for command in given.commands:
                found = best(binary, command, source.name, arguments)
                now = (given.size, found.processor) if given.size and found.status is not None else None
                power = growth(last.get((given.family, command)), now)
                last[given.family, command] = now
                good = good and found.status in (given.status, inputs.NO_MEMORY, None)
                print(row(given, command, len(data), found, power), flush=True)
    return good


def main():
    parser = argparse.ArgumentParser(description=__doc__, formatter_class=argparse.RawDescriptionHelpFormatter)
    parser.add_argument("binary")
    parser.add_argument("--only", default="", help="the families with this word in their name")
    parser.add_argument("--runs", type=int, default=3)
    parser.add_argument("--limit", type=int, default=20, help="seconds of the processor after which a run is killed")
    parser.add_argument("--memory", type=int, default=6144, help="MiB that a run may have, 0 for any")
    parser.add_argument("--section", default="", help="one of: " + ", ".join(name for name, _ in SECTIONS))
    arguments = parser.parse_args()
    good = True
    for name, section in SECTIONS:
        if arguments.section in ("", name):
            print("\n| Input | Size | Command | MiB read | Status | Processor s | Clock s | MiB held | Power |")
            print("|---|---|---|---|---|---|---|---|---|", flush=True)
            good = table(section, os.path.abspath(arguments.binary), arguments) and good
    sys.exit(0 if good else 1)


if __name__ == "__main__":
    main()
