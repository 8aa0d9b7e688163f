#!/usr/bin/env python3
"""scale.py [--aw AW] [--book AW_BOOK] [--roles N] [--messages N] [--posts N] [--seed N] [--jobs N]
   scale.py --curves [--aw AW] [--book AW_BOOK] [--only WORD] [--limit SECONDS]
   scale.py --plan CASES [figures]

The first form serves so many offices (64), each a kept node in a process of its own, with posts between them, and begins cases, each of which goes
through some of the offices, until so many messages (1,000,000) are sent. Then it says how long that took, how much memory each node held, how many
messages there may be at most by the bound that is proved, how many there were, and how much the journals have; joins the journals and holds the
artifacts to those of `aw plain`; and works out the plan of the third form from these figures.

The second form runs each command on inputs ten times as large as the largest of bench/results/sizes.md, where the 16 MiB of one input allow it, and
what reads journals on journals of 1,000 to 1,000,000 events, as rows of a table.

The third form works out on paper what so many cases take: how much memory the nodes hold, how long a node takes to open its journal, how many bytes
that has, and into how many systems the cases are divided so that each fits a machine and opens soon. Cases do not meet, so each system is one of its
own, and a case's number says in which it is.

Ends with 0 where all held, 1 where something did not, 2 where it could not run. A small one is --roles 8 --messages 1000.
"""
from __future__ import annotations

import argparse
import math
import os
import random
import re
import resource
import struct
import subprocess
import sys
import tempfile
import time
from collections import Counter
from dataclasses import dataclass
from pathlib import Path

sys.dont_write_bytecode = True
import inputs
import joining
import living
import nodes
from clerks import Clerks
from client import Names, Trouble
from living import Sorry, World

GROUP, MOST_OPEN, AT_ONCE, BESIDE = 300, 4000, 500, 16
ROLES = 64


def form(roles: int) -> str:
    """Offices in a ring: each begins cases and hands work to the next and to the seventh behind it."""
    lines = ["role o%d" % i for i in range(roles)] + ["con item 2"]
    lines += ["sort case%d o%d 0 1" % (i, i) for i in range(roles)] + ["sort work%d o%d 1 1" % (i, i) for i in range(roles)]
    lines += ["start case%d" % i for i in range(roles)] + ["offer work%d" % i for i in range(roles)]
    lines += ["use o%d work%d" % (i, at) for i in range(roles) for at in sorted({(i + 1) % roles, (i + 7) % roles} - {i})]
    for i in range(roles):
        lines += ["rule begin%d {a} : case%d()<item(a, y)> = work%d(a)<y>" % (i, i, (i + 1) % roles),
                  "rule pass%d {b} : work%d(x)<item(b, y)> = work%d(item(x, b))<y>" % (i, i, (i + 7) % roles),
                  "rule end%d {b} : work%d(x)<item(x, b)>" % (i, i)]
    return "\n".join(lines) + "\n"


class Ring(Clerks):
    """Cases that go round, each through one to four offices beside its own."""

    def __init__(self, world: World, draw: random.Random) -> None:
        super().__init__(world, AT_ONCE, BESIDE)
        self.draw, self.roles = draw, len(world.names.roles)
        self.rules: Counter[str] = Counter()

    def lines_of(self, case: int) -> list[str]:
        at = self.draw.randrange(self.roles)
        task = "case%d#%d" % (at, case)
        lines = ["start case%d %d" % (at, case), "choose %s begin%d {%d}" % (task, at, self.draw.randrange(1000))]
        task, at = "%s/begin%d.1" % (task, at), (at + 1) % self.roles
        for _ in range(self.draw.randrange(4)):
            lines.append("choose %s pass%d {%d}" % (task, at, self.draw.randrange(1000)))
            task, at = "%s/pass%d.1" % (task, at), (at + 7) % self.roles
        return lines + ["choose %s end%d {%d}" % (task, at, self.draw.randrange(1000))]

    def live(self, messages: int) -> None:
        """Begins cases until so many messages are sent, and sees them through."""
        sent, looked = 0, 0.0
        while sent < messages or self.busy():
            while sent < messages and self.open < min(MOST_OPEN, max(50, messages // 100)):
                self.begin()
            worked = self.work()
            if sent < messages and time.monotonic() > looked + (1 if messages < 10_000 else 5):
                sent, looked = sum(office.sent() for office in self.world.offices.values()), time.monotonic()
            if self.world.wrong:
                return
            if not worked:
                time.sleep(0.05)


@dataclass
class Figures:
    """What was measured: cases, messages and seconds; KiB that a node held, at first, at the end of the busiest and of all together; bytes of the
    largest journal and of all; and seconds of the processor in which the node of the largest one opens it."""

    roles: int
    cases: int
    messages: int
    seconds: float
    first_kib: int
    most_kib: int
    all_kib: int
    most_bytes: int
    all_bytes: int
    opening: float


def plan(figures: Figures, cases: int, machine_mib: int, opening: float) -> list[tuple[str, str]]:
    """What so many cases take by these figures: all grows as the cases do, but for what a node holds at first. A system has a machine for itself, of
    which four fifths are for its nodes, and each of its nodes opens its journal within so many seconds."""
    grown = max(figures.all_kib - figures.roles * figures.first_kib, 1) / figures.cases
    busiest = max(figures.most_kib - figures.first_kib, 1) / figures.cases
    room = machine_mib * 1024 * 0.8 - figures.roles * figures.first_kib
    by_memory = math.ceil(cases * grown / max(room, 1))
    by_opening = math.ceil(cases * figures.opening / figures.cases / opening)
    systems = max(by_memory, by_opening, 1)
    each = math.ceil(cases / systems)
    rate = figures.messages / max(figures.seconds, 0.001)
    whole = cases * figures.messages / figures.cases
    return [
        ("cases", "{:,}".format(cases)),
        ("KiB a case, all nodes together; the busiest node", "%.2f; %.2f" % (grown, busiest)),
        ("GiB that all nodes hold together", "%.1f" % (cases * grown / 2**20)),
        ("GiB of all journals", "%.1f" % (cases * figures.all_bytes / figures.cases / 2**30)),
        ("systems by memory, of machines with %d MiB" % machine_mib, "%d" % by_memory),
        ("systems by opening within %g s" % opening, "%d" % by_opening),
        ("systems; cases in each, by the case's number", "%d; %s" % (systems, "{:,}".format(each))),
        ("MiB that the busiest node of a system holds", "%.0f" % ((figures.first_kib + each * busiest) / 1024)),
        ("MiB of its journal", "%.0f" % (each * figures.most_bytes / figures.cases / 2**20)),
        ("seconds in which it opens it", "%.0f" % (each * figures.opening / figures.cases)),
        ("messages; hours for them at the measured rate, one system after the other", "{:,.0f}; {:.1f}".format(whole, whole / rate / 3600)),
        ("hours where each system has a machine like this one", "%.1f" % (whole / rate / 3600 / systems))]


def show(rows: list[tuple[str, str]]) -> None:
    for name, value in rows:
        print("| %s | %s |" % (name, value))


# Many offices.

def opening_of(world: World) -> float:
    """Seconds of the processor in which the node of the largest journal opens it."""
    office = max(world.offices.values(), key=lambda one: one.journal.stat().st_size)
    office.kill()
    office.start()
    assert office.process is not None
    used = Path("/proc/%d/stat" % office.process.pid).read_text(encoding="ascii").rpartition(")")[2].split()
    return max(int(used[11]) + int(used[12]), 1) / os.sysconf("SC_CLK_TCK")


def bound(ring: Ring) -> int:
    """The most messages of the choices that were taken."""
    world = ring.world
    chosen = Counter(line.split(" ")[2] for lines in world.lines.values() for line in lines if line.startswith("choose "))
    return sum(count * living.bound_of(world.text, rule, ring.roles) for rule, count in chosen.items())


def many(given: argparse.Namespace, binary: str, book: str) -> int:
    nodes.alone()
    with tempfile.TemporaryDirectory(dir=nodes.FAST) as name:
        world = World(binary, form(given.roles), Path(name), given.posts, 1.0)
        try:
            world.start()
            return lived(given, book, Ring(world, random.Random(given.seed)))
        finally:
            world.stop()


def lived(given: argparse.Namespace, book: str, ring: Ring) -> int:
    """The run, and its figures."""
    world, began = ring.world, time.monotonic()
    first = max(office.measured() for office in world.offices.values())
    ring.live(given.messages)
    wrong = world.wrong
    if not wrong and not world.quiet(3600):
        wrong.append("letters are not carried after an hour")
    took = time.monotonic() - began
    sent = sum(office.sent() for office in world.offices.values())
    items = [line for office in world.offices.values() for line in office.items()]
    held = [office.measured() for office in world.offices.values()]
    opening = opening_of(world)
    posts = [living.held(post.process) for post in world.posts]
    wrong += ["%d letters were lost, as %s" % (len(letters), living.words_of(world.names, letters[0])) for letters in world.pushed_again().values()]
    world.stop()
    sizes = [office.journal.stat().st_size for office in world.offices.values()]
    wrong += world.choices_differ()
    most = bound(ring)
    if sent > most:
        wrong.append("%d messages were sent, more than the bound %d" % (sent, most))
    joined = joining.Whole(book, world, GROUP, given.jobs, set(), set(), items).joined()
    wrong += joined.wrong
    if joined.sent != sent:
        wrong.append("the joined journals send %d messages, and the nodes sent %d" % (joined.sent, sent))
    one = joining.AsOne(book, world).whole(joined)
    wrong += one.wrong
    figures = Figures(given.roles, ring.begun, sent, took, first, max(held), sum(held), max(sizes), sum(sizes), opening)
    show([("nodes; posts", "%d; %d" % (given.roles, len(world.posts))), ("cases", "{:,}".format(ring.begun)),
          ("choices", "{:,}".format(sum(map(len, world.taken.values())))), ("messages sent", "{:,}".format(sent)),
          ("messages at most, by the bound", "{:,}".format(most)), ("seconds until every letter was carried", "%.0f" % took),
          ("messages a second", "%.0f" % (sent / took)), ("MiB of a node: at first, the most, all together", "%.1f; %.1f; %.0f" % (first / 1024, max(held) / 1024, sum(held) / 1024)),
          ("MiB of a post, the most", "%.0f" % (max(posts) / 1024)), ("MiB of journals: the largest, all together", "%.1f; %.0f" % (max(sizes) / 2**20, sum(sizes) / 2**20)),
          ("seconds of the processor in which the largest is opened", "%.2f" % opening), ("events joined", "{:,}".format(joined.events)),
          ("tasks equal to the undivided run", "{:,}".format(joined.rows)), *one.figures, ("seconds in all", "%.0f" % (time.monotonic() - began))])
    print()
    show(plan(figures, given.plan or 10_000_000, given.machine, given.opening))
    print("\nThese figures again: --plan %d --figures %s" % (given.plan or 10_000_000, ",".join("%g" % value for value in vars(figures).values())))
    for one in wrong[:20]:
        print("WRONG: " + one)
    print("%d things are wrong" % len(wrong) if wrong else "all held")
    return 1 if wrong else 0


# Curves.

def growth(before: tuple[int, float] | None, now: tuple[int, float] | None) -> str:
    """The power of the size with which the time grew, where both times are long enough to tell."""
    if before is None or now is None or before[1] < 0.02 or now[0] <= before[0]:
        return ""
    return "%.1f" % (math.log(max(now[1], 1e-9) / before[1]) / math.log(now[0] / before[0]))


def larger(given: inputs.Input) -> bytes | None:
    """The same ten times as large; nothing where it is made without a size."""
    try:
        return given.make(10 * given.size)
    except TypeError:
        return None


def curves(given: argparse.Namespace, binary: str, book: str) -> int:
    """Rows of a table: each family at its largest size of today and at ten times that."""
    print("| Input | Size | Command | MiB read | Status | Processor s | MiB held | Power |\n|---|---|---|---|---|---|---|---|", flush=True)
    last = {(one.family, command): one for one in inputs.growing() if one.size and given.only in one.family for command in one.commands}
    wrong = 0
    for (family, command), one in last.items():
        before = None
        for size, data in ((one.size, one.data()), (10 * one.size, larger(one))):
            if data is None:
                continue
            took, held, status = living.measured([binary, command], data, given.limit)
            wrong += status not in (inputs.DONE, inputs.TOO_LARGE, inputs.NO_MEMORY, inputs.TOO_LONG, None)
            now = (size, took) if status == one.status else None
            print("| %s | %s %s | `%s` | %.2f | %s | %s%.3f | %.1f | %s |" % (
                family, "{:,}".format(size), one.unit, command, len(data) / 2**20, "none" if status is None else "11, past 16 MiB" if status == 11 else status,
                "> " if status is None else "", took, held / 1024, growth(before, now)), flush=True)
            before = now
    wrong += readers(given, binary, book) if given.only in "a journal" else 0
    print("%d statuses are none that is called for" % wrong)
    return 1 if wrong else 0


def readers(given: argparse.Namespace, binary: str, book: str) -> int:
    """Rows of the commands that read journals, and of a node that opens one."""
    text = (living.TOP / "examples" / "clinical-test.aw").read_text(encoding="utf-8").split("\nschedule")[0] + "\n"
    names, wrong = Names(text), 0
    commands = [["spec"], ["check"], ["check", "--digest"], ["events"]] + [[word] for word in ("tasks", "join", "cases") if living.tells(book, word)]
    powers: dict[str, tuple[int, float] | None] = {}
    with tempfile.TemporaryDirectory(dir=nodes.FAST) as folder:
        for count in (1_000, 10_000, 100_000, 1_000_000):
            path = Path(folder) / nodes.JOURNAL
            path.write_bytes(journal(binary, text, names, count))
            size = path.stat().st_size
            opened = [binary, "node", "clinic", "1", "kept"]
            for words in [*[[book, *words, str(path)] for words in commands], opened]:
                shown = "aw_book " + " ".join(words[1:-1]) if words is not opened else "node .. kept"
                took, held, status = living.measured(words, b"", given.limit) if words is not opened else opening(words, text, folder, given.limit)
                wrong += status not in (0, 5, None)
                now = (count, took) if status == 0 else None
                print("| a journal | %s events | `%s` | %.2f | %s | %s%.3f | %.1f | %s |" % (
                    "{:,}".format(count), shown, size / 2**20, "none" if status is None else status, "> " if status is None else "", took, held / 1024,
                    growth(powers.get(shown), now)), flush=True)
                powers[shown] = now
    return wrong


def opening(words: list[str], text: str, folder: str, limit: int) -> tuple[float, int, int | None]:
    """A node that opens the journal of a folder, and is asked one question."""
    process = nodes.started(words, text.encode(), folder, begin=lambda: resource.setrlimit(resource.RLIMIT_CPU, (limit, limit)))
    peer = nodes.connect(nodes.FIRST_PORT, process, 20 * limit)
    held = living.held(process)
    if peer is not None:
        nodes.send_all(peer, nodes.place(nodes.LIST, 1 << 60))
        nodes.receive_all(peer)
        peer.close()
    end = nodes.ended(process, limit)
    return end.seconds, held, end.status if end.status is not None and end.status >= 0 else None


def journal(binary: str, text: str, names: Names, count: int) -> bytes:
    """A journal of so many events: starts of cases, with a choice of each."""
    import kill
    with tempfile.TemporaryDirectory(dir=nodes.FAST) as folder:
        process = nodes.started([binary, "node", "clinic", "1", "kept"], text.encode(), folder)
        nodes.session(nodes.FIRST_PORT, b"", process)
        nodes.ended(process)
        head = (Path(folder) / nodes.JOURNAL).read_bytes()
    pieces = [head[:nodes.head_length(head)]]
    chosen = kill.choices(names, 0)
    for _ in range(count):
        event = b"\x01" + next(chosen)
        pieces.append(b"\x01" + struct.pack(">Q", len(event)) + event)
    return b"".join(pieces) + b"\0"


def figures_of(text: str) -> Figures:
    """The figures that a run printed."""
    values = text.split(",")
    if len(values) != 10 or not all(re.fullmatch(r"[0-9.e+]+", value) for value in values):
        raise Sorry("FIGURES are the ten numbers that a run prints, with commas between.")
    numbers = [float(value) for value in values]
    if min(numbers[:4]) <= 0:
        raise Sorry("The first four of FIGURES (offices, cases, messages, seconds) are above 0.")
    whole = [int(value) for value in numbers]
    return Figures(whole[0], whole[1], whole[2], numbers[3], *whole[4:9], numbers[9])


def run(given: argparse.Namespace) -> int:
    if not 8 <= given.roles <= 64 or given.messages < 1 or given.posts < 1 or given.jobs < 1 or given.limit < 1 or (given.plan or 1) < 1:
        raise Sorry("There are 8 to 64 offices, and every other number is above 0.")
    if given.figures:
        show(plan(figures_of(given.figures), given.plan or 10_000_000, given.machine, given.opening))
        return 0
    living.needs()
    binary, book = living.program(given.aw, "AW", "aw_prog"), living.program(given.book, "AW_BOOK", "aw_book")
    if given.curves:
        nodes.alone()
        return curves(given, binary, book)
    return many(given, binary, book)


def main() -> None:
    asked = argparse.ArgumentParser(description=__doc__, formatter_class=argparse.RawDescriptionHelpFormatter)
    asked.add_argument("--aw", metavar="AW", help="the program aw; else what AW names, else the built one")
    asked.add_argument("--book", metavar="AW_BOOK", help="the program aw_book; else what AW_BOOK names, else the built one")
    asked.add_argument("--roles", type=int, default=ROLES, metavar="N", help="how many offices, 8 to 64 (64)")
    asked.add_argument("--messages", type=int, default=1_000_000, metavar="N", help="how many messages are sent at least (1,000,000)")
    asked.add_argument("--posts", type=int, default=8, metavar="N", help="how many posts carry them, each for its share of the offices (8)")
    asked.add_argument("--seed", type=int, default=1, metavar="N", help="the number that all is drawn from (1)")
    asked.add_argument("--jobs", type=int, default=2, metavar="N", help="how many groups of cases are joined beside each other (2)")
    asked.add_argument("--curves", action="store_true", help="each command on ten times the largest inputs instead")
    asked.add_argument("--only", default="", metavar="WORD", help="with --curves: the inputs with this word in their name, as `journal`")
    asked.add_argument("--limit", type=int, default=120, metavar="SECONDS", help="seconds of the processor after which a run of --curves is ended (120)")
    asked.add_argument("--plan", type=int, metavar="CASES", help="for how many cases the plan is (10,000,000)")
    asked.add_argument("--figures", metavar="FIGURES", help="the figures that a run printed; then the plan alone is worked out")
    asked.add_argument("--machine", type=int, default=23_000, metavar="MIB", help="the memory of a machine of the plan (23,000)")
    asked.add_argument("--opening", type=float, default=60, metavar="SECONDS", help="within how many seconds a node of the plan opens its journal (60)")
    given = asked.parse_args()
    living.on_end()
    try:
        sys.exit(run(given))
    except KeyboardInterrupt:
        sys.exit(130)
    except (Sorry, Trouble, OSError, struct.error, subprocess.SubprocessError) as trouble:
        print("scale.py: %s" % trouble, file=sys.stderr)
        sys.exit(2)


if __name__ == "__main__":
    main()
