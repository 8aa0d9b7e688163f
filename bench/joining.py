"""Journals of many cases, joined for month.py and scale.py, some cases at a time.

Cases do not meet: no event of one names a task of another. So journals are joined, replayed and compared for some cases at a time, each within what
the program reads in one run."""
from __future__ import annotations

import re
import subprocess
import sys
from concurrent.futures import ThreadPoolExecutor
from dataclasses import dataclass, field

sys.dont_write_bytecode = True
from living import CASE, Sorry, World, measured, ran, tells
from offices import artifacts, listed

@dataclass
class Joined:
    """What came of some cases: the events that were joined, the letters that were sent, and what is wrong."""

    events: int = 0
    sent: int = 0
    rows: int = 0
    wrong: list[str] = field(default_factory=list)
    left: list[str] = field(default_factory=list)
    tasks: list[str] = field(default_factory=list)

    def add(self, other: Joined) -> None:
        self.events, self.sent, self.rows = self.events + other.events, self.sent + other.sent, self.rows + other.rows
        self.wrong += other.wrong
        self.left += other.left
        self.tasks += other.tasks


Part = dict[str, list[str]]


def events_of(book: str, world: World, group: int) -> dict[int, Part]:
    """The events of all journals as `aw_book events` writes them, by groups of so many cases."""
    found: dict[int, Part] = {}
    for role, office in world.offices.items():
        told = subprocess.Popen([book, "events", str(office.journal)], stdout=subprocess.PIPE, text=True, errors="surrogateescape")
        assert told.stdout is not None
        with told.stdout as lines:
            for line in lines:
                found.setdefault(case_of(line) // group, {}).setdefault(role, []).append("to %s %s" % (role, line[4:-1]) if line.startswith("got ") else line[:-1])
        if told.wait():
            raise Sorry("aw_book events ended with status %d for the journal of %s; `aw_book check` tells how it stands." % (told.returncode, role))
    return found


class Joining:
    """Joins the events of some cases: each as soon as what it needs was sent, as offices.py joins whole journals."""

    def __init__(self, binary: str, text: str, roles: list[str]) -> None:
        self.binary, self.text, self.roles = binary, text, roles

    def replay(self, lines: list[str], behind: str = "") -> str:
        return ran([self.binary, "replay"], self.text + "schedule 2\n" + "".join(line + "\n" for line in lines) + behind).stdout

    def order(self, part: Part) -> tuple[list[str], list[str], str]:
        """The joined schedule, the events that have no place in it, and its replay."""
        order: list[str] = []
        at, numbers, moved, replayed = dict.fromkeys(part, 0), dict[str, int](), True, ""
        while moved:
            moved = False
            for role, lines in part.items():
                while at[role] < len(lines):
                    line = lines[at[role]]
                    if line.startswith("to "):
                        if line not in numbers:
                            break
                        line = "deliver %d" % numbers[line]
                    order.append(line)
                    at[role], moved = at[role] + 1, True
            if moved:
                replayed = self.replay(order)
                numbers = {words: int(number) for number, words in re.findall(r"(?m)^sent (\d+) (.*)$", replayed)}
        heads = [lines[at[role]] for role, lines in part.items() if at[role] < len(lines)]
        return order, heads + [line for role, lines in part.items() for line in lines[at[role] + 1:]], replayed

    def join(self, part: Part, chosen: list[str], items: list[str]) -> Joined:
        """Some cases: their journals, the choices that were answered, and what the worklists have of them."""
        order, left, replayed = self.order(part)
        found = Joined(len(order), 0, 0, [], left)
        replayed = self.replay(order, "settle\n" + "".join("list %s\n" % role for role in self.roles))
        answers = re.findall(r"(?m)^(?:start|choose|deliver) .*: (.*)$", replayed)
        found.sent = len(re.findall(r"(?m)^sent \d+ ", replayed))
        if set(answers[:len(order)]) - {"taken", "new"}:
            found.wrong.append("a joined event is answered %s" % sorted(set(answers[:len(order)]) - {"taken", "new"})[:3])
        if set(answers[len(order):]) - {"again"}:
            found.wrong.append("a letter that no journal has is answered %s" % sorted(set(answers[len(order):]) - {"again"})[:3])
        if left:
            found.wrong.append("%d events have no place in the joined schedule; the first are: %s" % (len(left), "; ".join(left[:3])))
        self.same(found, replayed, chosen, items)
        return found

    def again(self, chosen: list[str], items: list[str]) -> Joined:
        """The choices of some cases, with nothing late."""
        found = Joined()
        replayed = self.replay([line + "\nsettle" for line in chosen], "".join("list %s\n" % role for role in self.roles))
        self.same(found, replayed, chosen, items)
        return found

    def undivided(self, chosen: list[str]) -> str:
        """The artifacts of the undivided run."""
        return artifacts(ran([self.binary, "plain"], self.text + "schedule\n" + "".join(line + "\n" for line in chosen)).stdout)

    def same(self, found: Joined, replayed: str, chosen: list[str], items: list[str]) -> None:
        """Where a replay has other artifacts than the undivided run, or other worklists than the nodes."""
        undivided = self.undivided(chosen)
        found.tasks = undivided.split("\n")[2:-1]
        found.rows = len(found.tasks)
        if not undivided or artifacts(replayed) != undivided:
            found.wrong.append("the artifacts are not those of the undivided run")
        if sorted(items) != sorted(line for role in self.roles for line in listed(replayed, role)):
            found.wrong.append("the worklists are not those that the nodes told")


def case_of(line: str) -> int:
    """The case of an event, an item or a task: each names but one."""
    words = line.split(" ", 3)
    return int(words[2]) if words[0] == "start" else int(CASE.search(line)[1])  # type: ignore[index]


def parted(part: Part, cases: set[int]) -> tuple[Part, Part]:
    """The events of some cases, and those of the others."""
    return ({role: [line for line in lines if case_of(line) in cases] for role, lines in part.items()},
            {role: [line for line in lines if case_of(line) not in cases] for role, lines in part.items()})


@dataclass
class Whole:
    """All that is joined: the offices, how many cases at a time, which are forged and which lost choices once, and what the worklists have."""

    book: str
    world: World
    group: int
    jobs: int
    forged: set[int]
    touched: set[int]
    items: list[str]

    def joined(self) -> Joined:
        """Each group of cases. The forged cases are joined one by one, and what has no place there is told. Of cases that lost choices once, letters of
        the time before may be spelled otherwise than those that came again, so of them what the choices give is held to what the nodes tell."""
        groups, shown, total = events_of(self.book, self.world, self.group), self.rows(), Joined()
        work = Joining(self.world.binary, self.world.text, self.world.names.roles)
        with ThreadPoolExecutor(self.jobs) as pool:
            for found in pool.map(lambda number: self.one(work, number, groups[number], shown.pop(number, None)), sorted(groups)):
                total.add(found)
        missing = {case // self.group for case in self.world.lines} - set(groups)
        if missing:
            total.wrong.append("no journal has anything of %d groups of cases" % len(missing))
        return total

    def rows(self) -> dict[int, list[str]]:
        """The tasks that `aw_book tasks` tells of all journals, by groups; nothing where the program does not tell them."""
        found: dict[int, list[str]] = {}
        for office in self.world.offices.values() if tells(self.book, "tasks") else ():
            told = subprocess.Popen([self.book, "tasks", str(office.journal)], stdout=subprocess.PIPE, text=True, errors="surrogateescape")
            assert told.stdout is not None
            with told.stdout as lines:
                for line in lines:
                    if not line.startswith("item ") and not re.match(r"\S+ open \(", line):
                        found.setdefault(case_of(line) // self.group, []).append(line[:-1])
            if told.wait():
                raise Sorry("aw_book tasks ended with status %d for the journal of %s; `aw_book check` tells how it stands." % (told.returncode, office.role))
        return found

    def one(self, work: Joining, number: int, part: Part, rows: list[str] | None) -> Joined:
        """A group of cases."""
        within = range(number * self.group, (number + 1) * self.group)
        forged, touched = self.forged & set(within), self.touched & set(within) - self.forged
        apart, rest = parted(part, forged | touched)
        sound = [line for case in within if case not in forged | touched for line in self.world.lines.get(case, [])]
        found = work.join(rest, sound, self.shown(set(within) - forged - touched)) if sound else Joined()
        if touched:
            again = [line for case in sorted(touched) for line in self.world.lines.get(case, [])]
            found.add(work.again(again, self.shown(touched)))
        for case in sorted(forged):
            found.left += work.order(parted(apart, {case})[0])[1]
        if rows is not None:
            undivided = work.undivided([line for case in within if case not in forged for line in self.world.lines.get(case, [])]).split("\n")[2:-1]
            told = [row for row in rows if case_of(row) not in forged]
            if sorted(told) != sorted(row for row in undivided if not re.match(r"\S+ open \(", row)):
                found.wrong.append("the tasks that aw_book tells are not those of the undivided run, in the cases from %d on" % within[0])
        return found

    def shown(self, cases: set[int]) -> list[str]:
        """What the worklists have of some cases."""
        return [item for item in self.items if case_of(item) in cases]


@dataclass
class AsOne:
    """What aw_book says of all journals together: figures, and what is wrong."""

    book: str
    world: World
    figures: list[tuple[str, str]] = field(default_factory=list)
    wrong: list[str] = field(default_factory=list)

    def files(self) -> list[str]:
        return [str(office.journal) for office in self.world.offices.values()]

    def ask(self, limit: int, *words: str) -> list[str]:
        """The lines that a command writes of all journals."""
        path = self.world.folder / "as-one"
        took, held, status = measured([self.book, *words, *self.files()], b"", limit, path)
        self.figures.append(("`aw_book %s` of all journals: seconds of the processor; MiB held; status" % " ".join(words), "%.1f; %.0f; %s" % (took, held / 1024, "none" if status is None else status)))
        if status:
            self.wrong.append("aw_book %s of all journals ended with status %s" % (" ".join(words), status))
        lines = path.read_text(encoding="utf-8", errors="surrogateescape").split("\n")[:-1] if status == 0 else []
        path.unlink()
        return lines

    def whole(self, joined: Joined) -> AsOne:
        """All of them, which fit: each event is joined, and the cases are those of the undivided run."""
        lines = self.ask(3600, "join") if tells(self.book, "join") else []
        events = [line for line in lines[lines.index("schedule 2"):] if line.startswith(("start ", "choose ", "deliver "))] if "schedule 2" in lines else []
        if lines and (len(events) != joined.events or len(set(events)) != len(events)):
            self.wrong.append("aw_book join writes %d events, %d of them different, and the journals have %d" % (len(events), len(set(events)), joined.events))
        told = self.ask(3600, "cases") if tells(self.book, "cases") else []
        if told and sorted(told) != sorted(joined.tasks):
            self.wrong.append("aw_book cases writes %d tasks that are not the %d of the undivided run" % (len(told), len(joined.tasks)))
        return self

    def cases(self, work: Joining, some: list[int]) -> AsOne:
        """Some cases alone, which fit whatever the others do: each is that of the undivided run."""
        for case in some if tells(self.book, "cases") else ():
            lines = self.world.lines.get(case, [])
            said = ran([self.book, "cases", "--case", "%s#%d" % (lines[0].split(" ")[1], case), *self.files()])
            if said.returncode or said.stdout.split("\n")[:-1] != work.undivided(lines).split("\n")[2:-1]:
                self.wrong.append("aw_book cases of case %d alone: status %d, %s" % (case, said.returncode, said.stderr.strip()[:200]))
        return self
