#!/usr/bin/env python3
"""month.py [--aw AW] [--book AW_BOOK] [--cases N] [--minutes N] [--crash SECONDS] [--seed N] [--desks] [--jobs N] [--keep FOLDER]

A month of an office in an hour: five offices of claims, each a kept node in a process of its own, a post for each, and choices that are drawn from a
number. While it goes on:

- a node or a post that is drawn is killed with SIGKILL, every minute, and started again;
- the journals are copied, and a day and a half later one copy is put in the place of its journal, as an operator does whose disk is lost; the
  choices of the time between are asked again, and all letters come once more (the posts' places are taken away);
- the form gets a rule more in the middle (aw_carry_over, all journals);
- on each of 30 days a letter is forged: one that contradicts what its receiver knows, one that comes before the true one, or one after which the
  true one is not even asked for;
- with --desks a claim of each day is opened and decided by clicks in chromium, drawn too.

At the end each choice that was answered `taken` is in its journal, in order; each letter of each outbox, brought once more, is known, and none is
in a journal twice; the journals joined give the artifacts of `aw plain` of these choices, and the worklists that the nodes tell. The journal that
was put back is found by `aw_book join` where the program has it, else by `aw_book check --begins-with` of a later copy, else by fewer bytes in
`aw_book check`. A forged letter is found by its reply, or where the true one is refused and the post tells it, and by `aw_book join`; it has no
place in the joined journals.

Prints a figure for each. Ends with 0 where all held, 1 where something did not, 2 where it could not run. Takes the minutes it is given, and a few
more to look at the end; a small one is --cases 200 --minutes 1 --crash 5.
"""
from __future__ import annotations

import argparse
import os
import random
import shutil
import struct
import subprocess
import sys
import tempfile
import threading
import time
from pathlib import Path

sys.dont_write_bytecode = True
import joining
import living
import nodes
from clerks import PAUSE, Clerks
from clicks import Desks
from client import Trouble

sys.path[:0] = [str(living.TOP / "offices"), str(living.TOP / "forms")]
from aw_offices import frames
from living import CONFLICT, NEW, Sorry, Step, World, message, ran, takes, tells
from nodes import PUSH

FORM = """role front
role assessor
role surveyor
role payments
role archive
con damage 3
con account 1
con repairable 1
con destroyed 0
con granted 1
con denied 1
con paid 2
con unpaid 0
con kept 1
con letter 3
sort claim front 0 1
sort assessment assessor 1 1
sort decision assessor 2 1
sort survey surveyor 1 1
sort payment payments 2 1
sort filing archive 2 1
start claim
offer assessment
offer survey
offer payment
offer filing
use front assessment
use assessor survey
use front payment
use front filing
rule open_claim {policy, what, asked, number} : claim()<letter(v, p, f)> = assessment(damage(policy, what, asked))<v> ; payment(account(number), v)<p> ; filing(v, p)<f>
rule grant {amount} : assessment(damage(policy, what, asked))<granted(amount)>
rule deny {why} : assessment(x)<denied(why)>
rule inspect : assessment(damage(policy, what, asked))<v> = survey(what)<found> ; decision(asked, found)<v>
rule find_repairable {cost} : survey(what)<repairable(cost)>
rule find_destroyed : survey(what)<destroyed>
rule pay_repair : decision(asked, repairable(cost))<granted(cost)>
rule pay_all : decision(asked, destroyed)<granted(asked)>
rule pay : payment(account(number), granted(amount))<paid(number, amount)>
rule file_away : payment(account(number), denied(why))<unpaid>
rule put_by {shelf} : filing(v, p)<kept(shelf)>
"""
MORE = "rule flat_rate {amount} : assessment(damage(policy, what, asked))<granted(amount)>\n"
DAYS, GROUP = 30, 400
COPIED, PUT_BACK, CHANGED = 0.3, 0.35, 0.5
WHAT = ("storm, roof", "scratched door", "water in the cellar", 'a \\"stone\\", he says', "fire")


def plan(draw: random.Random, case: int, changed: bool) -> list[str]:
    """The choices of a case, in their order."""
    name = "claim#%d" % case
    first = ["start claim %d" % case, 'choose %s open_claim {%d, "%s", %d, "DK%d"}' % (name, draw.randrange(100_000), draw.choice(WHAT), draw.randrange(20_000), case)]
    way = draw.random()
    if way < 0.3:
        destroyed = draw.random() < 0.3
        verdict = ["choose %s/open_claim.1 inspect" % name,
                   "choose %s/open_claim.1/inspect.1 %s" % (name, "find_destroyed" if destroyed else "find_repairable {%d}" % draw.randrange(9_000)),
                   "choose %s/open_claim.1/inspect.2 %s" % (name, "pay_all" if destroyed else "pay_repair")]
    elif way < 0.45:
        verdict = ['choose %s/open_claim.1 deny {"below the excess"}' % name]
    else:
        verdict = ["choose %s/open_claim.1 %s {%d}" % (name, "flat_rate" if changed and way < 0.7 else "grant", draw.randrange(9_000))]
    paid = "choose %s/open_claim.2 %s" % (name, "file_away" if " deny " in verdict[0] else "pay")
    return first + verdict + [paid, "choose %s/open_claim.3 put_by {%d}" % (name, draw.randrange(500))]


class Crashes(threading.Thread):
    """Kills a drawn node or post every so many seconds, and starts it again."""

    def __init__(self, world: World, every: float, draw: random.Random) -> None:
        super().__init__(daemon=True)
        self.world, self.every, self.draw, self.ending = world, every, draw, threading.Event()
        self.nodes = self.posts = self.in_hand = 0
        self.due: set[str] = set()
        self.longest, self.trouble = 0.0, ""

    def run(self) -> None:
        try:
            while not self.ending.wait(self.every):
                with self.world.lock:
                    self.one()
        except (Sorry, OSError) as trouble:
            self.trouble = str(trouble)

    def one(self) -> None:
        hit = self.draw.choice([*self.world.offices.values(), *self.world.posts])
        if isinstance(hit, living.Office) and self.draw.random() < 0.5:
            self.due.add(hit.role)
            return
        hit.kill()
        time.sleep(self.draw.random())
        hit.start()
        if isinstance(hit, living.Office):
            self.nodes += 1
            self.longest = max(self.longest, hit.reopened)
        else:
            self.posts += 1

    def choose(self, role: str, steps: list[Step]) -> tuple[list[Step], list[Step], list[Step]]:
        """Asks for choices, and kills the node with some in hand where a crash of it is due."""
        if role not in self.due:
            return self.world.choose(role, steps)
        with self.world.lock:
            self.due.discard(role)
            found = self.world.choose(role, steps, self.draw.random() * 0.004)
            self.world.offices[role].start()
            self.in_hand += 1
            return found


class Month(Clerks):
    """The offices, the cases that go through them, and what happens besides."""

    def __init__(self, given: argparse.Namespace, binary: str, book: str, folder: Path) -> None:
        super().__init__(World(binary, FORM, folder, 5))
        self.given, self.book = given, book
        self.draw = random.Random(given.seed)
        self.day = 0
        self.changed = False
        self.copied = ""
        self.put_back = self.lost = 0
        self.told_back, self.refusals = "", list[str]()
        self.contradictions = 0
        self.early: dict[int, str] = {}
        self.waiting: list[int] = []
        self.told, self.touched = set[int](), set[int]()
        self.looked, self.gone = 0.0, 0
        self.finished: list[int] = []
        self.crashes = Crashes(self.world, given.crash, random.Random(given.seed + 1))
        self.desks: Desks | None = None

    # the cases
    def lines_of(self, case: int) -> list[str]:
        return plan(self.draw, case, self.changed)

    def closed(self, case: int) -> None:
        self.finished += [case] if case not in self.early else []

    def choose(self, role: str, steps: list[Step]) -> tuple[list[Step], list[Step], list[Step]]:
        return self.crashes.choose(role, steps)

    def due(self, step: Step) -> None:
        if self.desks is None or not self.desks.takes(step):
            super().due(step)

    def done(self, step: Step) -> None:
        """A choice was taken."""
        if step.redone:
            return
        if step.case in self.early and " open_claim " in step.line:
            if step.case % 2:
                self.waiting.append(step.case)
                return
            self.forge_early(step.case)
        self.next(step.case)

    def live(self) -> None:
        """The month, until every case is closed."""
        began, whole = time.monotonic(), max(self.given.minutes * 60.0, 1.0)
        self.crashes.start()
        while self.begun < self.given.cases or self.busy():
            due = min(self.given.cases, int(self.given.cases * (time.monotonic() - began) / whole) + 1)
            while self.begun < due and self.open < 2000:
                self.begin()
            self.happen(self.begun / self.given.cases)
            if not self.work():
                time.sleep(0.02)
            if self.world.wrong or self.crashes.trouble:
                break
            if time.monotonic() - began > 3 * whole + 600:
                self.world.wrong.append("%d cases are not closed after three times the time" % self.open)
                break
        self.crashes.ending.set()
        self.crashes.join()
        if self.crashes.trouble:
            self.world.wrong.append(self.crashes.trouble)

    def happen(self, part: float) -> None:
        """What the month brings at this part of it."""
        while self.day < min(int(part * DAYS), DAYS):
            self.day += 1
            self.forge()
            if self.desks is not None and self.begun < self.given.cases:
                self.desks.cases.add(self.begun + 1)
                self.begin()
        self.forge_waiting()
        for step in self.desks.look() if self.desks is not None else ():
            self.done(step)
        if not self.copied and part >= COPIED:
            self.copy()
        if self.copied and not self.put_back and part >= PUT_BACK:
            self.back()
        if not self.changed and self.put_back and part >= CHANGED:
            self.change()

    # what happens besides
    def copy(self) -> None:
        """Copies each journal, while the nodes run."""
        for role, office in self.world.offices.items():
            shutil.copyfile(office.journal, self.world.folder / (role + ".copy"))
        self.copied = "all"

    def since(self, role: str) -> int:
        """How many events an office has that its copy has not."""
        copy = (self.world.folder / (role + ".copy")).read_bytes()
        return len(nodes.events(self.world.offices[role].journal.read_bytes())[0]) - len(nodes.events(copy)[0])

    def back(self) -> None:
        """The copy of a journal takes its place, and is found; what was chosen since is asked again."""
        world = self.world
        with world.lock:
            world.stop()
            later = [role for role in world.offices if self.since(role)]
            if not later:
                return world.start()
            self.copied = self.draw.choice(later)
            office, newest = world.offices[self.copied], world.folder / "newest"
            shutil.copyfile(office.journal, newest)
            shutil.copyfile(world.folder / (office.role + ".copy"), office.journal)
            self.put_back = len(nodes.events(newest.read_bytes())[0]) - len(nodes.events(office.journal.read_bytes())[0])
            self.told_back = self.found_back(office, newest)
            kept = {event[1:] for event in nodes.events(office.journal.read_bytes())[0] if event[0] == 1}
            again = [step for steps in (world.taken, world.found) for step in steps[self.copied] if step.data not in kept]
            for steps in (world.taken, world.found):
                steps[self.copied] = [step for step in steps[self.copied] if step.data in kept]
            lost = nodes.events(newest.read_bytes())[0]
            order = {event[1:]: at for at, event in enumerate(lost) if event[0] == 1}
            self.touched = {frames.choice(event[1:]) if event[0] == 1 else frames.message(event[1:]).node.case for event in lost[-self.put_back:]}
            gone = {event[1:] for event in lost[-self.put_back:] if event[0] == 2}
            for case in [case for case, words in self.early.items() if words and message(world.names, words) in gone]:
                del self.early[case]
                self.told.discard(case)
                self.gone += 1
            for step in sorted(again, key=lambda step: -order.get(step.data, 0)):
                step.redone, step.in_hand = True, False
                self.queue[self.copied].appendleft(step)
            self.lost = len(again)
            for post in world.posts:
                post.places.unlink(missing_ok=True)
            world.start()

    def found_back(self, office: living.Office, newest: Path) -> str:
        """How the programs tell that a journal was put back; nothing where they do not."""
        files = [str(one.journal) for one in self.world.offices.values()]
        if tells(self.book, "join"):
            said = ran([self.book, "join", *files])
            self.refusals.append(said.stderr)
            if said.returncode == 1 and office.role in said.stderr:
                return "join"
        if takes(self.book, "check", "--begins-with"):
            said = ran([self.book, "check", "--begins-with", str(newest), str(office.journal)])
            return "check --begins-with" if said.returncode == 1 else ""
        before, now = (ran([self.book, "check", str(file)]).stdout.split() for file in (newest, office.journal))
        return "check, by its bytes" if int(now[5]) < int(before[5]) else ""

    def change(self) -> None:
        """The form gets a rule more: each journal is carried over while all is stopped."""
        world, form = self.world, self.world.folder / "more.aw"
        form.write_text(FORM + MORE, encoding="utf-8")
        with world.lock:
            world.stop()
            for office in world.offices.values():
                result = office.folder / "more.journal"
                said = ran([sys.executable, "-B", str(living.CARRY_OVER), str(office.journal), str(form), str(result)], env={"AW": world.binary})
                if said.returncode:
                    raise Sorry("The journal of %s was not carried over (status %d): %s" % (office.role, said.returncode, said.stderr.strip()))
                os.replace(result, office.journal)
            world.set_form(FORM + MORE)
            world.start()
            if self.desks is not None:
                self.desks.stop()
                self.desks.start()
        self.changed = True

    def forge(self) -> None:
        """A forged letter: one that contradicts what was said, one that comes before the true one, or one after which the true one is not asked for."""
        if self.day % 3 and self.begun < self.given.cases:
            case = self.begun + 1
            self.early[case] = ""
            self.begin(plan(self.draw, case, False)[:2] + ['choose claim#%d/open_claim.1 deny {"no"}' % case])
        elif self.finished and not self.asked_again():
            name = "claim#%d" % self.draw.choice(self.finished[-1000:])
            self.push("payments", "to payments call %s/open_claim.2 (%s:p6, %s/open_claim.3:r1)" % (name, name, name), CONFLICT)

    def asked_again(self) -> bool:
        """Whether choices that were lost still have to be asked again."""
        return any(step.redone for queue in self.queue.values() for step in queue) or any(step.redone for _, step in self.later)

    def forge_early(self, case: int) -> None:
        """A letter that grants what the assessor is about to deny."""
        words = "to payments tell claim#%d/open_claim.1:r1 = granted(claim#%d/open_claim.1:p1) with claim#%d/open_claim.1:p1 = 99999" % (case, case, case)
        self.early[case] = words
        self.push("payments", words, NEW)

    def forge_waiting(self) -> None:
        """The same where the task has come, so that the true letter is on its way once there is one."""
        if self.waiting and time.monotonic() > self.looked + PAUSE:
            self.looked = time.monotonic()
            items = " ".join(self.world.offices["payments"].items())
            for case in [case for case in self.waiting if "claim#%d/open_claim.2 " % case in items]:
                self.waiting.remove(case)
                self.forge_early(case)
                self.told.add(case)
                self.next(case)

    def push(self, role: str, words: str, wanted: int) -> None:
        """Pushes a letter until it is replied to."""
        for _ in range(600):
            with self.world.lock:
                replies = self.world.offices[role].ask(PUSH, [message(self.world.names, words)])
            if replies:
                kind = replies[0][0]
                self.contradictions += kind == CONFLICT and wanted == CONFLICT
                if kind != wanted:
                    self.world.wrong.append("the forged letter %s got reply %d, and not %d" % (words, kind, wanted))
                return
            time.sleep(0.1)
        self.world.wrong.append("the node of %s took no letter for a minute" % role)

    # the end
    def end(self) -> list[str]:
        """What does not hold at the end."""
        world, wrong = self.world, self.world.wrong
        if wrong:
            return wrong
        if not world.quiet(900):
            return ["letters are not carried after 15 minutes"]
        items = [line for office in world.offices.values() for line in office.items()]
        before = [len(nodes.events(office.journal.read_bytes())[0]) for office in world.offices.values()]
        wrong += self.letters_differ()
        if before != [len(nodes.events(office.journal.read_bytes())[0]) for office in world.offices.values()]:
            wrong.append("a letter that was brought once more is in a journal twice")
        self.memory = {role: office.measured() for role, office in world.offices.items()}
        world.stop()
        self.events = sum(before)
        wrong += world.choices_differ()
        self.joined = joining.Whole(self.book, world, GROUP, self.given.jobs, set(self.early), self.touched, items).joined()
        wrong += self.joined.wrong + list(self.besides_differ())
        self.alone = self.draw.sample(sorted(set(world.lines) - set(self.early) - self.touched), 10)
        wrong += joining.AsOne(self.book, world).cases(joining.Joining(world.binary, world.text, world.names.roles), self.alone).wrong
        return wrong

    def letters_differ(self) -> list[str]:
        """Where a letter of an outbox is not known to its receiver."""
        replies = self.world.pushed_again()
        strange = [living.words_of(self.world.names, letter) for kind, letters in replies.items() for letter in letters if kind != CONFLICT]
        against = [living.words_of(self.world.names, letter) for letter in replies.get(CONFLICT, [])]
        strange += [words for words in against if int(living.CASE.search(words)[1]) not in self.early]  # type: ignore[index]
        return ["%d letters were lost, as %s" % (len(strange), strange[0])] if strange else []

    def besides_differ(self) -> list[str]:
        """Where what happened besides was not found."""
        wrong = []
        told = " ".join(line for post in self.world.posts for line in post.told() if ": refused, " in line)
        for case, words in self.early.items():
            if case in self.told and "claim#%d/" % case not in told:
                wrong.append("no post told that the forged letter of claim %d stands against the true one" % case)
            if words not in self.joined.left:
                wrong.append("the forged letter of claim %d has a place in the joined journals" % case)
        if tells(self.book, "join") and self.early:
            said = ran([self.book, "join", *[str(one.journal) for one in self.world.offices.values()]])
            if said.returncode != 1 or "99999" not in said.stderr:
                wrong.append("aw_book join finds no forged letter: status %d" % said.returncode)
        if not self.put_back or not self.told_back:
            wrong.append("the journal that was put back was not found")
        if any("a fault of this program" in line or "Traceback" in line for post in self.world.posts for line in post.told()):
            wrong.append("a post told a fault of its own")
        return wrong

    def tell(self, took: float) -> None:
        """The figures."""
        taken = sum(map(len, self.world.taken.values()))
        found = sum(map(len, self.world.found.values()))
        rows = [("cases begun", self.begun), ("choices answered taken", taken), ("choices found taken behind a crash", found),
                ("nodes killed", self.crashes.nodes), ("nodes killed with choices in hand", self.crashes.in_hand), ("posts killed", self.crashes.posts), ("longest opening of a node, s", "%.1f" % self.crashes.longest),
                ("journal put back", "%s, %d events; found by %s; %d choices asked again" % (self.copied, self.put_back, self.told_back or "nothing", self.lost)),
                ("form changed", "yes" if self.changed else "no"), ("forged letters refused at once", self.contradictions), ("forged letters before the true one", "%d, of which the post told %d; %d more went with the journal that was put back" % (len(self.early), len(self.told), self.gone))]
        if self.desks is not None:
            rows.append(("choices by clicks", self.desks.clicked))
        if hasattr(self, "joined"):
            rows += [("letters in the outboxes, brought once more", self.world.counted), ("events in the journals", self.events),
                     ("events joined", self.joined.events), ("tasks equal to the undivided run", self.joined.rows),
                     ("cases that `aw_book cases --case` shows as the undivided run has them", len(self.alone)),
                     ("most MiB held by a node", "%.0f" % (max(self.memory.values()) / 1024))]
        rows.append(("seconds", "%.0f" % took))
        for name, value in rows:
            print("%-44s %s" % (name, value))


def numbers(given: argparse.Namespace) -> None:
    """Refuses numbers that make no month."""
    if given.cases < DAYS or given.minutes <= 0 or given.crash <= 0 or given.jobs < 1:
        raise Sorry("A month has at least %d cases, and minutes, seconds and jobs above 0." % DAYS)


def run(given: argparse.Namespace) -> int:
    numbers(given)
    living.needs()
    binary, book = living.program(given.aw, "AW", "aw_prog"), living.program(given.book, "AW_BOOK", "aw_book")
    nodes.alone()
    began = time.monotonic()
    with tempfile.TemporaryDirectory(dir=nodes.FAST) as name:
        month = Month(given, binary, book, Path(name))
        try:
            month.world.start()
            if given.desks:
                month.desks = Desks(month.world, book)
                month.desks.start()
            month.live()
            wrong = month.end()
        finally:
            month.crashes.ending.set()
            if month.desks is not None:
                month.desks.end()
            month.world.stop()
            if given.keep:
                shutil.copytree(name, given.keep, dirs_exist_ok=True)
        month.tell(time.monotonic() - began)
        for one in wrong[:20]:
            print("WRONG: " + one)
        print("%d things are wrong" % len(wrong) if wrong else "all held")
        return 1 if wrong else 0


def main() -> None:
    asked = argparse.ArgumentParser(description=__doc__, formatter_class=argparse.RawDescriptionHelpFormatter)
    asked.add_argument("--aw", metavar="AW", help="the program aw; else what AW names, else the built one")
    asked.add_argument("--book", metavar="AW_BOOK", help="the program aw_book; else what AW_BOOK names, else the built one")
    asked.add_argument("--cases", type=int, default=40_000, metavar="N", help="how many claims (40,000)")
    asked.add_argument("--minutes", type=float, default=60, metavar="N", help="in how many minutes they come (60)")
    asked.add_argument("--crash", type=float, default=60, metavar="SECONDS", help="how often a node or a post is killed (60)")
    asked.add_argument("--seed", type=int, default=1, metavar="N", help="the number that all is drawn from (1)")
    asked.add_argument("--desks", action="store_true", help="a claim of each day by clicks in chromium")
    asked.add_argument("--jobs", type=int, default=2, metavar="N", help="how many groups of cases are joined beside each other (2)")
    asked.add_argument("--keep", metavar="FOLDER", help="copy all journals and what the posts told there at the end")
    given = asked.parse_args()
    living.on_end()
    try:
        sys.exit(run(given))
    except KeyboardInterrupt:
        sys.exit(130)
    except (Sorry, Trouble, OSError, struct.error, subprocess.SubprocessError) as trouble:
        print("month.py: %s" % trouble, file=sys.stderr)
        sys.exit(2)


if __name__ == "__main__":
    main()
