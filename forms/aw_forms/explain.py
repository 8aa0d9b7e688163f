"""aw_explain: runs the program and shows at which place of the text a fault is, why, and how it is mended."""
from __future__ import annotations

import re

from . import command
from .answers import not_taken
from .lexing import decoded
from .places import Fault
from .program import Answer, Sorry, ask, sentence
from .report import Style, line_words, picture, style_for
from .verdict import Reading, check_lines, read, warnings

NAME = "aw_explain"
WHAT = """Gives a text to the program, and shows the fault that it tells: the place, what was expected and found, and a mend.

What the program writes decides. The place and the words are looked for by this companion; where it finds
another fault than the program tells, it prints the program's line alone."""
BEHIND = """statuses:
  that of the program (docs/SCHEDULE.md): 0 no fault, 3 specification, 4 circle, 5 schedule, 15 types
  2 the words are wrong     66 the file can't be read     69 the program is not there     73 the output can't be written

examples:
  aw_explain claim.aw                   the specification, and the schedule where there is one
  aw_explain replay claim.aw            as `aw replay`, with the place of a fault
  aw_explain --answers claim.aw         also why a choice of the schedule is not taken
  aw_explain --format=line claim.aw     FILE:LINE:COLUMN: kind: words, for editors"""
COMMANDS = ("check", "replay", "plain")
SCHEDULE = re.compile(rb"^[ \t\r]*schedule(?![a-z0-9_#/.])", re.MULTILINE)
ASKS = re.compile(rb"^[ \t\r]*(?:free|depends)(?![a-z0-9_#/.])", re.MULTILINE)


def main(words: list[str]) -> int:
    """What the command does with its words."""
    parser = command.parser(NAME, WHAT, BEHIND)
    parser.usage = "%(prog)s [check|replay|plain] FILE [--all] [--answers] [--format=full|line] [--color=auto|always|never]"
    parser.add_argument("words", nargs="+", metavar="FILE", help="the text (`-` is the standard input), after a command of the program, if any")
    parser.add_argument("--all", action="store_true", help="go on to further faulty lines, after the one that the program tells")
    parser.add_argument("--answers", action="store_true", help="show starts and choices of the schedule that are not taken, too, and why")
    parser.add_argument("--format", choices=("full", "line"), default="full", help="`line`: one line for each fault, for editors")
    parser.add_argument("--color", choices=("auto", "always", "never"), default="auto", help="colours; `auto` where the output is a terminal")
    chosen = parser.parse_args(words)
    asked = chosen.words[0] if len(chosen.words) == 2 else ""
    if len(chosen.words) > 2 or asked not in ("", *COMMANDS):
        parser.error("`%s` is more than a command (check, replay or plain) and a file" % " ".join(chosen.words))
    if not asked and chosen.words[0] in COMMANDS:
        parser.error("the file after `%s` is missing" % chosen.words[0])
    path = chosen.words[-1]
    data = command.read_file(path)
    answer = ask([asked], data) if asked else looked_at(data)
    needed = verdict_of(answer) or chosen.answers or ASKS.search(data)
    reading = read(decoded(data) if needed else "", chosen.all)
    shown = Shown(path if path != "-" else "standard input", reading, chosen.format == "line", style_for(chosen.color))
    status = shown.tell(asked, answer, chosen.all)
    if chosen.answers and status == 0:
        for line, fault in not_taken(reading, ask(["plain" if asked == "plain" else "replay"], data).output):
            shown.show(line, fault)
    return status


def looked_at(data: bytes) -> Answer:
    """What the program says of the specification and, where one follows, of the schedule, without doing what the schedule asks for."""
    checked = ask(["check"], data)
    if checked.status != 0 or not SCHEDULE.search(data):
        return checked
    # A schedule is read whole before anything is done, so that a faulty line at its end keeps it from being done.
    ended = data if data.endswith(b"\n") else data + b"\n"
    played = ask(["plain"], ended + b"!\n")
    last = "bad schedule line %d token" % (ended.count(b"\n") + 1)
    return checked if played.line == last or played.status != 5 else played


def verdict_of(answer: Answer) -> str:
    """The program's line, where it refused the text."""
    return answer.line if answer.status in (3, 4, 5, 15) else ""


class Shown:
    """Shows what the program and the companion found in a text."""

    def __init__(self, path: str, reading: Reading, short: bool, style: Style) -> None:
        self.path, self.reading, self.short, self.style = path, reading, short, style

    def tell(self, asked: str, answer: Answer, go_on: bool) -> int:
        """Writes it, and answers the program's status."""
        verdict = verdict_of(answer)
        if not verdict:
            self.good(asked, answer)
            return answer.status
        own = self.reading.faults[0] if self.reading.faults else ("", None)
        if own[0] != verdict or own[1] is None:
            command.say(self.alone(verdict))
            return answer.status
        self.show(verdict, own[1])
        if go_on:
            self.others()
        return answer.status

    def good(self, asked: str, answer: Answer) -> None:
        """A text that the program accepts, or of which it writes nothing."""
        if answer.status != 0 and not answer.output:
            raise Sorry(sentence(answer), answer.status)
        if asked and not self.short:
            command.say(answer.output)
        if asked in ("", "check") and answer.status == 0 and answer.output.split("\n")[:-1] == check_lines(self.reading):
            for line, fault in warnings(self.reading):
                self.show(line, fault)
        if not asked and not self.short:
            command.say("%s: the program finds no fault\n" % self.path)

    def show(self, verdict: str, fault: Fault) -> None:
        """One fault."""
        kind = verdict if fault.kind == "types" or "circular" in verdict or "circle" in verdict or "exceeds" in verdict else fault.kind
        command.say(line_words(self.path, fault.span, kind, fault) if self.short else picture(verdict, self.path, self.reading.lines, fault, self.style) + "\n")

    def alone(self, verdict: str) -> str:
        """The program's line, where the companion found something else."""
        if not self.short:
            return verdict + "\n"
        number = next((word for word in verdict.split() if word.isdigit()), "1")
        return "%s:%s:1: %s\n" % (self.path, number, verdict)

    def others(self) -> None:
        """Further faults, which the program did not look for."""
        rest = self.reading.faults[1:]
        if rest and not self.short:
            command.say("The program stops at its first fault. What follows was found by %s alone: mend the first, and look again.\n\n" % NAME)
        for verdict, fault in rest:
            self.show(verdict, fault)
