"""aw_draw: pictures of a specification and of what a schedule does."""
from __future__ import annotations

from . import command
from .case_picture import case_picture
from .lexing import decoded
from .lines import RuleLine
from .messages_picture import messages_picture
from .offices import offices
from .places import did_you_mean, listed
from .program import Answer, Sorry, ask, sentence
from .rule_picture import rule_picture
from .transcript import Task, tasks_of, transcript_of
from .verdict import Reading, read

NAME = "aw_draw"
WHAT = """Draws a picture, as SVG, that follows light and dark screens.

  aw_draw offices FILE         who sends what to whom: roles, their sorts, tasks (solid) and values (dashed)
  aw_draw rule FILE RULE       what goes into what in a rule; the way round a circle is red
  aw_draw case FILE [TASK]     cases as trees after the schedule, open tasks and blanks marked; below a task alone
  aw_draw messages FILE        the schedule as a sequence diagram; late and repeated messages are marked"""
BEHIND = """Where there is more than --most says, pictures are folded: what leads to open tasks is kept, and what is
finished becomes one box with its number; asks and tells become bands.

statuses: 0 drawn; 3, 4, 5, 15 the program refuses the text (a rule with a circle is drawn all the same)
          2 the words are wrong, 66 the file can't be read, 69 the program or graphviz is not there
          70 it can't be drawn, 73 the picture can't be written"""
PICTURES = ("offices", "rule", "case", "messages")
MOST = {"offices": 60, "rule": 0, "case": 60, "messages": 90}


def main(words: list[str]) -> int:
    """What the command does with its words."""
    parser = command.parser(NAME, WHAT, BEHIND)
    parser.add_argument("picture", choices=PICTURES, metavar="PICTURE", help="offices, rule, case or messages")
    parser.add_argument("file", metavar="FILE", help="the specification, with its schedule (`-` is the standard input)")
    parser.add_argument("name", nargs="?", default="", metavar="NAME", help="the rule, or the task")
    parser.add_argument("-o", "--output", default="-", metavar="FILE", help="where the picture is written; else the standard output")
    parser.add_argument("--theme", choices=("auto", "light", "dark"), default="auto", help="`auto` follows the reader's screen")
    parser.add_argument("--most", type=int, default=-1, metavar="N", help="how many tasks, events or arrows are shown before folding (0: all)")
    chosen = parser.parse_args(words)
    if chosen.picture == "rule" and not chosen.name:
        parser.error("the rule that is to be drawn is missing after the file")
    if chosen.name and chosen.picture in ("offices", "messages"):
        parser.error("`%s` is more than the picture %s takes" % (chosen.name, chosen.picture))
    most = MOST[chosen.picture] if chosen.most < 0 else chosen.most or 10**9
    svg = drawn(chosen.picture, command.read_file(chosen.file), chosen.name, most, chosen.theme, chosen.file)
    if chosen.output == "-":
        command.say(svg)
    else:
        command.write_file(chosen.output, svg.encode("utf-8"))
    return 0


def drawn(picture: str, data: bytes, name: str, most: int, theme: str, path: str) -> str:
    """The picture as SVG."""
    good(ask(["check"], data), path, picture == "rule")
    reading = read(decoded(data))
    if picture == "offices":
        return offices(reading.spec, most).drawn(theme)
    if picture == "rule":
        return rule_picture(reading.spec, named_rule(reading, name), reading.lines).drawn(theme)
    answer = ask(["replay"], data)
    if picture == "case" and (answer.status == 6 or "\nartifacts " not in "\n" + answer.output):
        answer = ask(["plain"], data)
    good(answer, path, False)
    if picture == "messages":
        return messages_picture(reading.spec, transcript_of(reading.spec, answer.output), most, theme)
    roots = tasks_of(answer.output)
    return case_picture(reading.spec, roots if not name else [below(roots, name)], most).drawn(theme)


def good(answer: Answer, path: str, circles: bool) -> None:
    """Ends where the program refuses the text."""
    if answer.status == 0 or (circles and answer.status == 4):
        return
    if not answer.output:
        raise Sorry(sentence(answer), answer.status)
    raise Sorry("%s; mend that first: `aw_explain %s` shows the place." % (answer.line, path), answer.status)


def named_rule(reading: Reading, name: str) -> RuleLine:
    """The rule of a name."""
    rules = reading.spec.rules
    if name not in rules:
        raise Sorry("No rule `%s` is declared; %s" % (name, did_you_mean(name, rules) or ("the rules are %s." % listed(rules) if rules else "there is none.")), 2)
    return rules[name]


def below(roots: list[Task], name: str) -> Task:
    """The task of a name."""
    todo = list(roots)
    while todo:
        task = todo.pop()
        if task.name == name:
            return task
        todo += task.below
    raise Sorry("No task `%s` is there after this schedule; the cases are %s." % (name, listed(task.name for task in roots) if roots else "none"), 2)
