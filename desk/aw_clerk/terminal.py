"""The command `aw_desk_tty`: the desk in a terminal, by keys alone."""
from __future__ import annotations

import textwrap
from collections.abc import Callable, Iterable

from prompt_toolkit import PromptSession
from prompt_toolkit.completion import WordCompleter
from prompt_toolkit.validation import ValidationError, Validator
from prompt_toolkit.document import Document

from aw_forms.lines import RuleLine
from aw_forms.program import Sorry

from . import trees
from .book import NotSaid
from .desk import Desk
from .fields import Field, fields_of
from .main import opened, terminal_words
from .lists import ordered, wanted
from .records import UNSURE
from .tasks import Task
from .values import BLANK, TEXT
from .whole import Journals
from .wording import human, moment, titled

NAME = "aw_desk_tty"
A_SCREEN, MOST_OF_VALUES = 20, 50
STAYS = "What you entered is there when you choose it again."
HELP = """
  1, 2 ..  the task with this number: what it was given, and what can be done
  n        begin a case
  c        a case by its number: what this office knows of it
  d        what was decided at this desk
  /words   only the tasks with these words; / alone shows all
  + -      the next page of tasks, and the one before
  h        these letters
  q        the end
  An empty line goes back, and at the list shows what is new. Nothing is sent without a `yes`."""
BEHIND = "\nat the list of open tasks" + HELP + "\n\nThe statuses are those of `aw_desk`.\n"


class Fits(Validator):
    """Takes what a test has nothing to say about."""

    def __init__(self, test: Callable[[str], str]) -> None:
        self.test = test

    def validate(self, document: Document) -> None:
        """Refuses the rest with what the test says."""
        fault = self.test(document.text)
        if fault:
            raise ValidationError(message=fault, cursor_position=len(document.text))


class Back(Exception):
    """An empty line: back to the list."""


class Terminal:
    """The desk in a terminal."""

    def __init__(self, desk: Desk, clerk: str) -> None:
        self.desk, self.clerk = desk, clerk
        self.session: PromptSession[str] = PromptSession()
        self.words, self.at = "", 0
        self.typed: dict[tuple[str, str], dict[str, str]] = {}

    def ask(self, words: str, test: Callable[[str], str] = lambda _: "", choices: list[str] | None = None, default: str = "") -> str:
        """What is typed behind some words."""
        completer = WordCompleter(choices, ignore_case=True) if choices else None
        return self.session.prompt(words, validator=Fits(test), validate_while_typing=False, completer=completer, default=default)

    def run(self) -> None:
        """Shows the open tasks until `q` is typed."""
        while True:
            tasks = ordered(wanted(list(self.desk.open().values()), self.words, "", False, self.desk.wording), "old", self.desk.records.since)
            self.screen(tasks)
            said = self.ask("Number of a task, or a letter (h for help): ").strip()
            if said == "q":
                return
            try:
                self.go(said, tasks)
            except Back:
                pass

    def screen(self, tasks: list[Task]) -> None:
        """Shows a screen of tasks."""
        last = max((len(tasks) - 1) // A_SCREEN, 0)
        self.at = min(self.at, last)
        print("\n%s: %d open%s" % (titled(self.desk.role), len(tasks), " with “%s”" % self.words if self.words else ""))
        for number, task in enumerate(tasks[self.at * A_SCREEN:(self.at + 1) * A_SCREEN], self.at * A_SCREEN + 1):
            print("%4d  %s" % (number, self.line(task)))
        if last:
            print("      page %d of %d" % (self.at + 1, last + 1))

    def line(self, task: Task) -> str:
        """A task in a line: its first values in brackets, and what can be done."""
        wording = self.desk.wording
        values = ", ".join("?" if kind == BLANK else words.partition("\n")[0] for _, words, kind in trees.brief(wording, trees.lists(wording, task)["given"]))
        return "%s%s: %s" % (titled(wording.task(task.name)), " (%s)" % (values if len(values) <= MOST_OF_VALUES else values[:MOST_OF_VALUES - 1] + "…") if values else "", ", ".join(map(human, task.ready)) or "waits")

    def go(self, said: str, tasks: list[Task]) -> None:
        """Does what was typed at the list."""
        if said == "h":
            print(HELP)
        elif said == "n":
            self.begin()
        elif said == "d":
            self.decided()
        elif said == "c":
            self.case()
        elif said in ("+", "-"):
            self.at = max(self.at + (1 if said == "+" else -1), 0)
        elif said.startswith("/"):
            self.words, self.at = said[1:].strip(), 0
        elif said.isdecimal() and 0 < int(said) <= len(tasks):
            self.show(tasks[int(said) - 1])
        elif said:
            print("There is no task %s." % said)

    def show(self, task: Task) -> None:
        """Shows a task, and asks what to do."""
        wording = self.desk.wording
        print("\n%s" % titled(wording.task(task.name)))
        self.help("sort", wording.sort(task.name))
        print("\n".join(trees.lines(wording, trees.lists(wording, task)["given"])))
        rules = [rule for rule in wording.rules(task.name) if not wording.state(task, rule)]
        for rule in wording.rules(task.name):
            why = wording.state(task, rule)
            if why:
                print("   -  %s: %s" % (titled(rule.name.text), why))
        for number, rule in enumerate(rules, 1):
            print("%4d  %s" % (number, titled(rule.name.text)))
        if not rules:
            raise Back
        said = self.ask("What to do (a number; an empty line goes back): ", lambda text: "" if not text or text.isdecimal() and 0 < int(text) <= len(rules) else "A number from 1 to %d, or an empty line." % len(rules))
        if not said:
            raise Back
        self.do(task, rules[int(said) - 1])

    def do(self, task: Task, rule: RuleLine) -> None:
        """Asks for the fields of a rule, shows them, and sends them. What was typed and not taken is there when the rule is chosen once more."""
        wording = self.desk.wording
        self.help("rule", rule.name.text)
        form: dict[str, str] = {}
        typed = self.typed.setdefault((task.name, rule.name.text), {})
        while (field := missing(fields_of(wording, rule, form, True), form)) is not None:
            self.fill(field, form, typed)
            typed.update(form)
        entered = [field.value() for field in fields_of(wording, rule, form, True)]
        print("\n%s: send this?" % titled(rule.name.text))
        print("\n".join(trees.lines(wording, [(rule.params[at].text, value) for at, value in enumerate(entered)])) or "   (nothing is entered)")
        if self.ask("yes or no: ", lambda text: "" if text.strip() in ("yes", "no", "") else "Type yes or no.", ["yes", "no"]).strip() != "yes":
            print("Nothing was sent. " + STAYS)
            raise Back
        said = self.desk.choose(self.clerk, task, rule, entered)
        if said.done:
            del self.typed[task.name, rule.name.text]
        print("%s %s" % (said.words, STAYS) if said.again else said.words)

    def help(self, form: str, name: str) -> None:
        """Shows what the specification's author wrote above a line."""
        for line in textwrap.wrap(self.desk.wording.note(form, name), 76):
            print("   " + line)

    def fill(self, field: Field, form: dict[str, str], typed: dict[str, str]) -> None:
        """Asks what a field is, where that is not known, or what is in it; what was typed before stands there already."""
        words = {words: value for value, words in field.options}
        was = next((word for word, value in words.items() if value == typed.get(field.key + ".is")), "")
        if field.options and field.kind is None and field.key + ".is" not in form:
            said = self.ask("%s is (%s; an empty line for a text): " % (field.label, some(words)), lambda text: "" if text.strip() in ("", *words) else "One of: %s." % ", ".join(words), list(words), was)
            form[field.key + ".is"] = words.get(said.strip(), TEXT)
        elif field.options and not field.chosen:
            said = self.ask("%s (%s): " % (field.label, some(words)), lambda text: "" if text.strip() in ("", *words) else "One of: %s." % ", ".join(words), list(words), was).strip()
            if not said:
                raise Back
            form[field.key + ".is"] = words[said]
        else:
            if field.fault and field.key + ".seen" in form:
                print(field.fault)
            form[field.key + ".seen"] = "1"
            was = typed.get(field.key, "").replace("\n", "\\n")
            form[field.key] = self.ask("%s: " % field.label, lambda text: number_fault(text) if field.is_number else "", default=was).replace("\\n", "\n")

    def decided(self) -> None:
        """Shows what was decided at this desk, and what came of one of it."""
        wording, notes = self.desk.wording, [note for _, note in self.desk.records.decisions(A_SCREEN)]
        for number, note in enumerate(notes, 1):
            words = "" if note.answer == "taken" else "   (%s)" % (note.answer if note.answer == UNSURE else wording.answer(note.answer))
            print("%4d  %s, %s: %s: %s%s" % (number, moment(note.at), note.clerk, titled(wording.task(note.task)), human(note.rule) or "begun", words))
        if not notes:
            print("Nothing was decided at this desk yet.")
            raise Back
        said = self.ask("Which one (a number; an empty line goes back): ", lambda text: "" if not text or text.isdecimal() and 0 < int(text) <= len(notes) else "A number from 1 to %d, or an empty line." % len(notes))
        task = self.desk.task(notes[int(said) - 1].task) if said else None
        if task is not None:
            self.whole(task)

    def whole(self, task: Task) -> None:
        """Shows what a task was given, what was entered, and its results."""
        for part, values in trees.lists(self.desk.wording, task).items():
            if values:
                print("\n".join([titled(part) + ":", *("  " + line for line in trees.lines(self.desk.wording, values))]))

    def case(self) -> None:
        """Shows what this office knows of a case."""
        sort, number = self.numbered(list(self.desk.wording.spec.starts))
        tasks = self.desk.case("%s#%d" % (sort, number))
        if not tasks:
            print("This office knows nothing of %s." % self.desk.wording.task("%s#%d" % (sort, number)))
        for task in tasks.values():
            print("\n%s: %s" % (titled(self.desk.wording.task(task.name)), human(task.rule) or "still open"))
            self.whole(task)

    def begin(self) -> None:
        """Begins a case."""
        if not self.desk.starts():
            print("No case begins at this desk.")
            raise Back
        print(self.desk.start(self.clerk, *self.numbered(self.desk.starts())).words)

    def numbered(self, sorts: list[str]) -> tuple[str, int]:
        """The sort and the number of a case, as they are typed."""
        sort = sorts[0] if len(sorts) == 1 else self.ask("Which (%s): " % ", ".join(map(human, sorts)), choices=sorts).strip().replace(" ", "_")
        if sort not in sorts:
            raise Back
        number = self.ask("Number of the case: ", lambda text: number_fault(text) if text.strip() else "").strip()
        if not number:
            raise Back
        return sort, int(number)


def number_fault(text: str) -> str:
    """What is wrong with a number."""
    digits = text.strip()
    return "" if digits.isascii() and digits.isdigit() and int(digits[:30]) < 1 << 64 and len(digits) <= 20 else "A whole number, please."


def some(words: Iterable[str]) -> str:
    """The first of some words, for a question."""
    found = list(words)
    return ", ".join(found[:12]) + (", .." if len(found) > 12 else "")


def missing(fields: list[Field], form: dict[str, str]) -> Field | None:
    """The first field that is to be asked for."""
    todo = list(fields)
    while todo:
        field = todo.pop(0)
        plain = field.is_number or field.is_text
        if field.fault or (plain and field.key + ".seen" not in form) or not (plain or field.chosen):
            return field
        todo = field.parts + todo
    return None


def main(given: list[str]) -> int:
    """Runs the desk in a terminal."""
    words = terminal_words(NAME, given, BEHIND)
    desk = opened(words, Journals())
    try:
        Terminal(desk, words.clerk).run()
    except (EOFError, KeyboardInterrupt):
        pass
    except NotSaid as error:
        raise Sorry("The journal can't be read: %s." % error, 66) from None
    finally:
        desk.close()
    return 0
