"""Values as definition lists and as indented lines: each part with the name that the rules give it."""
from __future__ import annotations

from collections.abc import Iterator

from markupsafe import Markup, escape

from .tasks import Task
from .values import BLANK, MORE, TEXT, WORD, Value, readable
from .wording import Wording, human, titled

DEEPEST = 40
MOST_BYTES, OF_A_TAG = 24_000, 90
Labelled = tuple[str, Value]


def labelled(wording: Wording, value: Value) -> list[Labelled]:
    """The parts of a value with their labels."""
    return [(wording.part(value.word, at), part) for at, part in enumerate(value.parts)]


def size(label: str, value: Value) -> int:
    """About how many bytes the front of a value takes on a page."""
    return OF_A_TAG + len(label) + len(str(escape(value.word)).encode("utf-8", "surrogateescape"))


def lists(wording: Wording, task: Task) -> dict[str, list[Labelled]]:
    """What a task was given, what was entered, and its results, with their labels."""
    entered, given, results = task.values()
    rule = wording.spec.rules.get(task.rule)
    fields = [param.text for param in rule.params] if rule else []
    return {"given": [(wording.given(task.name, at), value) for at, value in enumerate(given)],
            "entered": [(fields[at] if at < len(fields) else "", value) for at, value in enumerate(entered)],
            "results": [(wording.result(task.name, at), value) for at, value in enumerate(results)]}


def visits(wording: Wording, values: list[Labelled], most: int = MOST_BYTES) -> Iterator[tuple[str, str, Value, int]]:
    """Goes through values from left to right: `enter` each, and `leave` each that has parts. Of what is larger than a page shows, the rest is left out."""
    todo, left = [("enter", label, value, 0) for label, value in reversed(values)], most
    while todo:
        way, label, value, depth = todo.pop()
        if way == "enter":
            left -= size(label, value)
        if way == "enter" and left < 0:
            label, value, todo = "", Value(MORE, "…"), [one for one in todo if one[0] == "leave"]
        elif depth > DEEPEST:
            value = Value(MORE, "…")
        yield way, label, value, depth
        if way == "enter" and value.parts:
            todo.append(("leave", label, value, depth))
            todo += [("enter", name, part, depth + 1) for name, part in reversed(labelled(wording, value))]


def phrase(wording: Wording, value: Value) -> str:
    """What is at the front of a value, in words."""
    if value.kind == BLANK:
        return wording.missing(value.word)
    if value.kind == MORE:
        return "… and more, which is not shown here"
    return human(value.word) if value.kind == WORD else readable(value.word) or "(nothing)"


def front(wording: Wording, label: str, value: Value) -> str:
    """What stands beside a label: nothing where a value with parts is called as its label is."""
    words = phrase(wording, value)
    return "" if value.parts and words == human(label) else words


def page(wording: Wording, values: list[Labelled], most: int = MOST_BYTES) -> Markup:
    """Values as nested definition lists."""
    found = [Markup('<dl class="values">')]
    for way, label, value, _ in visits(wording, values, most):
        if way == "leave":
            found.append(Markup("</dl></dd></div>"))
            continue
        kind = value.kind if value.word or value.kind != TEXT else "nothing"
        found.append(Markup('<div><dt>%s</dt><dd><span class="%s">') % (titled(label) or "Value", kind))
        found += [Markup("<br>").join(front(wording, label, value).split("\n"))]
        found.append(Markup("</span><dl>") if value.parts else Markup("</span></dd></div>"))
    found.append(Markup("</dl>"))
    return Markup("").join(found)


def lines(wording: Wording, values: list[Labelled]) -> list[str]:
    """Values as lines, what is within further to the right."""
    found = []
    for way, label, value, depth in visits(wording, values):
        if way == "enter":
            words = front(wording, label, value).split("\n")
            pad = "  " * min(depth, 20)
            found.append(("%s%s: %s" % (pad, titled(label) or "Value", words[0])).rstrip())
            found += ["%s    %s" % (pad, more) for more in words[1:]]
    return found


def brief(wording: Wording, values: list[Labelled], most: int = 3) -> list[tuple[str, str, str]]:
    """The first plain values in a few words, for a list of tasks: label, words, kind."""
    found = []
    for way, label, value, _ in visits(wording, values):
        if way == "enter" and not value.parts:
            words = phrase(wording, value) if value.kind != BLANK else "not there yet, from %s" % human(wording.owner(value.word)[0])
            found.append((titled(label) or "Value", words if len(words) <= 60 else words[:57] + "…", value.kind))
        if len(found) == most:
            break
    return found
