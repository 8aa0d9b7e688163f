"""Lists of open tasks: what fits a filter, in which order, and how much of it a page takes."""
from __future__ import annotations

from collections.abc import Callable

from .tasks import Task, steps_of
from .wording import Wording, human

A_PAGE, MOST_OF_NAMES = 36, 9_000
ORDERS = {"old": "lowest number", "new": "highest number", "long": "longest here", "late": "latest here"}


def wanted(tasks: list[Task], words: str, sort: str, ready: bool, wording: Wording) -> list[Task]:
    """The tasks that fit a filter."""
    looked = words.lower().split()
    return [task for task in tasks if (not sort or wording.sort(task.name) == sort) and (not ready or task.ready)
            and (not looked or holds(" ".join((wording.task(task.name), human(task.name), task.text)).lower(), looked))]


def holds(text: str, words: list[str]) -> bool:
    """Whether a text has each of some words."""
    return all(word in text for word in words)


def cuts(tasks: list[Task]) -> list[int]:
    """Where the pages of a list of tasks begin; a page with long names has fewer tasks."""
    found, size = [0], 0
    for at, task in enumerate(tasks):
        size += len(task.name)
        if at - found[-1] == A_PAGE or (size > MOST_OF_NAMES and at > found[-1]):
            found.append(at)
            size = len(task.name)
    return found


def ordered(tasks: list[Task], order: str, since: Callable[[str], float]) -> list[Task]:
    """Tasks in one of the orders: by case, or by the time since when they have been here and then by case."""
    def key(task: Task) -> tuple[str, int]:
        parts = steps_of(task.name) or (task.name, 0, [])
        return parts[0], parts[1] if order != "new" else -parts[1]
    found = sorted(tasks, key=key)
    if order in ("long", "late"):
        found.sort(key=lambda task: since(task.name) if order == "long" else -since(task.name))
    return found
