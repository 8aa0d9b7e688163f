"""A case at all offices, for a desk that may see the journals of all of them."""
from __future__ import annotations

import logging
import re
from dataclasses import dataclass, field

from . import book
from .book import NotSaid
from .tasks import Task, tasks_of
from .wording import titled

LOG = logging.getLogger("aw_desk")
PARTED = "The case can't be put together now."
DAMAGED = "The journal of one office is damaged. Tell whoever runs the offices."
UNREAD = "The journal of one office can't be read now."
UNFIT = "The journals of the offices don't fit each other: one of them was set back or changed, or a letter was forged. Tell whoever runs the offices."
MISSING = "%s has no journal here, so the case can't be put together."
WHY = {3: UNREAD, 1: UNFIT}


@dataclass(slots=True)
class Journals:
    """The journals of all offices, and the offices that have none since they never served."""

    files: list[str] = field(default_factory=list)
    without: list[str] = field(default_factory=list)

    def joined(self, case: str) -> tuple[list[Task], str]:
        """A case as it stands once every letter has come; or nothing, and why that can't be told. A journal that lost what stands behind a damaged
        place may fit the others all the same, so each is looked at first."""
        without = [word for role in self.without for word in ("--without", role)]
        try:
            book.said("check", *self.files)
        except NotSaid as error:
            return [], told(error, {**WHY, 1: DAMAGED})
        try:
            return list(tasks_of(book.said("cases", "--case", case, *without, *self.files)).values()), ""
        except NotSaid as error:
            missing = re.fullmatch(r"aw_book: no journal of (\S+) is given.*", str(error))
            return [], told(error, {**WHY, 1: MISSING % titled(missing[1])} if missing else WHY)

    def each(self, case: str) -> tuple[list[Task], int]:
        """A case at all offices, each task as its own office knows it now, and how many journals can't be read."""
        found, unread = dict[str, Task](), 0
        for journal in self.files:
            try:
                found.update(tasks_of(book.said("tasks", "--case", case, journal)))
            except NotSaid as error:
                LOG.error("%s", error)
                unread += 1
        return [found[name] for name in sorted(found)], unread


def told(error: NotSaid, why: dict[int, str]) -> str:
    """Tells whoever runs the offices what the book said, and gives the sentence for the page."""
    LOG.error("%s", error.whole or error)
    return why.get(error.status, PARTED)
