"""What was typed into a form that was refused, so that the form is shown once more with it."""
from __future__ import annotations

import re
import threading
from collections.abc import Mapping

KEY = re.compile(r"f[0-7](\.[0-9]+)*(\.is|\.seen)?|number")
MOST_KEPT = 32


class Entered:
    """What was typed and not taken, by the session and the page of the form. The last few are kept, and none on disk."""

    def __init__(self) -> None:
        self.turn = threading.Lock()
        self.kept: dict[tuple[str, str], dict[str, str]] = {}

    def keep(self, session: str, page: str, form: Mapping[str, str]) -> None:
        """Keeps what was typed into a form."""
        with self.turn:
            self.kept.pop((session, page), None)
            self.kept[session, page] = {key: value for key, value in form.items() if KEY.fullmatch(key)}
            while len(self.kept) > MOST_KEPT:
                del self.kept[next(iter(self.kept))]

    def of(self, session: str, page: str) -> dict[str, str]:
        """What was typed into a form and not taken."""
        with self.turn:
            return self.kept.get((session, page), {})

    def forget(self, session: str, page: str) -> None:
        """Forgets what was typed: it was taken."""
        with self.turn:
            self.kept.pop((session, page), None)

    def hand_on(self, session: str, later: str) -> None:
        """Gives what was typed in one session to the one that follows it."""
        with self.turn:
            self.kept = {(later if own == session else own, page): form for (own, page), form in self.kept.items()}
