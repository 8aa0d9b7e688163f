"""Numbers of a post, in the text form that Prometheus' node exporter reads from a folder."""
from __future__ import annotations

import os
import threading
import time
from collections import Counter

from aw_forms.command import NOT_WRITTEN
from aw_forms.program import Sorry

HELP = {
    "aw_post_letters_carried_total": ("counter", "Letters that were pushed and answered new or again."),
    "aw_post_letters_again_total": ("counter", "Letters among them that the receiver had already."),
    "aw_post_letters_refused_total": ("counter", "Letters that were answered conflict, not mine or bad name. Among honest offices there are none."),
    "aw_post_letters_waiting": ("gauge", "Letters that are known and not yet answered."),
    "aw_post_oldest_letter_age_seconds": ("gauge", "For how long the oldest of them has been known; 0 where none waits."),
    "aw_post_office_up": ("gauge", "Whether the last session with the office went well."),
    "aw_post_office_failures_total": ("counter", "Sessions that did not."),
    "aw_post_broker_failures_total": ("counter", "How often a session with the broker broke off."),
    "aw_post_outbox_anew_total": ("counter", "How often the outbox of an office was another one than before, so that all of it was carried again."),
    "aw_post_places_failures_total": ("counter", "How often the file of places could not be written."),
    "aw_post_written_timestamp_seconds": ("gauge", "When this file was written."),
}


class Metrics:
    """Counters and gauges, each with its labels."""

    def __init__(self, path: str | None) -> None:
        if path is not None and os.path.exists(path) and not os.path.isfile(path):
            raise Sorry("The numbers can't be written into %s: it is no plain file." % path, NOT_WRITTEN)
        self.path = path and os.path.realpath(path)
        self.values, self.lock = Counter[tuple[str, str]](), threading.Lock()

    def add(self, name: str, count: int = 1, **labels: str) -> None:
        """Adds to a counter."""
        with self.lock:
            self.values[name, shown(labels)] += count

    def set(self, name: str, value: float, **labels: str) -> None:
        """Sets a gauge."""
        with self.lock:
            self.values[name, shown(labels)] = round(value, 3)  # type: ignore[assignment]

    def text(self) -> str:
        """All of them."""
        lines = []
        with self.lock:
            for name, (kind, what) in HELP.items():
                found = sorted((labels, value) for (said, labels), value in self.values.items() if said == name)
                if found:
                    lines += ["# HELP %s %s" % (name, what), "# TYPE %s %s" % (name, kind)]
                    lines += ["%s%s %s" % (name, labels, value) for labels, value in found]
        return "\n".join(lines) + "\n"

    def write(self) -> None:
        """Writes the file whole; who reads it never sees a part."""
        if self.path is None:
            return
        self.set("aw_post_written_timestamp_seconds", time.time())
        beside = "%s.new-%d" % (self.path, os.getpid())
        with open(beside, "w", encoding="utf-8") as file:
            file.write(self.text())
        os.chmod(beside, 0o644)
        os.replace(beside, self.path)


def shown(labels: dict[str, str]) -> str:
    """Labels as the form has them; names of roles and replies need no escapes."""
    return "{%s}" % ",".join("%s=\"%s\"" % pair for pair in labels.items()) if labels else ""
