"""killed_post.py NUMBER WORDS ..: the post, killed at its so-manyth step: before or after bytes go out or come in, and before or after places are written."""
from __future__ import annotations

import os
import sys
from collections.abc import Callable
from pathlib import Path
from typing import Any

sys.dont_write_bytecode = True
OFFICES = Path(__file__).resolve().parent.parent
sys.path[:0] = [str(OFFICES), str(OFFICES.parent / "forms")]

from aw_forms import command  # noqa: E402
from aw_offices import places, post, sessions  # noqa: E402

left = int(sys.argv.pop(1))


def step() -> None:
    """Ends the process where its steps are used up, as SIGKILL does."""
    global left
    left -= 1
    if left < 0:
        os._exit(9)


def stepped(work: Callable[..., Any]) -> Callable[..., Any]:
    """A function that is a step before and a step behind."""
    def run(*words: Any) -> Any:
        step()
        done = work(*words)
        step()
        return done
    return run


sessions.Session.moved = stepped(sessions.Session.moved)  # type: ignore[method-assign]
places.Places.save = stepped(places.Places.save)  # type: ignore[method-assign]
places.os.replace = stepped(os.replace)  # type: ignore[assignment]
command.run(post.NAME, post.main)
