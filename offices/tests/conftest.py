"""What the tests share: systems that end with the test."""
from __future__ import annotations

import os
import sys
import tempfile
from collections.abc import Callable, Iterator
from pathlib import Path

import pytest

sys.dont_write_bytecode = True
sys.path.insert(0, str(Path(__file__).resolve().parent))

from systems import (CLAIM, CLINIC, EXAMPLES, FAST, LONG, OFFICES, TOP, System, aw, listens, opened, text_of, until)  # noqa: E402

from aw_forms.program import Sorry, found  # noqa: E402

__all__ = ["CLAIM", "CLINIC", "EXAMPLES", "LONG", "OFFICES", "TOP", "System", "aw", "listens", "opened", "text_of", "until"]


def pytest_configure(config: pytest.Config) -> None:
    """Without the program nothing can be tested: says so and ends."""
    try:
        os.environ["AW"] = str(found())
    except Sorry as sorry:
        pytest.exit("not run: %s" % sorry, 1)


@pytest.fixture
def make() -> Iterator[Callable[[str], System]]:
    """Makes systems that end with the test."""
    with tempfile.TemporaryDirectory(dir=FAST) as folder:
        made: list[System] = []

        def one(text: str) -> System:
            (Path(folder) / str(len(made))).mkdir()
            made.append(System(text, Path(folder) / str(len(made))))
            return made[-1]
        try:
            yield one
        finally:
            for system in made:
                system.end()
