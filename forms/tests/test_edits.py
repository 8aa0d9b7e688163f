"""Ten thousand edits of the examples: the companion reads each as the program does.

FORMS_EDITS is the number of edits, 10,000 where it is not set; FORMS_RANDOM=1 draws others each time.
"""
from __future__ import annotations

import os
from concurrent.futures import ProcessPoolExecutor

import pytest
from hypothesis import HealthCheck, settings
from hypothesis import given
from hypothesis import strategies as st

import edits

NUMBER = int(os.environ.get("FORMS_EDITS", "10000"))
BATCH = 200
PROCESSES = min(4, os.cpu_count() or 1)
DRAWN = st.integers(0, edits.SCALE - 1)
EDIT = st.tuples(st.integers(0, 44), DRAWN, DRAWN)
TEXT = st.tuples(st.integers(0, len(edits.BASES) - 1), st.lists(EDIT, min_size=1, max_size=3))


@pytest.fixture(scope="module")
def pool():
    """Processes that read texts."""
    with ProcessPoolExecutor(PROCESSES) as executor:
        yield executor


@settings(max_examples=max(1, NUMBER // BATCH), deadline=None, database=None, derandomize=os.environ.get("FORMS_RANDOM") != "1",
          suppress_health_check=list(HealthCheck))
@given(texts=st.lists(TEXT, min_size=BATCH, max_size=BATCH))
def test_the_companion_reads_each_edit_as_the_program_does(pool, texts):
    """Line and kind are equal on each, and each place is on its line."""
    size = BATCH // PROCESSES
    found = [words for some in pool.map(edits.disagreements, [texts[at:at + size] for at in range(0, BATCH, size)]) for words in some]
    assert not found, "\n".join(found[:5])


def test_the_examples_themselves_are_read_alike():
    """And each example as it is."""
    assert [words for words in map(edits.difference, edits.BASES) if words] == []
