"""Values: read as the book writes them, spelled as the node takes them."""
from __future__ import annotations

import random

import pytest
from conftest import CLAIM_TEXT

import client
from aw_clerk import trees
from aw_clerk.tasks import Task, tasks_of
from aw_clerk.values import MOST_SHOWN, NUMBER, TEXT, WORD, Unfit, Value, grounds, groups_of
from aw_clerk.wording import wording

NAMES = client.Names(CLAIM_TEXT)
TEXTS = ["", "storm", 'a "b", (c) <d> {e}', "\\", "two\nlines", "\\n", "æøå 好", "<script>alert(1)</script>", "?visit#1:r1", "x" * 1024, b"\x80\xff".decode("utf-8", "surrogateescape")]


def drawn(draw: random.Random, depth: int = 0) -> Value:
    """A value."""
    way = draw.randrange(5)
    if way == 0 or depth > 4:
        return Value(NUMBER, str(draw.choice([0, 1, 7, 88012, (1 << 64) - 1])))
    if way == 1:
        return Value(TEXT, draw.choice(TEXTS))
    name = draw.choice(NAMES.cons)
    return Value(WORD, name, [drawn(draw, depth + 1) for _ in range(draw.randrange(4))])


def test_what_is_written_is_read() -> None:
    draw = random.Random(1)
    for _ in range(2000):
        lists = [[drawn(draw) for _ in range(draw.randrange(4))] for _ in range(3)]
        text = " ".join(a + ", ".join(value.words() for value in values) + b for (a, b), values in zip(("{}", "()", "<>"), lists))
        assert groups_of(text) == lists


def test_bytes_are_those_of_another_writer() -> None:
    """The client of the examples spells the same words, written apart."""
    draw = random.Random(2)
    for _ in range(2000):
        values = [drawn(draw) for _ in range(draw.randrange(1, 4))]
        said = client.Words(NAMES, "{%s}" % ", ".join(value.words() for value in values))
        want = said.several(said.ground, "{", "}")
        try:
            assert grounds(values, NAMES.cons) == bytes([len(want)]) + b"".join(want)
        except Unfit:
            assert sum(1 for value in values for _ in value.words()) > 256


@pytest.mark.parametrize("value", [Value(TEXT, "x" * 1025), Value(TEXT, "ø" * 513)])
def test_what_is_too_long_is_not_sent(value: Value) -> None:
    with pytest.raises(Unfit):
        grounds([value], NAMES.cons)


def test_what_is_too_deep_is_not_sent() -> None:
    value = Value(NUMBER, "1")
    for _ in range(32):
        value = Value(WORD, "account", [value])
    with pytest.raises(Unfit):
        grounds([value], NAMES.cons)


def test_a_value_of_any_size_is_shown_in_part() -> None:
    text = "(" + "account(" * 200000 + "?claim#1:r1" + ")" * 200000 + ", 7) <?claim#1:r1>"
    groups = groups_of(text)
    assert len(groups) == 2 and groups[1][0].word == "claim#1:r1"
    shown = str(trees.page(wording(CLAIM_TEXT, "claim"), [("", groups[0][0])]))
    assert "… and more" in shown and len(shown) < 20000
    assert groups[0][0].words().count("(") <= MOST_SHOWN


def test_what_is_shown_is_no_markup() -> None:
    shown = str(trees.page(wording(CLAIM_TEXT, "claim"), [("a<b", Value(TEXT, "<script>'\"&\n</script>")), ("", Value(TEXT, ""))]))
    assert "<script>" not in shown and "&lt;script&gt;" in shown and "<br>" in shown and "(nothing)" in shown


def test_tasks_of_lines() -> None:
    tasks = tasks_of(["claim#1 open_claim {1} () <letter(?claim#1/open_claim.1:r1, ?claim#1/open_claim.2:r1)>",
                      "claim#1/open_claim.2 open (account(1), ?claim#1/open_claim.1:r1) <?claim#1/open_claim.2:r1>",
                      "item claim#1/open_claim.2 pay waits claim#1/open_claim.1:r1", "item claim#1/open_claim.2 file_away ready"])
    one, two = tasks.values()
    assert isinstance(one, Task) and not one.is_open and one.values()[0][0].word == "1" and two.is_open and two.ready == ["file_away"]
    assert list(one.values()[2][0].blanks()) == ["claim#1/open_claim.1:r1", "claim#1/open_claim.2:r1"]


def test_labels_are_the_names_that_rules_give() -> None:
    words = wording(CLAIM_TEXT, "claim")
    assert [words.part("damage", at) for at in range(3)] == ["policy", "what", "asked"]
    assert words.part("letter", 0) == "assessment" and words.part("letter", 1) == "payment"
    assert words.note("rule", "deny") == "The assessor refuses."
    assert words.task("claim#1/open_claim.1") == "assessment, claim 1" and words.home("claim#1/open_claim.2") == "payments"
