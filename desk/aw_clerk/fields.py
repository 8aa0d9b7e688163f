"""The fields of a rule as a form: each by its own name, a value with parts as fields within a field."""
from __future__ import annotations

import re
from collections.abc import Mapping
from dataclasses import dataclass, field

from aw_forms.lines import RuleLine
from aw_forms.value_types import field_type
from aw_offices.frames import LONGEST_TEXT

from .values import LARGEST, NUMBER, TEXT, WORD, Value
from .wording import Wording, human, titled

DEEPEST_FORM = 12
DAY = re.compile(r"(\d{4}-\d\d-\d\d)?")
LONG_WORDS = frozenset(("what", "why", "text", "note", "reason", "comment", "report", "letter", "description"))


@dataclass(slots=True)
class Field:
    """A field: its name in the form, label, type where one is declared, help with it and with its parts, what was entered, and what is wrong with it."""

    key: str
    label: str
    kind: str | None
    help: str = ""
    part_help: str = ""
    chosen: str = ""
    entered: str = ""
    fault: str = ""
    options: list[tuple[str, str]] = field(default_factory=list)
    parts: list["Field"] = field(default_factory=list)

    @property
    def is_number(self) -> bool:
        """Whether a number is to be entered."""
        return self.kind == "num" or (self.kind is None and self.chosen == NUMBER)

    @property
    def is_text(self) -> bool:
        """Whether a text is to be entered."""
        return self.kind == "text" or (self.kind is None and self.chosen == TEXT)

    @property
    def is_long(self) -> bool:
        """Whether a text wants several lines."""
        return self.is_text and (len(self.entered) > 60 or "\n" in self.entered or not LONG_WORDS.isdisjoint(self.label.lower().split()))

    @property
    def is_day(self) -> bool:
        """Whether a text is a day, by its name."""
        return self.is_text and not {"day", "date"}.isdisjoint(self.label.lower().split()) and DAY.fullmatch(self.entered) is not None

    @property
    def is_whole(self) -> bool:
        """Whether everything within is entered and fits."""
        return not self.fault and bool(self.is_number or self.is_text or self.chosen) and all(part.is_whole for part in self.parts)

    @property
    def first_fault(self) -> "Field | None":
        """The first field with something wrong, this one or one within it."""
        return self if self.fault else next((found for part in self.parts if (found := part.first_fault)), None)

    def value(self) -> Value:
        """What was entered, where it is whole."""
        if self.is_number:
            return Value(NUMBER, str(int(self.entered)))
        if self.is_text:
            return Value(TEXT, self.entered)
        return Value(WORD, self.chosen, [part.value() for part in self.parts])


def fields_of(wording: Wording, rule: RuleLine, form: Mapping[str, str], look: bool) -> list[Field]:
    """The fields of a rule with what a form has of them; where it is to be looked at, with what is wrong."""
    found = []
    for at, param in enumerate(rule.params):
        kind = field_type(wording.spec, rule, param) if wording.spec.typed else None
        made = Field("f%d" % at, titled(param.text), kind, wording.note("type", kind or ""))
        fill(wording, made, form, look, 0)
        found.append(made)
    return found


def fill(wording: Wording, into: Field, form: Mapping[str, str], look: bool, depth: int) -> None:
    """Takes from a form what belongs to a field, and makes the fields within it."""
    into.entered = form.get(into.key, "").replace("\r\n", "\n").replace("\r", "\n")
    into.options = options_of(wording, into.kind)
    into.chosen = form.get(into.key + ".is", "" if into.kind else TEXT)
    if into.kind not in ("num", "text"):
        if into.kind is not None and len(into.options) == 1:
            into.chosen = into.options[0][0]
        if into.chosen not in [value for value, _ in into.options]:
            into.chosen = ""
    if look:
        into.fault = fault_of(into)
    if into.chosen in wording.spec.cons and into.kind not in ("num", "text"):
        into.parts, into.part_help = parts_of(wording, into, form), wording.note("con", into.chosen)
        if into.parts and depth == DEEPEST_FORM:
            into.parts, into.fault = [], "Nothing deeper can be entered here: %d values within one another are the most." % DEEPEST_FORM
        for part in into.parts:
            fill(wording, part, form, look and part.key + ".seen" in form, depth + 1)


def parts_of(wording: Wording, into: Field, form: Mapping[str, str]) -> list[Field]:
    """The fields within a field, for the parts of the constructor that was chosen."""
    shape = wording.spec.shapes.get(into.chosen)
    kinds: list[str | None] = [token.text for token in shape.parts] if shape else [None] * wording.spec.cons[into.chosen].parts.number
    return [Field("%s.%d" % (into.key, at), titled(wording.part(into.chosen, at) or "part %d" % (at + 1)), kind) for at, kind in enumerate(kinds)]


def options_of(wording: Wording, kind: str | None) -> list[tuple[str, str]]:
    """What can be chosen for a field of a type; where nothing is known of it, everything."""
    if kind in ("num", "text"):
        return []
    if kind is not None:
        return [(name, human(name)) for name, shape in wording.spec.shapes.items() if shape.own.text == kind]
    return [(TEXT, "a text"), (NUMBER, "a number"), *((name, human(name)) for name in wording.spec.cons if name not in (TEXT, NUMBER))]


def fault_of(of: Field) -> str:
    """What is wrong with what was entered."""
    if of.is_number:
        digits = of.entered.strip()
        if not digits.isascii() or not digits.isdigit():
            return "Enter a whole number in digits, as 120." if digits else "Enter a number."
        of.entered = digits.lstrip("0") or "0"
        if len(of.entered) > 20 or int(of.entered) > LARGEST:
            return "This number is too large; the largest is %d." % LARGEST
        return ""
    if of.is_text:
        data = of.entered.encode("utf-8", "surrogateescape")
        if len(data) > LONGEST_TEXT:
            return "This text has %d bytes, and %d are the most; a letter like ø takes two." % (len(data), LONGEST_TEXT)
        if any((ord(sign) < 32 and sign != "\n") or ord(sign) == 127 for sign in of.entered):
            return "This text has a sign in it that no text may have, as a tab; take it out."
        return ""
    return "" if of.chosen else "Choose one."
