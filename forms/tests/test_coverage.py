"""Coverage against brute force: over small types, the program's own answers say which values no rule fits."""
from __future__ import annotations

import itertools
import os
import re

from hypothesis import HealthCheck, given, settings
from hypothesis import strategies as st

from conftest import EXAMPLES, tool

from aw_forms.coverage import uncovered, whole
from aw_forms.lexing import lines_of
from aw_forms.program import ask
from aw_forms.verdict import read

NUMBER = int(os.environ.get("FORMS_COVERAGE", "300"))
NUMBERS, TEXTS = ["0", "1", "2"], ['""', '"a"', '"text"']
DEEPEST = 2
Type = list[tuple[str, list[str]]]


def values_of(kind: str, types: dict[str, Type], deep: int) -> list[str]:
    """The values of a type up to a depth."""
    if kind in ("num", "text"):
        return NUMBERS if kind == "num" else TEXTS
    found = []
    for name, parts in types[kind]:
        if not parts or deep > 1:
            found += ["%s(%s)" % (name, ", ".join(some)) if some else name for some in itertools.product(*(values_of(part, types, deep - 1) for part in parts))]
    return found[:40]


@st.composite
def shapes(draw) -> dict[str, Type]:
    """One to three types, each with constructors of up to two parts; the first one of each has no parts but what comes before it."""
    types: dict[str, Type] = {}
    for number in range(draw(st.integers(1, 3))):
        kind = "t%d" % number
        earlier = ["num", "text", *types]
        makers = [("c%d_0" % number, draw(st.lists(st.sampled_from(earlier), max_size=1)))]
        for maker in range(1, draw(st.integers(1, 3))):
            makers.append(("c%d_%d" % (number, maker), draw(st.lists(st.sampled_from([*earlier, kind]), max_size=2))))
        types[kind] = makers
    return types


@st.composite
def pattern(draw, kind: str, types: dict[str, Type], names: list[str], deep: int = 3) -> str:
    """A pattern of a type."""
    if deep == 0 or draw(st.integers(0, 2)) == 0:
        names.append("v%d" % len(names))
        return names[-1]
    if kind in ("num", "text"):
        return draw(st.sampled_from(NUMBERS[:2] if kind == "num" else TEXTS[:2]))
    name, parts = draw(st.sampled_from(types[kind]))
    inner = [draw(pattern(part, types, names, deep - 1)) for part in parts]
    return "%s(%s)" % (name, ", ".join(inner)) if inner else name


@st.composite
def specification(draw) -> tuple[str, dict[str, Type], list[str], list[list[str]]]:
    """A typed specification whose sort `probe` has some rules: its lines, its types, the types of the values, and the patterns."""
    types = draw(shapes())
    kinds = draw(st.lists(st.sampled_from(["num", "text", *types, *types]), min_size=1, max_size=2))
    rules = []
    for _ in range(draw(st.integers(1, 5))):
        names: list[str] = []
        rules.append([draw(pattern(kind, types, names)) for kind in kinds])
    makers = [(name, parts, kind) for kind, every in types.items() for name, parts in every]
    lines = ["role r", *("con %s %d" % (name, len(parts)) for name, parts, _ in makers), "sort top r 0 0", "sort probe r %d 0" % len(kinds), "start top",
             *("type %s" % kind for kind in types), *("shape %s (%s) %s" % (name, ", ".join(parts), kind) for name, parts, kind in makers),
             "carry top ()<>", "carry probe (%s)<>" % ", ".join(kinds)]
    fields = ", ".join("f%d" % number for number in range(len(kinds)))
    lines.append("rule give {%s} : top()<> = probe(%s)<>" % (fields, fields))
    lines += ["rule r%d : probe(%s)<>" % (number, ", ".join(patterns)) for number, patterns in enumerate(rules)]
    return "\n".join(lines) + "\n", types, kinds, rules


def fitting(text: str, values: list[list[str]], rules: int) -> list[bool]:
    """Whether a rule fits each list of values, by the program."""
    events, case = ["schedule"], 0
    for some in values:
        for rule in range(rules):
            events += ["start top %d" % case, "choose top#%d give {%s}" % (case, ", ".join(some)), "choose top#%d/give.1 r%d" % (case, rule)]
            case += 1
    answer = ask(["plain"], (text + "\n".join(events) + "\n").encode())
    assert answer.status == 0, answer
    answers = re.findall(r"^choose top#\d+/give\.1 r\d+: (taken|mismatch [0-9.]+)$", answer.output, re.MULTILINE)
    assert len(answers) == case
    return [any(answers[at * rules + rule] == "taken" for rule in range(rules)) for at in range(len(values))]


@settings(max_examples=NUMBER, deadline=None, database=None, derandomize=os.environ.get("FORMS_RANDOM") != "1", suppress_health_check=list(HealthCheck))
@given(specification())
def test_coverage_is_what_brute_force_finds(drawn) -> None:
    """A value that is told fits no rule; and where some small value fits none, one is told, of whose form it is."""
    text, types, kinds, rules = drawn
    spec = read(text).spec
    told = uncovered(spec, "probe", 200)
    examples = [[str(value) for value in whole(spec, some)] for some in told]
    small = [list(some) for some in itertools.product(*(values_of(kind, types, DEEPEST) for kind in kinds))][:60]
    fits = fitting(text, examples[:20] + small, len(rules))
    assert not any(fits[:len(examples[:20])]), (text, examples)
    for some, fit in zip(small, fits[len(examples[:20]):]):
        covered = not any(all(is_of(value, written) for value, written in zip(form, some)) for form in told)
        assert covered == fit or len(told) == 200, (text, some, fit, list(map(str, told)))


def is_of(value, written: str) -> bool:
    """Whether a written value is of the form of a told one, where `_` is any and a literal is for all that no rule writes there."""
    if value.head == "_":
        return True
    if value.kind in ("num", "text"):
        return written not in value.besides if value.besides else value.head == written
    head, _, rest = written.partition("(")
    if head != value.head:
        return False
    inner = split(rest[:-1]) if rest else []
    return len(inner) == len(value.parts) and all(is_of(part, some) for part, some in zip(value.parts, inner))


def split(inner: str) -> list[str]:
    """The parts of a written value."""
    found, depth, last = [], 0, 0
    for at, c in enumerate(inner + ","):
        depth += {"(": 1, ")": -1}.get(c, 0)
        if c == "," and depth == 0:
            found.append(inner[last:at].strip())
            last = at + 1
    return found


def test_a_forgotten_verdict_is_found() -> None:
    """The claim, with a verdict that payments forgot."""
    text = (EXAMPLES / "insurance-claim-typed.aw").read_text()
    text = text.replace("con denied 1\n", "con denied 1\ncon postponed 1\n").replace("shape denied (text) verdict\n", "shape denied (text) verdict\nshape postponed (num) verdict\n")
    text = text.replace("rule deny {why}", "rule postpone {days} : assessment(x)<postponed(days)>\nrule deny {why}")
    done = tool("aw_lint", "-", data=text.encode())
    assert done.returncode == 1 and "no rule fits `payment(account(_), postponed(_))`" in done.stdout
    assert 'for example `payment(account(""), postponed(0))`' in done.stdout


def test_too_many_combinations_are_told() -> None:
    """Where there are too many to look at, this is said, and soon."""
    kinds, each = 8, 6
    lines = ["role r", *("con c%d 0" % number for number in range(each)), "sort top r 0 0", "sort probe r %d 0" % kinds, "start top", "type t",
             *("shape c%d () t" % number for number in range(each)), "carry top ()<>", "carry probe (%s)<>" % ", ".join(["t"] * kinds),
             "rule give {%s} : top()<> = probe(%s)<>" % ((", ".join("f%d" % n for n in range(kinds)),) * 2)]
    for number in range(400):
        lines.append("rule r%d : probe(%s)<>" % (number, ", ".join("c%d" % ((number * 7 + at * at * number) % each) if (number + at) % 3 else "v%d" % at for at in range(kinds))))
    lines.append("rule every : probe(%s)<>" % ", ".join("v%d" % n for n in range(kinds)))
    text = "\n".join(lines) + "\n"
    done = tool("aw_lint", "-", data=text.encode())
    assert done.returncode in (0, 1) and ("was not decided" in done.stdout or "nothing found" in done.stdout)
    assert lines_of(text)
