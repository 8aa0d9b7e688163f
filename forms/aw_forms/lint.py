"""aw_lint: what an accepted specification says and was hardly meant."""
from __future__ import annotations

import difflib
import re
from collections.abc import Iterator
from functools import cache

from . import command
from .coverage import Undecided, Value, uncovered, whole
from .lexing import Token, decoded
from .lines import RuleLine, Term, walk
from .places import Fault, listed
from .program import Sorry, ask
from .report import line_words, picture, style_for
from .specification import Specification, is_variable, variables
from .value_types import field_type, placed, takes_of
from .verdict import Reading, read

NAME = "aw_lint"
WHAT = """Looks at a specification that the program accepts, for what was hardly meant.

  misspelt      a word in a pattern is nearly a constructor's name; being a variable it fits every value
  uncovered     values that a task may be given and that no rule fits, with an example (types are needed)
  no_rule       a sort without a rule: its tasks stay open for ever
  unreachable   a sort of which no case ever gets a task, and its rules
  never_built   a constructor that patterns look for and that nothing makes
  idle_field    a field that is entered and used nowhere; it is kept with the task alone
  unused        a role, constructor, type, offer or use that nothing needs"""
BEHIND = """A comment `% aw_lint: allow KIND ..` above a line allows these kinds at the line.

statuses: 0 nothing found, 1 something found; 3, 4, 15 the program refuses the specification
          2 the words are wrong, 66 the file can't be read, 69 the program is not there, 73 the output can't be written"""
KINDS = ("misspelt", "uncovered", "no_rule", "unreachable", "never_built", "idle_field", "unused")


def main(words: list[str]) -> int:
    """What the command does with its words."""
    parser = command.parser(NAME, WHAT, BEHIND)
    parser.add_argument("file", metavar="FILE", help="the specification (`-` is the standard input)")
    parser.add_argument("--allow", action="append", default=[], metavar="KIND", choices=KINDS, help="leave a kind away; may be given more than once")
    parser.add_argument("--format", choices=("full", "line"), default="full", help="`line`: one line for each finding, for editors")
    parser.add_argument("--color", choices=("auto", "always", "never"), default="auto", help="colours; `auto` where the output is a terminal")
    chosen = parser.parse_args(words)
    data = command.read_file(chosen.file)
    answer = ask(["check"], data)
    if answer.status:
        command.say((answer.line or "The program ended with status %d and wrote nothing." % answer.status) + "\n")
        raise Sorry("Mend that first: `aw_explain %s` shows the place." % chosen.file, answer.status)
    reading = read(decoded(data))
    found = [fault for fault in findings(reading.spec) if fault.kind not in chosen.allow and fault.kind not in allowed_above(reading, fault.span.line)]
    shown = chosen.file if chosen.file != "-" else "standard input"
    for fault in sorted(found, key=lambda fault: (fault.span.line, fault.span.start)):
        command.say(line_words(shown, fault.span, fault.kind, fault) if chosen.format == "line"
                    else picture("aw_lint %s" % fault.kind, shown, reading.lines, fault, style_for(chosen.color)) + "\n")
    if chosen.format == "full":
        command.say(summary(shown, len(found), reading.spec))
    return 1 if found else 0


def summary(path: str, number: int, spec: Specification) -> str:
    """The last line."""
    words = "nothing found" if number == 0 else "one finding" if number == 1 else "%d findings" % number
    return "%s: %s%s\n" % (path, words, "" if spec.typed else "; which values no rule fits was not looked at, for there are no types (docs/LANGUAGE.md, \"Types\")")


def allowed_above(reading: Reading, number: int) -> set[str]:
    """The kinds that the comments right above a line allow."""
    kinds: set[str] = set()
    at = number - 2
    while at >= 0 and reading.lines[at].lstrip(" \t").startswith("%"):
        said = re.match(r"[ \t]*%+\s*aw_lint:\s*allow\s+(.*)", reading.lines[at])
        kinds.update(said[1].replace(",", " ").split() if said else [])
        at -= 1
    return kinds


def findings(spec: Specification) -> Iterator[Fault]:
    """All that is found."""
    reached = reachable(spec)
    yield from misspelt(spec)
    yield from coverage(spec, reached)
    yield from without_rules(spec, reached)
    yield from unreachable(spec, reached)
    yield from never_built(spec)
    yield from idle_fields(spec)
    yield from unused(spec)


# who makes whose tasks
def elsewhere(spec: Specification) -> set[str]:
    """Roles whose rules are in a file of their own, where roles are checked apart."""
    return {role for role in spec.roles if not any(spec.role_of(rule.sort.text) == role for rule in spec.rules.values())} if spec.depends else set()


def reachable(spec: Specification) -> set[str]:
    """The sorts of which a case may get a task."""
    others = elsewhere(spec)
    todo = [*spec.starts, *(sort for role, sort in spec.uses if role in others and sort in spec.offers)]
    found: set[str] = set()
    while todo:
        sort = todo.pop()
        if sort not in found:
            found.add(sort)
            todo += [child.sort.text for rule in spec.rules_of(sort) for child in rule.children]
            todo += [used for role, used in spec.uses if role == spec.role_of(sort) and role in others]
    return found


def without_rules(spec: Specification, reached: set[str]) -> Iterator[Fault]:
    """Sorts without a rule."""
    for name, sort in spec.sorts.items():
        if name in reached and not spec.rules_of(name) and sort.role.text not in elsewhere(spec):
            yield Fault("no_rule", sort.name.span, "no rule is for a `%s`, so such a task stays open for ever" % name,
                        ["add a rule: `rule NAME : %s(%s)<%s>`" % (name, ", ".join("abcdefgh"[:sort.takes.number]), ", ".join(["RESULT"] * sort.gives.number))])


def unreachable(spec: Specification, reached: set[str]) -> Iterator[Fault]:
    """Sorts of which no case gets a task, with their rules."""
    if not spec.starts and not elsewhere(spec) and spec.sorts:
        empty = [name for name in spec.sorts if spec.takes(name) == 0]
        first = next(iter(spec.sorts.values()))
        yield Fault("unreachable", first.name.span, "no case begins: there is no line `start`", [spec.where_to_add("start %s" % empty[0])] if empty else [])
        return
    for name, sort in spec.sorts.items():
        if name not in reached:
            fault = Fault("unreachable", sort.name.span, "no case begins with a `%s`, and no rule that can be reached makes one" % name)
            for rule in spec.rules_of(name):
                fault.beside(rule.name.span, "so this rule is never chosen")
            yield fault.with_help("take it away, or let a case begin with it, or let a rule have it as a subtask")


# words in patterns
def distance(left: str, right: str) -> int:
    """How many letters are to be put in, taken out, changed, or swapped with the next."""
    rows = [list(range(len(right) + 1))]
    for i, a in enumerate(left, 1):
        row = [i]
        for j, b in enumerate(right, 1):
            best = min(rows[i - 1][j] + 1, row[j - 1] + 1, rows[i - 1][j - 1] + (a != b))
            if i > 1 and j > 1 and a == right[j - 2] and left[i - 2] == b:
                best = min(best, rows[i - 2][j - 2] + 1)
            row.append(best)
        rows.append(row)
    return rows[-1][-1]


@cache
def letters(word: str) -> frozenset[str]:
    """The letters of a word."""
    return frozenset(word)


def looks_misspelt(word: str, constructor: str) -> bool:
    """Whether a word is nearly that of a constructor: the same letters, or one letter in a short word, two in a long one."""
    shorter = min(len(word), len(constructor))
    if shorter < 4 or abs(len(word) - len(constructor)) > 2 or len(letters(word) ^ letters(constructor)) > 4:
        return False
    return sorted(word) == sorted(constructor) or distance(word, constructor) <= (1 if shorter < 7 else 2)


def misspelt(spec: Specification) -> Iterator[Fault]:
    """Variables in patterns that are nearly constructors without parts, of the type of their place where there are types."""
    constants = [name for name, con in spec.cons.items() if con.parts.number == 0]
    near: dict[str, list[str]] = {}
    for rule in spec.rules.values():
        used = {token.text for token in variables(spec, rule.uses())}
        for term, kind in pattern_places(spec, rule):
            if not is_variable(spec, term):
                continue
            if term.name not in near:
                near[term.name] = [name for name in constants if looks_misspelt(term.name, name)]
            for name in near[term.name]:
                fits = kind is None or (name in spec.shapes and spec.shapes[name].own.text == kind)
                if fits and (term.name not in used or distance(term.name, name) == 1):
                    fault = Fault("misspelt", term.span, "`%s` is a variable here, and fits every value" % term.name)
                    yield fault.beside(spec.cons[name].name.span, "was this constructor meant?").with_help("write `%s`, or give the variable another name" % name)
                    break


def pattern_places(spec: Specification, rule: RuleLine) -> list[tuple[Term, str | None]]:
    """The terms in the patterns of a rule, with the types of their places where there are types."""
    if spec.typed:
        return list(placed(spec, rule.patterns, takes_of(spec, rule.sort.text)))
    return [(term, None) for term, _ in walk(rule.patterns)]


def coverage(spec: Specification, reached: set[str]) -> Iterator[Fault]:
    """Sorts with values that no rule fits."""
    if not spec.typed:
        return
    for name, sort in spec.sorts.items():
        if name not in reached or not spec.rules_of(name):
            continue
        try:
            found = uncovered(spec, name)
        except Undecided:
            yield Fault("uncovered", sort.name.span, "whether each `%s` fits a rule was not decided: there are too many combinations" % name)
            continue
        if found:
            yield uncovered_fault(spec, name, sort.name, found)


def uncovered_fault(spec: Specification, name: str, token: Token, found: list[list[Value]]) -> Fault:
    """The fault of a sort with values that no rule fits."""
    shown = ["%s(%s)" % (name, ", ".join(map(str, values))) for values in found]
    fault = Fault("uncovered", token.span, "no rule fits `%s`" % shown[0])
    for rule in spec.rules_of(name)[:8]:
        left = rule.sort.span
        end = rule.patterns[-1].span.end + 1 if rule.patterns else left.end + 2
        fault.beside(left.__class__(left.line, left.start, end), "")
    example = "%s(%s)" % (name, ", ".join(map(str, whole(spec, found[0]))))
    return fault.with_help("for example `%s`" % example if example != shown[0] else "", "nor `%s`" % "`, nor `".join(shown[1:]) if shown[1:] else "",
                           "add a rule for it; a variable in place of a pattern fits every value")


# what is used nowhere
def never_built(spec: Specification) -> Iterator[Fault]:
    """Constructors that patterns look for and that nothing makes."""
    built = {term.name for rule in spec.rules.values() for term, _ in walk(rule.uses()) if not is_variable(spec, term)}
    if elsewhere(spec) or (any(rule.params for rule in spec.rules.values()) and not spec.typed):
        return
    entered = {kind for rule in spec.rules.values() for kind in field_types(spec, rule)}
    for rule in spec.rules.values():
        for term, _ in walk(rule.patterns):
            if term.name in spec.cons and term.name not in built and not may_be_entered(spec, term.name, entered):
                built.add(term.name)
                fault = Fault("never_built", term.span, "no rule ever makes a `%s`, and no field can hold one, so this pattern never fits" % term.name)
                yield fault.beside(spec.cons[term.name].name.span, "declared here")


def field_types(spec: Specification, rule: RuleLine) -> list[str]:
    """The types of the fields of a rule."""
    return [kind for kind in (field_type(spec, rule, token) for token in rule.params) if kind is not None]


def may_be_entered(spec: Specification, con: str, entered: set[str]) -> bool:
    """Whether a field of one of these types can hold a constructor."""
    todo, seen = list(entered), set(entered)
    while todo:
        kind = todo.pop()
        for name, shape in spec.shapes.items():
            if shape.own.text == kind:
                if name == con:
                    return True
                new = {token.text for token in shape.parts} - seen
                seen |= new
                todo += new
    return False


def idle_fields(spec: Specification) -> Iterator[Fault]:
    """Fields that are used nowhere."""
    for rule in spec.rules.values():
        used = {token.text for token in variables(spec, rule.uses())}
        for token in rule.params:
            if token.text not in used:
                yield Fault("idle_field", token.span, "`%s` is entered, and goes into no result and no subtask" % token.text,
                            ["where it is only to be kept with the task, say so above the rule: `% aw_lint: allow idle_field`"])


def unused(spec: Specification) -> Iterator[Fault]:
    """What nothing needs: roles, constructors, types, offers, uses."""
    if elsewhere(spec):
        return
    words = {term.name for rule in spec.rules.values() for term, _ in walk(rule.terms()) if term.name in spec.cons}
    for name, role in spec.roles.items():
        if not any(sort.role.text == name for sort in spec.sorts.values()):
            yield Fault("unused", role.name.span, "the role `%s` has no sort" % name)
    entered = {kind for rule in spec.rules.values() for kind in field_types(spec, rule)}
    untyped_fields = not spec.typed and any(rule.params for rule in spec.rules.values())
    for name, con in spec.cons.items():
        if name not in words and not untyped_fields and not may_be_entered(spec, name, entered):
            near = difflib.get_close_matches(name, words, 1, 0.8)
            yield Fault("unused", con.name.span, "no rule has the constructor `%s`, and no field can hold it" % name, ["`%s` is spelled nearly alike" % near[0]] if near else [])
    kinds = {token.text for shape in spec.shapes.values() for token in [*shape.parts, shape.own]} | {
        token.text for carry in spec.carries.values() for token in [*carry.takes, *carry.gives]}
    for name, line in spec.types.items():
        if name not in kinds:
            yield Fault("unused", line.name.span, "nothing is of the type `%s`" % name)
    yield from unused_faces(spec)


def unused_faces(spec: Specification) -> Iterator[Fault]:
    """Offers that nobody uses, and uses that no rule needs."""
    needed = {(spec.role_of(rule.sort.text), child.sort.text) for rule in spec.rules.values() for child in rule.children}
    for sort, offer in spec.offers.items():
        users = [role for role, used in spec.uses if used == sort]
        if not users:
            others = [role for role in spec.roles if role != spec.role_of(sort)]
            yield Fault("unused", offer.span, "nobody uses this offer", ["a line `use ROLE %s` lets a role use it; the other roles are %s" % (sort, listed(others))] if others else [])
    for (role, sort), use in spec.uses.items():
        if spec.role_of(sort) == role:
            yield Fault("unused", use.span, "`%s` is %s's own sort, for which no use is needed" % (sort, role))
        elif (role, sort) not in needed:
            yield Fault("unused", use.span, "no rule of %s has a `%s` as a subtask" % (role, sort))
