"""The events of a schedule after a specification, and the first kind of fault of a line, with its place."""
from __future__ import annotations

from collections.abc import Collection, Iterator
from dataclasses import dataclass, field

from .lexing import Kind, Token, node_parts
from .limits import EACH, NESTING, STEPS, SYMBOLS
from .lines import ChooseEvent, Line, ListEvent, RuleLine, StartEvent, Term, walk
from .places import Fault, Span, counted, did_you_mean, listed
from .rule_faults import parts_fault
from .specification import Specification
from .value_types import field_type, placed, shape_of


@dataclass(slots=True)
class Schedule:
    """The events after the line `schedule`."""

    loads: bool = False
    events: list[Line] = field(default_factory=list)


def faults(spec: Specification, event: Line) -> Iterator[Fault]:
    """The faults of an event, by their kinds: the first is the one that is told."""
    match event:
        case StartEvent():
            yield from start_faults(spec, event)
        case ChooseEvent():
            yield from choose_faults(spec, event)
        case ListEvent():
            yield from undeclared(event.role, "role", spec.roles)


def undeclared(token: Token, what: str, table: Collection[str]) -> Iterator[Fault]:
    """No such name is declared."""
    if token.text not in table:
        fault = Fault("unknown", token.span, "the specification declares no %s `%s`" % (what, token.text))
        other = did_you_mean(token.text, table)
        yield fault.with_help(other, "" if other or not table else "declared %s: %s" % ("are" if len(table) > 1 else "is", listed(table)))


def start_faults(spec: Specification, event: StartEvent) -> Iterator[Fault]:
    """What is wrong with a start."""
    yield from undeclared(event.sort, "sort", spec.sorts)
    if event.sort.text in spec.sorts and event.sort.text not in spec.starts:
        fault = Fault("notstart", event.sort.span, "no case begins with a `%s`" % event.sort.text).beside(spec.sorts[event.sort.text].name.span, "declared here")
        yield fault.with_help("a case begins with %s" % " or ".join("`%s`" % name for name in spec.starts) if spec.starts else spec.where_to_add("start %s" % event.sort.text))


def choose_faults(spec: Specification, event: ChooseEvent) -> Iterator[Fault]:
    """What is wrong with a choice."""
    yield from past_limits(event)
    yield from undeclared(event.rule, "rule", spec.rules)
    yield from unknown_words(spec, event.args)
    for term, _ in walk(event.args):
        con = spec.cons.get(term.name) if term.head.kind is Kind.NAME else None
        if con is not None and con.parts.number != len(term.parts or []):
            fault = parts_fault(term, con)
            fault.help.clear()
            yield fault
    yield from task_faults(spec, event.node)
    yield from argument_faults(spec, event)


def past_limits(event: ChooseEvent) -> Iterator[Fault]:
    """More than 8 arguments, 256 symbols, a nesting of 32, or 250 steps."""
    if len(event.args) > EACH:
        yield Fault("limit", event.args[EACH].span, "%d values are entered here, and %d are the most" % (len(event.args), EACH))
    every = walk(event.args)
    if len(every) > SYMBOLS:
        yield Fault("limit", every[SYMBOLS][0].head.span, "%d symbols are entered here, and %d are the most; this is the first past them" % (len(every), SYMBOLS))
    deep = next((term for term, depth in every if depth > NESTING), None)
    if deep is not None:
        yield Fault("limit", deep.head.span, "this is %d deep, and %d is the most" % (NESTING + 1, NESTING))
    parts = node_parts(event.node.text)
    if parts is not None and len(parts[2]) > STEPS:
        yield Fault("limit", event.node.span, "this name has %d steps, and %d are the most" % (len(parts[2]), STEPS))


def unknown_words(spec: Specification, args: list[Term]) -> Iterator[Fault]:
    """A name in what is entered is no constructor."""
    for term, _ in walk(args):
        if term.head.kind is Kind.NAME and term.name not in spec.cons:
            fault = Fault("unknown", term.head.span, "no constructor `%s` is declared" % term.name)
            yield fault.with_help(did_you_mean(term.name, spec.cons), 'where a text is meant, write `"%s"`' % term.name if term.parts is None else "")


def step_spans(node: Token) -> list[Span]:
    """Where each step of a task's name is, the start sort with its case first."""
    spans, at = [], node.span.start
    for part in node.text.split("/"):
        spans.append(Span(node.span.line, at, at + len(part)))
        at += len(part) + 1
    return spans


def task_faults(spec: Specification, node: Token) -> Iterator[Fault]:
    """The name of a task is not valid: the start sort, or one of its steps."""
    parts = node_parts(node.text)
    if parts is None:
        return
    sort, _, steps = parts
    spans = step_spans(node)
    if sort not in spec.starts:
        words = "no sort `%s` is declared" % sort if sort not in spec.sorts else "no case begins with a `%s`" % sort
        fault = Fault("name", Span(node.span.line, spans[0].start, spans[0].start + len(sort)), words)
        yield fault.with_help(did_you_mean(sort, spec.starts) or ("a case begins with %s" % listed(spec.starts) if spec.starts else ""))
        return
    for number, ((rule, child), span) in enumerate(zip(steps, spans[1:]), 1):
        wrong = step_fault(spec, sort, rule, child, span)
        if wrong is not None:
            yield wrong.with_help("the task above is `%s`, a `%s`" % ("/".join(node.text.split("/")[:number]), sort))
            return
        sort = spec.rules[rule].children[child - 1].sort.text


def step_fault(spec: Specification, sort: str, rule: str, child: int, span: Span) -> Fault | None:
    """Why a step does not fit below a task of a sort."""
    at_rule = Span(span.line, span.start, span.start + len(rule))
    own = [other.name.text for other in spec.rules_of(sort)]
    if rule not in spec.rules:
        return Fault("name", at_rule, "no rule `%s` is declared" % rule).with_help(did_you_mean(rule, own), "the rules of a `%s` are %s" % (sort, listed(own)) if own else "")
    line = spec.rules[rule]
    if line.sort.text != sort:
        return Fault("name", at_rule, "`%s` is a rule of `%s`, and not of `%s`" % (rule, line.sort.text, sort)).beside(line.name.span, "the rule").with_help(
            "the rules of a `%s` are %s" % (sort, listed(own)) if own else "a `%s` has no rule" % sort)
    if child > len(line.children):
        return Fault("name", Span(span.line, span.end - 1, span.end), "`%s` makes %s" % (rule, counted(len(line.children), "subtask"))).beside(line.span, "the rule").with_help(
            *("`%s.%d` is its `%s`" % (rule, at, below.sort.text) for at, below in enumerate(line.children, 1)))
    return None


def argument_faults(spec: Specification, event: ChooseEvent) -> Iterator[Fault]:
    """What is entered is not of the type of its field."""
    rule = spec.rules.get(event.rule.text)
    if rule is None or not spec.typed or len(event.args) != len(rule.params):
        return
    for term, field_name in zip(event.args, rule.params):
        kind = field_type(spec, rule, field_name)
        if kind is None:
            continue
        for part, place in placed(spec, [term], [kind]):
            have = shape_of(spec, part)[1]
            if have != place:
                yield argument_fault(spec, rule, field_name, part, place, have)
                return


def argument_fault(spec: Specification, rule: RuleLine, field_name: Token, part: Term, place: str, have: str | None) -> Fault:
    """The fault of a value that is not of the type of its field."""
    fault = Fault("type", part.span, "expected a `%s`, found a `%s`" % (place, have)).beside(field_name.span, "the field `%s` of rule `%s`" % (field_name.text, rule.name.text))
    makers = [name for name, shape in spec.shapes.items() if shape.own.text == place]
    return fault.with_help("write `%s` without its quotation marks" % part.name[1:-1] if place == "num" and part.name[1:-1].isdigit() else "",
                           'write `"%s"`' % part.name if place == "text" and part.head.kind in (Kind.NUMBER, Kind.NAME) and part.parts is None else "",
                           "a `%s` is made by %s" % (place, " or ".join("`%s`" % name for name in makers[:6])) if makers else "")
