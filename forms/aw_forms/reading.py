"""Reads one line by its form, and says what was expected where it has none."""
from __future__ import annotations

from collections.abc import Callable
from typing import NoReturn

from .lexing import Kind, Token
from .line_reader import LineReader
from .lines import (CarryLine, Child, ChooseEvent, ConLine, DeliverEvent, DependsLine, FreeLine, Line, ListEvent, OfferLine, RoleLine, RuleLine,
                    ScheduleLine, SettleEvent, ShapeLine, SortLine, StartEvent, StartLine, TypeLine, UseLine)
from .places import Fault, did_you_mean, near

FORMS = {
    "role": "role NAME",
    "con": "con NAME NUMBER",
    "sort": "sort NAME ROLE TAKES GIVES",
    "start": "start SORT",
    "offer": "offer SORT",
    "use": "use ROLE SORT",
    "type": "type NAME",
    "shape": "shape CON (TYPES) TYPE",
    "carry": "carry SORT (TYPES)<TYPES>",
    "depends": "depends SORT I J",
    "free": "free",
    "rule": "rule NAME {FIELDS} : SORT(PATTERNS)<RESULTS> = CHILD(VALUES)<NAMES> ; ..",
}
ORDER = list(FORMS)
EVENTS = {
    "start": "start SORT NUMBER",
    "choose": "choose TASK RULE {VALUES}",
    "deliver": "deliver NUMBER",
    "settle": "settle",
    "list": "list ROLE",
}


# specifications
def specification_line(line: str, number: int) -> Line:
    """The line of a specification that some characters spell; raises a fault of kind `token` or `form`."""
    reader = LineReader(line, number)
    word = reader.peek()
    if word is None or word.kind is not Kind.NAME or word.text not in SPECIFICATION_READERS:
        unknown_word(reader, word)
    reader.at += 1
    reader.form = FORMS.get(word.text, "")
    return SPECIFICATION_READERS[word.text](reader)


def unknown_word(reader: LineReader, word: Token | None) -> NoReturn:
    """The fault that no line form begins with a word."""
    if word is not None and word.text in EVENTS:
        raise Fault("form", word.span, "`%s` begins an event of a schedule, and the line `schedule` has not come yet" % word.text,
                    ["put the line `schedule` between the last rule and the first event"])
    fault = Fault("form", reader.here(), "no line begins so: %s" % reader.found())
    other = near(word.text, [*FORMS, "schedule"]) if word is not None and word.kind is Kind.NAME else None
    raise fault.with_help("did you mean `%s`?" % other if other else "", "a line begins with one of the words %s" % ", ".join([*FORMS, "schedule"]))


def read_role(reader: LineReader) -> Line:
    """`role NAME`"""
    name = reader.name("the name of the role")
    reader.end()
    return RoleLine(reader.tokens, name)


def read_con(reader: LineReader) -> Line:
    """`con NAME NUMBER`"""
    name = reader.name("the name of the constructor")
    parts = reader.number_token("the number of its parts", "write `con %s 0` where it has none" % name.text)
    reader.end()
    return ConLine(reader.tokens, name, parts)


def read_sort(reader: LineReader) -> Line:
    """`sort NAME ROLE TAKES GIVES`"""
    name = reader.name("the name of the sort")
    role = reader.name("the role to which it belongs")
    takes = reader.number_token("how many values a `%s` is given" % name.text)
    gives = reader.number_token("how many results a `%s` gives back" % name.text)
    reader.end()
    return SortLine(reader.tokens, name, role, takes, gives)


def read_start(reader: LineReader) -> Line:
    """`start SORT`"""
    sort = reader.name("the sort with which a case may begin")
    token = reader.peek()
    if token is not None and token.kind is Kind.NUMBER:
        reader.form = ""
        reader.fail("nothing more", "where the case %s of a `%s` is to begin, the line `schedule` is missing above this line" % (token.text, sort.text))
    reader.end()
    return StartLine(reader.tokens, sort)


def read_offer(reader: LineReader) -> Line:
    """`offer SORT`"""
    sort = reader.name("the sort that is offered")
    reader.end("a role offers each of its sorts by a line of its own; which role may use it is told by a line `use`" if reader.peek() else "")
    return OfferLine(reader.tokens, sort)


def read_use(reader: LineReader) -> Line:
    """`use ROLE SORT`"""
    role = reader.name("the role that uses the sort")
    sort = reader.name("the sort that it uses")
    reader.end()
    return UseLine(reader.tokens, role, sort)


def read_type(reader: LineReader) -> Line:
    """`type NAME`"""
    name = reader.name("the name of the type")
    reader.end()
    return TypeLine(reader.tokens, name)


def read_shape(reader: LineReader) -> Line:
    """`shape CON (TYPES) TYPE`"""
    con = reader.name("the constructor")
    parts = reader.names("(", "the types of its parts", "write `()` where it has no parts")
    own = reader.name("the type of the constructor itself")
    reader.end()
    return ShapeLine(reader.tokens, con, parts, own)


def read_carry(reader: LineReader) -> Line:
    """`carry SORT (TYPES)<TYPES>`"""
    sort = reader.name("the sort")
    takes = reader.names("(", "the types of the values that it is given", "write `()` where it is given none")
    gives = reader.names("<", "the types of its results", "write `<>` where it gives no result")
    reader.end()
    return CarryLine(reader.tokens, sort, takes, gives)


def read_depends(reader: LineReader) -> Line:
    """`depends SORT I J`"""
    sort = reader.name("the sort")
    value = reader.number_token("the position of a value that it is given, counted from 1")
    result = reader.number_token("the position of a result, counted from 1")
    reader.end()
    return DependsLine(reader.tokens, sort, value, result)


def read_free(reader: LineReader) -> Line:
    """`free`"""
    reader.end("the line `free` is one word")
    return FreeLine(reader.tokens)


def read_rule(reader: LineReader) -> Line:
    """`rule NAME PARAMS : SORT(TERMS)<TERMS>`, and then nothing, or `=` and children."""
    name = reader.name("the name of the rule")
    params = reader.names("{", "the fields", empty=False) if reader.is_at("{") else []
    reader.mark(":", "`:` with the sort" if params else "`{` with fields, or `:` with the sort", *colon_help(reader, params))
    sort = reader.name("the sort of task that the rule is for")
    patterns = reader.terms("(", "what a `%s` is given" % sort.text, "write `()` where it is given nothing")
    results = reader.terms("<", "what a `%s` gives back" % sort.text, "write `<>` where it gives nothing back")
    children = []
    if reader.peek() is not None:
        reader.mark("=", "`=` with subtasks, or the end of the line", *equals_help(reader))
        children.append(read_child(reader, True))
        while reader.is_at(";"):
            reader.at += 1
            children.append(read_child(reader, False))
        reader.end("subtasks are separated by `;`" if reader.is_at(",") else "")
    return RuleLine(reader.tokens, name, params, sort, patterns, results, children)


def equals_help(reader: LineReader) -> tuple[str, ...]:
    """What is often written in place of the sign in front of subtasks."""
    if reader.is_at_name():
        return ("are the subtasks there, and is the `=` missing?",)
    if reader.is_at(":") or reader.is_at(";"):
        return ("the first subtask comes after `=`, each further one after `;`",)
    return ()


def colon_help(reader: LineReader, params: list[Token]) -> tuple[str, ...]:
    """What is often written in place of the colon of a rule."""
    if reader.is_at("("):
        return ("fields are in braces: `{a, b}`",)
    token = reader.peek()
    if not params and token is not None and token.kind is Kind.NAME:
        return ("fields are in braces: `{%s}`" % token.text,)
    return ()


def read_child(reader: LineReader, first: bool) -> Child:
    """`SORT(TERMS)<NAMES>`"""
    where = "leave the `=` away where there are no subtasks" if first else "a `;` is only between two subtasks"
    sort = reader.name("the sort of a subtask", where)
    args = reader.terms("(", "what the subtask `%s` is given" % sort.text, "a subtask is `SORT(VALUES)<NAMES>`; write `()` where it is given nothing")
    names = reader.names("<", "the names for what `%s` gives back" % sort.text, "a subtask is `SORT(VALUES)<NAMES>`; write `<>` where it gives nothing back")
    return Child(sort, args, names)


def read_schedule_word(reader: LineReader) -> Line:
    """`schedule` or `schedule 2`"""
    version = reader.peek()
    if version is None:
        return ScheduleLine(reader.tokens, False)
    reader.form = ""
    if version.kind is not Kind.NUMBER or version.number != 2:
        reader.fail("nothing more, or the number 2", "`schedule 2` is for messages that bring along what the receiver would ask for next")
    reader.at += 1
    reader.end("events are on lines of their own")
    return ScheduleLine(reader.tokens, True)


SPECIFICATION_READERS: dict[str, Callable[[LineReader], Line]] = {
    "role": read_role, "con": read_con, "sort": read_sort, "start": read_start, "offer": read_offer, "use": read_use, "type": read_type,
    "shape": read_shape, "carry": read_carry, "depends": read_depends, "free": read_free, "rule": read_rule, "schedule": read_schedule_word,
}


# schedules
def schedule_line(line: str, number: int) -> Line:
    """The event that some characters spell; raises a fault of kind `token` or `form`."""
    reader = LineReader(line, number)
    word = reader.peek()
    if word is None or word.kind is not Kind.NAME or word.text not in EVENT_READERS:
        unknown_event(reader, word)
    reader.at += 1
    reader.form = EVENTS[word.text]
    return EVENT_READERS[word.text](reader)


def unknown_event(reader: LineReader, word: Token | None) -> NoReturn:
    """The fault that no event begins with a word."""
    if word is not None and word.text == "schedule":
        raise Fault("form", word.span, "the line `schedule` is there already", ["take one of them away"])
    if word is not None and word.text in FORMS:
        raise Fault("form", word.span, "`%s` lines belong to the specification" % word.text, ["move this line to above the line `schedule`"])
    fault = Fault("form", reader.here(), "no event begins so: %s" % reader.found())
    raise fault.with_help(did_you_mean(word.text, EVENTS) if word is not None and word.kind is Kind.NAME else "",
                          "an event begins with one of the words %s" % ", ".join(EVENTS))


def read_start_event(reader: LineReader) -> Line:
    """`start SORT NUMBER`"""
    token = reader.peek()
    is_task = token is not None and token.kind is Kind.NODE
    sort = reader.name("the sort with which the case begins", *(("the sort and the number of the case are two words here",) if is_task else ()))
    case = reader.number_token("the number of the case")
    reader.end()
    return StartEvent(reader.tokens, sort, case)


def read_choose(reader: LineReader) -> Line:
    """`choose TASK RULE`, and then nothing or `{TERMS}`"""
    token = reader.peek()
    root = ("the first task of case 1 is `%s#1`" % token.text,) if token is not None and token.kind is Kind.NAME else ()
    node = reader.take(Kind.NODE, "the name of a task", *root)
    rule = reader.name("the rule that is chosen")
    args = []
    if reader.peek() is not None:
        args = reader.terms("{", "what is entered", "what is entered is in braces: `{..}`", empty=False)
        reader.end("what is entered is in one pair of braces" if reader.is_at("{") else "")
    return ChooseEvent(reader.tokens, node, rule, args)


def read_deliver(reader: LineReader) -> Line:
    """`deliver NUMBER`"""
    message = reader.number_token("the number of a message")
    reader.end()
    return DeliverEvent(reader.tokens, message)


def read_settle(reader: LineReader) -> Line:
    """`settle`"""
    reader.end("`settle` delivers all messages; one alone is delivered by `deliver NUMBER`")
    return SettleEvent(reader.tokens)


def read_list(reader: LineReader) -> Line:
    """`list ROLE`"""
    role = reader.name("the role whose worklist is printed")
    reader.end()
    return ListEvent(reader.tokens, role)


EVENT_READERS: dict[str, Callable[[LineReader], Line]] = {
    "start": read_start_event, "choose": read_choose, "deliver": read_deliver, "settle": read_settle, "list": read_list,
}
