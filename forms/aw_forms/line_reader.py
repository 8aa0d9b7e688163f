"""Takes the tokens of a line from left to right, and says what was expected where something else is found."""
from __future__ import annotations

from typing import NoReturn

from .lexing import Kind, Token, tokens_of
from .lines import Term
from .places import Fault, Label, Span

CLOSES = {"(": ")", "<": ">", "{": "}"}
PHRASES = {Kind.NAME: "the name", Kind.NUMBER: "the number", Kind.NODE: "the name of a task", Kind.TEXT: "the text", Kind.MARK: "the mark"}


class LineReader:
    """Takes the tokens of a line from left to right."""

    def __init__(self, line: str, number: int) -> None:
        self.line, self.number = line, number
        self.tokens = tokens_of(line, number)
        self.at = 0
        self.form = ""

    def peek(self, on: int = 0) -> Token | None:
        """The next token, or a later one."""
        return self.tokens[self.at + on] if self.at + on < len(self.tokens) else None

    def here(self) -> Span:
        """Where the next token is, or the place after the last one."""
        token = self.peek()
        if token is not None:
            return token.span
        end = self.tokens[-1].span.end if self.tokens else 0
        return Span(self.number, end, end + 1)

    def found(self) -> str:
        """The next token in words."""
        token = self.peek()
        if token is None:
            return "the line ends here"
        return "found %s `%s`" % (PHRASES[token.kind], token.text)

    def fail(self, expected: str, *help_lines: str, others: list[Label] | None = None) -> NoReturn:
        """The fault that something else was expected here."""
        fault = Fault("form", self.here(), "expected %s, %s" % (expected, self.found()), [], others or [])
        form = "such a line is `%s`" % self.form if self.form else ""
        raise fault.with_help(*help_lines, form)

    def take(self, kind: Kind, expected: str, *help_lines: str) -> Token:
        """The next token, which is of a kind."""
        token = self.peek()
        if token is None or token.kind is not kind:
            self.fail(expected, *(help_lines or self.hint(kind, token)))
        self.at += 1
        return token

    def hint(self, kind: Kind, token: Token | None) -> tuple[str, ...]:
        """What is often written in place of a token of a kind."""
        if token is None:
            return ()
        if kind is Kind.NAME and token.kind is Kind.TEXT:
            return ("a name has no quotation marks",)
        if kind is Kind.NAME and token.kind is Kind.NODE:
            return ("names of tasks are in schedules only, after `choose`",)
        if kind is Kind.NUMBER and token.kind is Kind.TEXT:
            return ("a number has no quotation marks",)
        return ()

    def name(self, expected: str, *help_lines: str) -> Token:
        """A name."""
        return self.take(Kind.NAME, expected, *help_lines)

    def number_token(self, expected: str, *help_lines: str) -> Token:
        """A number."""
        return self.take(Kind.NUMBER, expected, *help_lines)

    def mark(self, mark: str, expected: str, *help_lines: str) -> Token:
        """A mark."""
        token = self.peek()
        if token is None or not token.is_mark(mark):
            self.fail(expected, *help_lines)
        self.at += 1
        return token

    def is_at(self, mark: str) -> bool:
        """Whether the next token is this mark."""
        token = self.peek()
        return token is not None and token.is_mark(mark)

    def is_at_name(self) -> bool:
        """Whether the next token is a name."""
        token = self.peek()
        return token is not None and token.kind is Kind.NAME

    def end(self, *help_lines: str) -> None:
        """Nothing is left."""
        if self.peek() is not None:
            self.fail("nothing more", *help_lines)

    # lists between marks
    def terms(self, opening: str, what: str, *help_lines: str, empty: bool = True) -> list[Term]:
        """Terms between an opening mark and its closing one, separated by commas."""
        first = self.mark(opening, "`%s`, which opens %s" % (opening, what), *help_lines)
        outer = Open(first, what, [], None)
        stack = [outer]
        while stack:
            top = stack[-1]
            if not top.items and self.is_at(top.closing) and (empty or len(stack) > 1):
                self.close(stack)
            elif (deeper := self.one_term(top)) is not None:
                stack.append(deeper)
                continue
            self.behind_term(stack)
        return outer.items

    def one_term(self, top: "Open") -> "Open | None":
        """Takes a term, or its front: then what is open now."""
        token = self.peek()
        if token is None or token.kind not in (Kind.NAME, Kind.NUMBER, Kind.TEXT):
            self.no_term(top)
        self.at += 1
        term = Term(token)
        top.items.append(term)
        if token.kind is Kind.NAME and self.is_at("("):
            opening = self.mark("(", "`(`")
            term.parts = []
            return Open(opening, "the parts of `%s`" % token.text, term.parts, term)
        return None

    def no_term(self, top: "Open") -> NoReturn:
        """The fault that there is no term where one is due."""
        token = self.peek()
        if token is None:
            self.not_closed(top)
        if top.items and token.text in (",", top.closing):
            self.fail("a value after the comma", "take the comma away, or write the value that is missing")
        if not top.items and top.opening.text == "{" and token.is_mark("}"):
            self.fail("at least one name", "leave the braces away where there are no fields")
        if token.kind is Kind.NODE:
            self.fail("a value", "the name of a task is no value; write it as a text where it is to be kept")
        self.fail("a value: a number, a text, a name, or a constructor with its parts")

    def behind_term(self, stack: list["Open"]) -> None:
        """Takes what follows a term: closing marks, and then a comma, or nothing where all is closed."""
        while stack:
            top = stack[-1]
            if self.is_at(","):
                self.at += 1
                return
            if not self.is_at(top.closing):
                self.not_closed(top)
            self.close(stack)

    def close(self, stack: list["Open"]) -> None:
        """Takes the closing mark of what was opened last."""
        top = stack.pop()
        closing = self.mark(top.closing, "`%s`" % top.closing)
        if top.term is not None:
            top.term.end = closing.span.end

    def not_closed(self, top: "Open") -> NoReturn:
        """The fault that neither a comma nor the closing mark is here."""
        token = self.peek()
        words = "`,` or `%s`, which closes %s" % (top.closing, top.what)
        label = [Label(top.opening.span, "opened here")]
        if token is not None and token.kind in (Kind.NAME, Kind.NUMBER, Kind.TEXT):
            self.fail(words, "is a comma missing before `%s`?" % token.text, others=label)
        if token is not None and token.is_mark("("):
            self.fail(words, "only a name may be before `(`", others=label)
        if token is not None and token.is_mark(":") and top.what == "what is entered":
            self.fail(words, "values are entered in the order of the fields, without their names", others=label)
        self.fail(words, "is a `%s` missing?" % top.closing, others=label)

    def names(self, opening: str, what: str, *help_lines: str, empty: bool = True) -> list[Token]:
        """Names between an opening mark and its closing one."""
        terms = self.terms(opening, what, *help_lines, empty=empty)
        for term in terms:
            if term.parts is not None or term.head.kind is not Kind.NAME:
                found = "a constructor with parts" if term.parts is not None else PHRASES[term.head.kind]
                fault = Fault("form", term.span, "expected a name in %s, found %s `%s`" % (what, found, self.line[term.span.start:term.span.end]))
                raise fault.with_help("such a line is `%s`" % self.form if self.form else "")
        return [term.head for term in terms]


class Open:
    """A list of terms whose closing mark has not come yet."""

    def __init__(self, opening: Token, what: str, items: list[Term], term: Term | None) -> None:
        self.opening, self.what, self.items, self.term = opening, what, items, term
        self.closing = CLOSES[opening.text]
