"""What the lines of a specification declare."""
from __future__ import annotations

from dataclasses import dataclass, field

from .lexing import Kind, Token
from .lines import (CarryLine, ConLine, DependsLine, FreeLine, Line, OfferLine, RoleLine, RuleLine, ShapeLine, SortLine, StartLine, Term, TypeLine,
                    UseLine, walk)
from .reading import ORDER


@dataclass(slots=True)
class Specification:
    """The declarations of the lines so far, by name, each with its line."""

    text: list[str]
    lines: list[Line] = field(default_factory=list)
    roles: dict[str, RoleLine] = field(default_factory=dict)
    cons: dict[str, ConLine] = field(default_factory=dict)
    sorts: dict[str, SortLine] = field(default_factory=dict)
    starts: dict[str, StartLine] = field(default_factory=dict)
    offers: dict[str, OfferLine] = field(default_factory=dict)
    uses: dict[tuple[str, str], UseLine] = field(default_factory=dict)
    types: dict[str, TypeLine] = field(default_factory=dict)
    shapes: dict[str, ShapeLine] = field(default_factory=dict)
    carries: dict[str, CarryLine] = field(default_factory=dict)
    depends: dict[tuple[str, int, int], DependsLine] = field(default_factory=dict)
    free: FreeLine | None = None
    rules: dict[str, RuleLine] = field(default_factory=dict)
    stage: int = 0

    @property
    def typed(self) -> bool:
        """Whether a line `type`, `shape` or `carry` is there."""
        return bool(self.types or self.shapes or self.carries)

    def type_names(self) -> list[str]:
        """The names of all types."""
        return ["num", "text", *self.types]

    def role_of(self, sort: str) -> str:
        """The role to which a sort belongs."""
        return self.sorts[sort].role.text

    def rules_of(self, sort: str) -> list[RuleLine]:
        """The rules of a sort, in order."""
        return [rule for rule in self.rules.values() if rule.sort.text == sort]

    def gives(self, sort: str) -> int:
        """How many results a sort gives back."""
        return self.sorts[sort].gives.number

    def takes(self, sort: str) -> int:
        """How many values a sort is given."""
        return self.sorts[sort].takes.number

    def last_of(self, form: str) -> int:
        """The line after which one more line of a form fits; 0 where it would be the first."""
        rank = ORDER.index(form)
        return max((line.number for line in self.lines if ORDER.index(line.word.text) <= rank), default=0)

    def where_to_add(self, line: str) -> str:
        """In words, where a line is to be added."""
        behind = self.last_of(line.split()[0])
        return "add the line `%s`%s" % (line, " after line %d" % behind if behind else " at the beginning")

    def shown(self, number: int) -> str:
        """A line as it is, without its blanks."""
        return self.text[number - 1].strip()


def is_variable(spec: Specification, term: Term) -> bool:
    """A bare name that is no constructor."""
    return term.parts is None and term.head.kind is Kind.NAME and term.name not in spec.cons


def variables(spec: Specification, terms: list[Term]) -> list[Token]:
    """The variables in some terms, from left to right."""
    return [term.head for term, _ in walk(terms) if is_variable(spec, term)]


def entering(spec: Specification, rule: RuleLine) -> list[Token]:
    """Where the variables of a rule enter: in patterns, as fields, as names of results of subtasks."""
    return [*variables(spec, rule.patterns), *rule.params, *(name for child in rule.children for name in child.names)]


def declare(spec: Specification, line: Line) -> None:
    """Adds what a line declares; of what is declared already the first stays."""
    spec.lines.append(line)
    spec.stage = max(spec.stage, ORDER.index(line.word.text))
    match line:
        case RoleLine():
            spec.roles.setdefault(line.name.text, line)
        case ConLine():
            spec.cons.setdefault(line.name.text, line)
        case SortLine():
            spec.sorts.setdefault(line.name.text, line)
        case StartLine():
            spec.starts.setdefault(line.sort.text, line)
        case OfferLine():
            spec.offers.setdefault(line.sort.text, line)
        case UseLine():
            spec.uses.setdefault((line.role.text, line.sort.text), line)
        case TypeLine():
            spec.types.setdefault(line.name.text, line)
        case ShapeLine():
            spec.shapes.setdefault(line.con.text, line)
        case CarryLine():
            spec.carries.setdefault(line.sort.text, line)
        case DependsLine():
            spec.depends.setdefault((line.sort.text, line.value.number, line.result.number), line)
        case FreeLine():
            spec.free = spec.free or line
        case RuleLine():
            spec.rules.setdefault(line.name.text, line)
