"""aw_fmt: writes the lines of a text in the form in which the program prints them, and keeps comments and empty lines."""
from __future__ import annotations

import difflib

from . import command
from .lexing import BLANKS, Kind, Token, decoded, encoded, is_passed_over, lines_of, tokens_of
from .lines import CarryLine, Line, ScheduleLine, ShapeLine
from .places import Fault
from .program import Sorry
from .reading import schedule_line, specification_line
from .report import picture, style_for

NAME = "aw_fmt"
WHAT = """Writes a specification, and its schedule, in one form: one blank between words, after commas and round `:`, `=` and `;`,
none within brackets; at most one empty line in a row. Comments are kept, and so is the order of lines.

The tokens of each line stay what they are, which is looked at for each line before anything is written; only
`ok()` becomes `ok` where `ok` is declared without parts. So the text says the same as before."""
BEHIND = """statuses: 0 done, or nothing to do; 1 --check: a file is not in this form; 3, 5 a line can't be read
          2 the words are wrong, 66 the file can't be read, 73 it can't be written

examples:
  aw_fmt claim.aw             writes the text on the standard output
  aw_fmt --write *.aw         writes each file anew
  aw_fmt --diff claim.aw      what would change"""


def main(words: list[str]) -> int:
    """What the command does with its words."""
    parser = command.parser(NAME, WHAT, BEHIND)
    parser.add_argument("files", nargs="+", metavar="FILE", help="the texts (`-` is the standard input)")
    ways = parser.add_mutually_exclusive_group()
    ways.add_argument("-w", "--write", action="store_true", help="write each file anew")
    ways.add_argument("--check", action="store_true", help="name the files that are not in this form")
    ways.add_argument("--diff", action="store_true", help="show what would change")
    chosen = parser.parse_args(words)
    if chosen.write and "-" in chosen.files:
        parser.error("the standard input can't be written anew")
    status = 0
    for path in chosen.files:
        data = command.read_file(path)
        text = formatted(decoded(data), path)
        changed = encoded(text) != data
        if chosen.check and changed:
            command.say("%s\n" % path)
            status = 1
        elif chosen.diff and changed:
            command.say("".join(line + "\n" for line in difflib.unified_diff(decoded(data).split("\n"), text.split("\n"), path, path, lineterm="")))
        elif chosen.write and changed:
            command.write_file(path, encoded(text))
        elif not (chosen.check or chosen.diff or chosen.write):
            command.say(text)
    return status


def formatted(text: str, path: str) -> str:
    """The text in one form; raises a sentence where a line can't be read."""
    out: list[str] = []
    behind_schedule = False
    bare_names = constants(text)
    lines = lines_of(text)
    for number, line in enumerate(lines, 1):
        if is_passed_over(line):
            bare = line.strip(BLANKS)
            if bare or (out and out[-1]):
                out.append(bare)
            continue
        try:
            read = schedule_line(line, number) if behind_schedule else specification_line(line, number)
        except Fault as fault:
            where = "schedule" if behind_schedule else "specification"
            shown = picture("bad %s line %d %s" % (where, number, fault.kind), path, lines, fault, style_for("never"))
            raise Sorry("%s:%d can't be read, and nothing was written.\n%s" % (path, number, shown), 5 if behind_schedule else 3) from None
        behind_schedule = behind_schedule or isinstance(read, ScheduleLine)
        out.append(spelled(read, bare_names))
        same_tokens(line, out[-1], number, bare_names)
    while out and not out[-1]:
        out.pop()
    return "".join(line + "\n" for line in out)


def constants(text: str) -> set[str]:
    """The constructors that are declared without parts, and with no other number of parts."""
    found: dict[str, set[str]] = {}
    for number, line in enumerate(lines_of(text), 1):
        words = line.split()
        if len(words) == 3 and words[0] == "con":
            found.setdefault(words[1], set()).add(words[2])
    return {name for name, parts in found.items() if parts == {"0"}}


def without_empty(tokens: list[Token], bare_names: set[str]) -> list[Token]:
    """The tokens, with `ok()` as `ok`."""
    kept: list[Token] = []
    at = 0
    while at < len(tokens):
        token = tokens[at]
        kept.append(token)
        empty = at + 2 < len(tokens) and tokens[at + 1].is_mark("(") and tokens[at + 2].is_mark(")")
        at += 3 if empty and is_term(tokens, at) and token.text in bare_names else 1
    return kept


def is_term(tokens: list[Token], at: int) -> bool:
    """Whether a name is within brackets, where terms are, and not before them."""
    depth = 0
    for token in tokens[:at]:
        depth += 1 if token.text in ("(", "<", "{") and token.kind is Kind.MARK else -1 if token.text in (")", ">", "}") and token.kind is Kind.MARK else 0
    return tokens[at].kind is Kind.NAME and depth > 0


def spelled(line: Line, bare_names: set[str]) -> str:
    """The line in one form."""
    tokens = line.tokens
    if line.word.text in ("rule", "choose"):
        tokens = without_empty(tokens, bare_names)
    wide = isinstance(line, (ShapeLine, CarryLine))
    out = tokens[0].text
    for before, token in zip(tokens, tokens[1:]):
        out += (" " if is_apart(before, token, wide) else "") + token.text
    return out


def is_apart(before: Token, token: Token, wide: bool) -> bool:
    """Whether a blank is between two tokens; in a shape and a carry one is before the parenthesis."""
    if token.kind is Kind.MARK:
        if token.text in "=:;{":
            return True
        return token.text == "(" and wide
    if before.kind is Kind.MARK:
        return before.text in ",:=;)" or before.text == "}"
    return True


def same_tokens(before: str, after: str, number: int, bare_names: set[str]) -> None:
    """Ends where the two lines say different things, which never comes."""
    left = [token.text for token in without_empty(tokens_of(before, number), bare_names)]
    right = [token.text for token in without_empty(tokens_of(after, number), bare_names)]
    if left != right:
        raise Sorry("Line %d would have come to say something else; nothing was written. Please report this line." % number, 70)
