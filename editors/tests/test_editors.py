"""What editors know of the language: each lexes the examples whole, and the faults of tokens as faults."""
from __future__ import annotations

import json
import os
import re
import subprocess
import sys
from pathlib import Path

import pytest

TOP = Path(__file__).resolve().parent.parent.parent
EDITORS = TOP / "editors"
EXAMPLES = TOP / "examples"
sys.dont_write_bytecode = True
sys.path[:0] = [str(EDITORS / "pygments"), str(TOP / "forms")]

from aw_forms.lexing import Kind, decoded, is_passed_over, lines_of, tokens_of  # noqa: E402
from aw_forms.places import Fault  # noqa: E402
from aw_forms.program import Sorry, found  # noqa: E402
from aw_forms.reading import EVENTS, FORMS  # noqa: E402

TEXTS = sorted(EXAMPLES.rglob("*.aw"))


def token_fault(path: Path) -> int | None:
    """The first line of a text that is no list of tokens."""
    for number, line in enumerate(lines_of(decoded(path.read_bytes())), 1):
        try:
            tokens_of("" if is_passed_over(line) else line, number)
        except Fault:
            return number
    return None


GOOD = [path for path in TEXTS if token_fault(path) is None]
BAD = [path for path in TEXTS if token_fault(path) is not None]


# Pygments
def lexed(text: str) -> list[tuple[object, str]]:
    """What the lexer makes of a text."""
    from aw_pygments import AwLexer

    return list(AwLexer(stripnl=False, ensurenl=False).get_tokens(text))


@pytest.mark.parametrize("path", GOOD, ids=lambda path: path.name)
def test_pygments_knows_each_example(path: Path) -> None:
    """No fault, and each byte is kept."""
    from pygments.token import Error

    text = path.read_text(encoding="utf-8")
    tokens = lexed(text)
    assert "".join(value for _, value in tokens) == text
    assert [value for kind, value in tokens if kind is Error] == []


def test_pygments_shows_faults_of_tokens() -> None:
    """A text that is not closed apart, which ends with its line, what is no token is told."""
    from pygments.token import Error

    told = [path.name for path in BAD if any(kind is Error for kind, _ in lexed(path.read_text(encoding="utf-8")))]
    assert len(BAD) >= 6 and len(told) >= len(BAD) - 1


# TextMate
def grammar() -> dict:
    """The grammar of VS Code."""
    return json.loads((EDITORS / "vscode" / "syntaxes" / "aw.tmLanguage.json").read_text(encoding="utf-8"))


def scopes(line: str, rules: dict) -> list[str]:
    """The scope of each character of a line, as an editor gives it: at each place the first rule that matches there."""
    patterns = [rules["repository"][rule["include"][1:]] if "include" in rule else rule for rule in rules["patterns"]]
    found = [""] * len(line)
    at = 0
    while at < len(line):
        best = None
        for rule in patterns:
            match = re.compile(rule.get("match") or rule["begin"]).search(line, at)
            if match and match.end() > match.start() and (best is None or match.start() < best[0].start()):
                best = match, rule
        if best is None:
            break
        match, rule = best
        end = match.end()
        if "begin" in rule:
            end = text_end(line, match.end(), rule, found)
        for place in range(match.start(), end):
            found[place] = found[place] or rule.get("name", "")
        for group, capture in rule.get("captures", {}).items():
            for place in range(*match.span(int(group))):
                found[place] = capture["name"]
        at = end
    return found


def text_end(line: str, at: int, rule: dict, found: list[str]) -> int:
    """Where a text ends, with what stands in it."""
    while at < len(line):
        for inner in rule["patterns"]:
            match = re.compile(inner["match"]).match(line, at)
            if match:
                found[at:match.end()] = [inner["name"]] * (match.end() - at)
                at = match.end()
                break
        else:
            match = re.compile(rule["end"]).match(line, at)
            if match:
                return match.end()
            at += 1
    return at


@pytest.mark.parametrize("path", GOOD, ids=lambda path: path.name)
def test_textmate_knows_each_token(path: Path) -> None:
    """Each token has a scope of its kind, and none is a fault."""
    rules = grammar()
    for number, line in enumerate(lines_of(path.read_text(encoding="utf-8")), 1):
        if is_passed_over(line):
            assert not line.strip() or set(scopes(line, rules)) == {"comment.line.percentage.aw"}
            continue
        given = scopes(line, rules)
        wanted = {Kind.TEXT: "string", Kind.NUMBER: "constant.numeric", Kind.NODE: "constant.other.task", Kind.MARK: "punctuation"}
        for token in tokens_of(line, number):
            scope = given[token.span.start]
            assert scope and "invalid" not in scope, (line, token)
            if token.kind in wanted and token.kind is not Kind.TEXT:
                assert scope.startswith(wanted[token.kind]), (line, token, scope)


@pytest.mark.parametrize("path", BAD, ids=lambda path: path.name)
def test_textmate_shows_faults_of_tokens(path: Path) -> None:
    """What is no token is marked as such; a text that is not closed runs to the end of its line."""
    number = token_fault(path) or 1
    line = lines_of(path.read_text(encoding="utf-8"))[number - 1]
    given = scopes(line, grammar())
    assert any("invalid" in scope for scope in given) or given[-1].startswith("string")


def test_each_editor_has_each_word() -> None:
    """The words with which lines begin stand in all three."""
    vim = (EDITORS / "vim" / "syntax" / "aw.vim").read_text(encoding="utf-8")
    pygments = (EDITORS / "pygments" / "aw_pygments" / "__init__.py").read_text(encoding="utf-8")
    for word in [*FORMS, *EVENTS, "schedule"]:
        assert all(re.search(r"\b%s\b" % word, text) for text in (vim, pygments, json.dumps(grammar()))), word


def test_vscode_reads_the_lines_of_aw_explain() -> None:
    """The pattern of problems takes file, line, column and words."""
    package = json.loads((EDITORS / "vscode" / "package.json").read_text(encoding="utf-8"))
    pattern = re.compile(package["contributes"]["problemPatterns"][0]["regexp"])
    for words in ("a b.aw:90:50: notused: this rule is of role x; add `use x y`", "x.aw:5:28: circular swap at 1.in1: this value needs itself"):
        found = pattern.fullmatch(words)
        assert found and found[2].isdigit() and found[3].isdigit()
    for part in ("languages", "grammars"):
        for entry in package["contributes"][part]:
            assert (EDITORS / "vscode" / (entry.get("path") or entry["configuration"])).is_file()


# Vim
def vim(script: str, *files: str) -> str:
    """What Vim writes into its messages."""
    out = Path(os.environ.get("PYTEST_TMP", "/tmp")) / ("aw-vim-%d" % os.getpid())
    words = ["vim", "-N", "-u", "NONE", "-i", "NONE", "-n", "-es", "--cmd", "set rtp^=%s" % (EDITORS / "vim"), "-c", "filetype plugin on | syntax on",
             "-c", "edit %s" % files[0], "-c", script.replace("OUT", str(out)), "-c", "qall!"]
    try:
        subprocess.run(words, timeout=60 * float(os.environ.get("PATIENCE", "1")), check=False, stdin=subprocess.DEVNULL, capture_output=True, env={**os.environ, "TERM": "dumb"})
        return out.read_text(encoding="utf-8") if out.exists() else ""
    finally:
        out.unlink(missing_ok=True)


def test_vim_colours_an_example() -> None:
    """Vim's own names of what stands at some places of the claim, by line and column."""
    path = EXAMPLES / "insurance-claim-typed.aw"
    lines = lines_of(path.read_text(encoding="utf-8"))
    places = []
    for number, line in enumerate(lines, 1):
        if is_passed_over(line):
            continue
        places += [(number, token.span.start + 1, token) for token in tokens_of(line, number)]
    asked = "[%s]" % ",".join("[%d,%d]" % place[:2] for place in places)
    said = vim("call writefile(map(%s, {_, p -> synIDattr(synID(p[0], p[1], 1), 'name')}), 'OUT')" % asked, str(path)).split("\n")
    wanted = {Kind.NUMBER: {"awNumber"}, Kind.NODE: {"awTask"}, Kind.TEXT: {"awQuote"}, Kind.MARK: {"awMark"},
              Kind.NAME: {"awName", "awCall", "awSort", "awType", "awField", "awWord", "awEvent", "awDeclared"}}
    for (number, column, token), name in zip(places, said, strict=False):
        assert name in wanted[token.kind], (number, column, token.text, name)
    assert {"awWord", "awDeclared", "awSort", "awCall", "awField", "awEvent"} <= set(said)


@pytest.mark.parametrize("path", BAD, ids=lambda path: path.name)
def test_vim_shows_faults_of_tokens(path: Path) -> None:
    """Somewhere on the faulty line stands a fault, or a text that runs to its end."""
    number = token_fault(path)
    said = vim("call writefile(map(range(1, col([%d, '$']) - 1), {_, c -> synIDattr(synID(%d, c, 1), 'name')}), 'OUT')" % (number, number), str(path)).split()
    assert "awError" in said or "awBadPair" in said or said[-1] == "awText"


def test_vim_makes_and_goes_to_the_place() -> None:
    """`:make` runs aw_explain, and its list has the line and the column."""
    try:
        program = str(found())
    except Sorry as sorry:
        pytest.fail("not run: %s" % sorry)
    os.environ["AW"] = program
    path = EXAMPLES / "faults" / "specification" / "notused.aw"
    said = vim("silent make! | call writefile(map(getqflist(), {_, q -> q.lnum . ':' . (q.vcol ? 'v' : 'c') . q.col . ':' . q.text}), 'OUT')", str(path))
    assert re.match(r"6:v26: ?notused: this rule is of role clinic", said), said


def test_vim_lints() -> None:
    """`:compiler aw_lint` and `:make`."""
    os.environ["AW"] = str(found())
    said = vim("compiler aw_lint | silent make! | call writefile(map(getqflist(), {_, q -> q.lnum . ':' . q.col . ':' . q.text}), 'OUT')", str(EXAMPLES / "task-note.aw"))
    assert re.match(r"37:14: ?idle_field: `outcome`", said), said


def test_vim_formats(tmp_path: Path) -> None:
    """`:AwFormat` writes the text in one form, and leaves one that can't be read as it is."""
    for text, wanted in (("role  desk\n\n\n% why\nsort task desk 0   0\n", "role desk\n\n% why\nsort task desk 0 0\n"), ("role  desk\ncon x\n", "role  desk\ncon x\n")):
        path = tmp_path / "form.aw"
        path.write_text(text)
        assert vim("silent! AwFormat | call writefile(getline(1, '$'), 'OUT')", str(path)) == wanted
