#!/usr/bin/env python3
"""Writes docs/READING.md: for each clause of `aw_run::run` the definitions that it reaches; with --check, says where that page is stale.

From the names in a clause it goes on through the names in their definitions, by the lines `use` of each file, down to the words of the
kit's library, which it counts and does not follow. Of a type of the program its declaration is read, or the value that contracts see it
as, and of a trait its ghost members; facts that a type keeps of its values are left out, for they are proved of each value and say
nothing of what the type is. Proofs are not read at all. A name that a definition binds itself counts as the imported one of that name,
so the page may name too much, and never too little. Ends with 1 where a name is found nowhere, where the headline takes more lines than
MOST, or where the page is stale: it names other definitions than it would, or a number in it differs by more than a tenth and by more
than twenty."""
from __future__ import annotations

import argparse
import re
import signal
import sys
from functools import cache
from pathlib import Path
from typing import NamedTuple

TOP = Path(__file__).resolve().parent.parent
CRATES = TOP / "crates"
PAGE = TOP / "docs" / "READING.md"
START = CRATES / "aw_run" / "src" / "running.rt"

# The clauses of the headline, in the order in which they are read best: each counts what it adds to those in front of it.
HEADLINE = ["arrived", "enabled", "started", "stays", "merged", "answers", "any_order", "settles", "bounded", "acyclic", "no_circle"]
MOST = 2500

# Clauses that reach fewer lines have no row.
SHOWN = 200

# The crates whose definitions say how bytes spell a specification and a schedule.
SPELLING = ["aw_lex", "aw_spelling", "aw_term_reader", "aw_name_index", "aw_grammar", "aw_face", "aw_spec", "aw_sched"]

HEAD = """# What has to be read

Written by `bench/reach.py`, which `ci/pages` runs. A clause says no more than its definitions: whoever wants to trust a clause of `aw_run::run` has to read these, and none of the proofs. The script goes from the names in a clause through the names in their definitions, down to the words of the kit's library. *Lines* are those of the definitions themselves that are neither empty nor a comment; of a type of the program its declaration counts, or the value that contracts see it as, and of a trait its ghost members.

Begin with `aw_term` (Trees, Matching, Choices, Configs, Runs); then `aw_law_sites` (Sites, Choosing, Receiving, Reacting, Worlds, Outputs), and last `aw_run` (Runs, Promises), which the clauses cite. [MODEL](MODEL.md) has them in words.
"""

WORD = re.compile(r"[^\W\d][\w'-]*(?:\.[^\W\d][\w'-]*)*")


class Name(NamedTuple):
    """A name in a file of definitions or of source."""

    file: Path
    word: str


class Item(NamedTuple):
    """A definition: its lines, and the text in which its names stand."""

    lines: int
    text: str


class Scope(NamedTuple):
    """What a file defines, and where the names come from that it imports."""

    items: dict[str, Item]
    names: dict[str, tuple[str, str]]
    modules: dict[str, str]


def imports(text: str) -> tuple[dict[str, tuple[str, str]], dict[str, str]]:
    """Returns the names that the `use` lines of a text bring in, each with its module and its name there; and the modules by their short names."""
    names: dict[str, tuple[str, str]] = {}
    modules: dict[str, str] = {}
    for path, listed, short in re.findall(r"(?m)^ *(?:pub |ghost )*use (Rattle[\w.]+?)(?:\.\{([^}]*)\}| as (\w+));?$", text):
        if short:
            modules[short] = path
        for it in re.split(r",\s*", listed) if listed else []:
            name, _, other = it.strip().partition(" as ")
            names[other or name] = (path, name)
    for path, listed, single in re.findall(r"(?m)^(?:pub )?use (\w+(?:::\w+)*)::(?:\{([^}]*)\}|(\w+));$", text):
        for it in re.split(r",\s*", listed or single):
            name, _, other = it.strip().partition(" as ")
            names.setdefault(other or name, ("src " + path, name))
    return names, modules


def block_of(lines: list[str], at: int, indent: int) -> int:
    """Returns the end of the item that begins at a line: the first line behind it that stands no deeper and continues it no more."""
    word, end = head_of(lines[at]), at + 1
    begins = re.compile(r".*" + ".*".join(map(re.escape, word.split("◌"))) + ".* = " if "◌" in word else rf"\s*{re.escape(word)}(?=[\s=]|$)")
    while end < len(lines):
        line = lines[end]
        deeper = len(line) - len(line.lstrip()) > indent
        if line.strip() and not deeper and line.strip()[0] not in "}])" and not begins.match(line):
            break
        end += 1
    return end


def head_of(line: str) -> str:
    """Returns the name that a line of definitions begins to define, or nothing."""
    found = re.match(r"\s*(?:(?:abbrev|unfoldable|pub|mutual|record|data) )*(◌\S+◌|[^\s:(){}=]+)(?: [^=]*?)?(?: :(?= |$)|:$)|\s*(?:pub )?(?:record|data) ([^\s:]+)", line)
    return (found[2] or found[1]) if found else ""


def definitions(text: str) -> dict[str, Item]:
    """Returns the definitions of a file of definitions, each also under the names of its constructors."""
    lines, around, at = text.split("\n"), "", 0
    found: dict[str, Item] = {}
    while at < len(lines):
        line = lines[at]
        indent = len(line) - len(line.lstrip())
        if line.startswith("module "):
            around = line
        elif line.strip() and not indent:
            around = ""
        word = head_of(line) if not re.match(r"\s*(--|use |pub use |pub mod |mod |module |infix|mutual)", line) and line.strip() else ""
        if not word:
            at += 1
            continue
        end = block_of(lines, at, indent)
        body = [it for it in lines[at:end] if it.strip() and not it.strip().startswith("--")]
        code = "\n".join(re.sub(r" --.*", "", it) for it in body)
        item = Item(len(body), code + "\n" + around)
        found[word] = item
        if re.match(r"\s*(?:pub )?data ", line):
            found.update({it: item for it in re.findall(r"(?m)^\s+(\S+) :", code)})
        at = end
    return found


def declarations(text: str) -> dict[str, Item]:
    """Returns the types, traits and constants of a file of source, each without the facts that it keeps."""
    found: dict[str, Item] = {}
    for head in re.finditer(r"(?m)^(?:pub(?:\(\w+\))? )?(?P<kind>struct|enum|trait|const|type) (?P<name>\w+)", text):
        end = re.search(r"(?m)^\}|;$" if head["kind"] in ("struct", "enum", "trait") else r"(?m);$", text[head.start():])
        body = text[head.start():head.start() + end.end()] if end else ""
        seen = re.search(rf"(?ms)^impl\b[^\n]* Model for {head['name']}\b.*?^    (ghost Value = [^\n]*)", text)
        if seen:
            kept = [body.split("\n")[0], seen[1], "}"]
        elif head["kind"] == "trait":
            kept = [body.split("\n")[0], *re.findall(r"(?m)^ +ghost \w+: .*$", body), "}"]
        else:
            kept = [it for it in body.split("\n") if not re.match(r"\s*(pub )?ghost ", it)]
        kept = [it for it in kept if re.sub(r"//.*", "", it).strip()]
        found[head["name"]] = Item(len(kept), re.sub(r"//.*", "", "\n".join(kept)))
    return found


@cache
def scope_of(file: Path) -> Scope:
    """Returns what a file defines and imports."""
    text = file.read_text(encoding="utf-8")
    names, modules = imports(text)
    items = definitions(text) if file.suffix == ".antt" else declarations(text)
    return Scope(items, names, modules)


@cache
def declared_in(crate: str, word: str) -> Path | None:
    """Returns the file of a crate's source that declares a type, a trait or a constant."""
    for file in sorted((CRATES / crate / "src").rglob("*.rt")):
        if word in scope_of(file).items:
            return file
    return None


@cache
def found_in(module: str, word: str, user: Path) -> Name | str:
    """Returns where a name of a module is defined, or "kit" where that is the kit's library, or "" where it is found nowhere."""
    if module.startswith("src "):
        crate = module[4:].split("::")[0]
        crate = user.relative_to(CRATES).parts[0] if crate == "crate" else crate
        file = declared_in(crate, word) if (CRATES / crate).is_dir() else None
        return Name(file, word) if file else "kit"
    parts = module.split(".")[1:]
    if not (CRATES / parts[0]).is_dir():
        return "kit"
    if "declared" in parts:
        inside = [it for it in parts[parts.index("declared") + 1:] if it not in ("TheVariants", "TheInside")]
        types = [it for it in inside if it[0].isupper() and it != "TheConstants"]
        file = declared_in(parts[0], types[-1] if types else word)
        return Name(file, types[-1] if types else word) if file else ""
    file = CRATES.joinpath(*parts).with_suffix(".antt")
    if not file.is_file():
        file = file.parent.with_suffix(".antt")
    if not file.is_file():
        return "kit" if parts[1] == "specs" and parts[2] == "contracts" else ""
    scope = scope_of(file)
    if word in scope.items:
        return Name(file, word)
    return found_in(*scope.names[word], file) if word in scope.names else ""


def words_in(text: str, scope: Scope) -> set[str]:
    """Returns the words of a text, and the operators that its file imports or defines and that stand there."""
    words = set(WORD.findall(re.sub(r"(?<=[)\]\d])(?:\.[\w'-]+)+", "", text)))
    operators = [it for it in [*scope.names, *scope.items] if "◌" in it]
    return words.union(it for it in operators if all(piece in text for piece in it.split("◌")))


def next_of(at: Name, text: str) -> tuple[set[Name], set[str], set[str]]:
    """Returns what a text in a file names: definitions, words of the kit, and names that are found nowhere."""
    scope = scope_of(at.file)
    near: set[Name] = set()
    kit: set[str] = set()
    lost: set[str] = set()
    for said in words_in(text, scope):
        first, _, rest = said.partition(".")
        if first in scope.modules and rest:
            word = rest.split(".")[0]
            place = found_in(scope.modules[first], word, at.file)
        elif first in scope.names:
            word = scope.names[first][1]
            place = found_in(*scope.names[first], at.file)
        elif first in scope.items:
            word, place = first, Name(at.file, first)
        else:
            continue
        if place == "kit":
            kit.add(word)
        elif isinstance(place, Name):
            near.add(place)
        else:
            lost.add(f"{at.file.relative_to(TOP)}: {said}")
    return near, kit, lost


def reach(text: str) -> tuple[set[Name], set[str], set[str]]:
    """Returns all definitions that a clause of the top call reaches, the words of the kit that they name, and names that are found nowhere."""
    seen: set[Name] = set()
    todo, kit, lost = next_of(Name(START, ""), text)
    while todo:
        at = todo.pop()
        seen.add(at)
        near, more, missed = next_of(at, scope_of(at.file).items[at.word].text)
        kit |= more
        lost |= missed
        todo |= near - seen
    return seen, kit, lost


def clauses() -> dict[str, str]:
    """Returns the clauses of the top call by their names, each with the bounds of the type parameters that it names."""
    text = START.read_text(encoding="utf-8")
    head = re.search(r"(?ms)^pub fn run<([^>]*)>.*?^\{", text)
    if not head:
        sys.exit(f"reach.py: there is no function run in {START.relative_to(TOP)}")
    bounds = dict(it.strip().split(": ") for it in head[1].split(","))
    found = {}
    for name, body in re.findall(r"(?ms)^    ensures (\w+) \{(.*?)\}$", head[0]):
        named = [bound for it, bound in bounds.items() if re.search(rf"\b{it}\.", body)]
        found[name] = body + "\n" + " ".join(named)
    return found


def lines_of(names: set[Name]) -> int:
    """Returns how many lines these definitions have, those of a type and its variants once."""
    return sum(it.lines for it in {(at.file, id(item)): item for at in names for item in [scope_of(at.file).items[at.word]]}.values())


def files_of(names: set[Name]) -> dict[Path, set[Name]]:
    """Returns the definitions by their files, in order."""
    found: dict[Path, set[Name]] = {}
    for it in sorted(names):
        found.setdefault(it.file, set()).add(it)
    return found


def in_words(names: set[Name]) -> str:
    """Returns a line for each file of these definitions, with how many lines and which definitions."""
    rows = []
    for file, here in files_of(names).items():
        rows.append(f"{file.relative_to(CRATES)}, {lines_of(here):,}: {', '.join(it.word for it in sorted(here))}")
    return "\n".join(rows)


def listed(names: set[Name]) -> str:
    """Returns a line for each crate of these definitions, with how many lines they have and their files."""
    crates: dict[str, set[Name]] = {}
    for it in sorted(names):
        crates.setdefault(it.file.relative_to(CRATES).parts[0], set()).add(it)
    rows = []
    for crate, here in crates.items():
        files = ["/".join(it.relative_to(CRATES / crate).parts).removeprefix("specs/").removesuffix(".antt") for it in files_of(here)]
        rows.append(f"- {crate}, {lines_of(here):,}: {', '.join(files)}")
    return "\n".join(rows)


def page() -> tuple[str, list[str]]:
    """Returns the text of docs/READING.md, and what is wrong."""
    found = {name: reach(body) for name, body in clauses().items()}
    faults = sorted(set().union(*(lost for _, _, lost in found.values())))
    faults = [f"{it} is found nowhere" for it in faults] + [f"aw_run::run has no clause {it}" for it in HEADLINE if it not in found]
    order = [*(it for it in HEADLINE if it in found), *(it for it in found if it not in HEADLINE)]
    seen: set[Name] = set()
    rows = []
    for name in order:
        mine = found[name][0]
        if lines_of(mine) >= SHOWN:
            rows.append(f"| `{name}` | {len(files_of(mine))} | {lines_of(mine):,} | {lines_of(mine - seen):,} |")
        seen |= mine
    headline = set().union(*(found[it][0] for it in HEADLINE if it in found))
    total = lines_of(headline)
    if total > MOST:
        faults.append(f"the headline reaches definitions of {total:,} lines, and {MOST:,} is the most")
    spelling = {it for it in headline if it.file.relative_to(CRATES).parts[0] in SPELLING}
    text = [
        HEAD,
        f"The clauses of the headline, {', '.join(f'`{it}`' for it in HEADLINE)}, together reach {len(headline)} definitions of {total:,} lines in {len(files_of(headline))} files. "
        f"Of these, {lines_of(spelling):,} lines say how bytes spell a specification and a schedule, and {lines_of(headline - spelling):,} what is said of them. "
        f"All clauses of `run` together reach {len(seen)} definitions of {lines_of(seen):,} lines in {len(files_of(seen))} files.\n",
        "## How much for each clause\n",
        f"*New* are the lines that no clause above reaches. A clause that is not listed, on faults and on who touches what, reaches fewer than {SHOWN} lines.\n",
        "| Clause | Files | Lines | New |\n|---|---|---|---|\n" + "\n".join(rows) + "\n",
        "## Which definitions\n",
        "How many lines of each crate, and their files; a file without a folder is in the crate's `specs/`. "
        "`bench/reach.py --names CLAUSE` lists all definitions that a clause reaches, by name.\n",
        f"### The headline\n\n{listed(headline)}\n",
        f"### What the other clauses reach beyond it\n\n{listed(seen - headline)}\n",
    ]
    return "\n".join(text), faults


def is_stale(was: str, now: str) -> bool:
    """Returns whether a page names other things than it would, or has a number that differs by more than a tenth and by more than twenty."""
    number = re.compile(r"(?<![\w.])\d[\d,]*(?![\w.])")
    if number.sub("", was) != number.sub("", now):
        return True
    pairs = [(int(a.replace(",", "")), int(b.replace(",", ""))) for a, b in zip(number.findall(was), number.findall(now), strict=True)]
    return any(abs(a - b) > max(20, b // 10) for a, b in pairs)


def main() -> int:
    reader = argparse.ArgumentParser(description=__doc__, formatter_class=argparse.RawDescriptionHelpFormatter)
    reader.add_argument("--check", action="store_true", help="write nothing, and say whether the page is stale")
    reader.add_argument("--names", metavar="CLAUSE", help="write nothing, and list the definitions that a clause of run reaches")
    words = reader.parse_args()
    checks = words.check
    if words.names:
        signal.signal(signal.SIGPIPE, signal.SIG_DFL)
        asked = clauses()
        if words.names not in asked:
            print(f"reach.py: aw_run::run has no clause {words.names}; its clauses are {', '.join(asked)}", file=sys.stderr)
            return 2
        print(in_words(reach(asked[words.names])[0]))
        return 0
    text, faults = page()
    if not checks:
        PAGE.write_text(text, encoding="utf-8")
    elif not PAGE.is_file() or is_stale(PAGE.read_text(encoding="utf-8"), text):
        faults.append("docs/READING.md is stale: run bench/reach.py")
    for it in faults:
        print(f"reach.py: {it}", file=sys.stderr)
    return 1 if faults else 0


if __name__ == "__main__":
    sys.exit(main())
