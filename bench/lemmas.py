#!/usr/bin/env python3
"""Lists lemmas that are stated in more than one proof file, and lemmas that nothing cites.

Statements are compared as texts, with their bound variables renamed alike and with what the modules around them take; so two may be
alike and speak of local words of the same name: read them before you merge them. A lemma is stated once, in the lowest crate that has
its words, and is `pub` there. Answers to goals (a statement that begins with `goal.`, and what the checker finds by its name) are no
lemmas. With names of crates only what concerns them is listed. It ends with 0 whatever it finds, but with --most N where it finds more
than N extra copies or N uncited lemmas."""
from __future__ import annotations

import argparse
import re
import sys
from collections import defaultdict
from dataclasses import dataclass
from pathlib import Path

CRATES = Path(__file__).resolve().parent.parent / "crates"
NAME = r"[^\s:(){},.;]+"
WORD = re.compile(r"[^\s(){},.;λ\[\]«»∥]+")
COMMENT = re.compile(r"(?:^|\s)--(?:\s.*)?$")
# Files whose declarations the checker finds by their names.
ANSWERS = ("Answers.antt", "Invariants.antt", "Measures.antt")
KINDS = ("abbrev", "data", "record", "module", "use", "unfoldable", "opaque", "mod", "let", "mutual")


@dataclass
class Lemma:
    """A lemma: where it is stated, its name, its statement as written and as compared, and whether others may cite it."""

    file: Path
    line: int
    name: str
    text: str
    shape: str
    is_pub: bool
    # how often its name is in its own statement and clauses
    inside: int

    def place(self) -> str:
        return f"{self.file.relative_to(CRATES)}:{self.line} {self.name}"

    def crate(self) -> str:
        return self.file.relative_to(CRATES).parts[0]


def bare(line: str) -> str:
    """Returns a line without its comment."""
    return (COMMENT.sub("", line) if "--" in line else line).rstrip()


def indent(line: str) -> int:
    return len(line) - len(line.lstrip(" "))


def shape_of(text: str) -> str:
    """Returns a statement with its bound variables renamed in the order in which they are bound."""
    binders = re.findall(r"[({]([^():{}≡→]+?) ?: ", text) + re.findall(r"λ ([^.()]+)\.", text)
    names = dict.fromkeys(it for part in binders for it in part.split() if it != "_")
    number = {name: f"v{i}" for i, name in enumerate(names)}
    return re.sub(r"[^\s(){},.]+", lambda it: number.get(it[0], it[0]), text)


def is_statement(text: str) -> bool:
    """Returns whether a type says that something holds, and is not the type of a function or a value."""
    last = text.rsplit("→", 1)[-1].strip()
    return bool(re.search(r"[≡≢≤<⊥∥]", text)) or bool(re.match(r"[A-Z][\w-]* \S", last) and not re.match(r"(List|Option|Result|Type|HashMap) ", last))


def lemmas_in(file: Path) -> list[Lemma]:
    """Returns the lemmas that a proof file states outside of `where`."""
    lines = [bare(it) for it in file.read_text(encoding="utf-8").split("\n")]
    found: list[Lemma] = []
    # the modules around a line: how far their lines are indented, and what they take
    around: list[tuple[int, str]] = [(0, "")]
    at = 0
    while at < len(lines):
        line, begun = lines[at], at
        at += 1
        if not line:
            continue
        while len(around) > 1 and indent(line) < around[-1][0]:
            around.pop()
        if indent(line) != around[-1][0]:
            continue
        while at < len(lines) and (not lines[at] or indent(lines[at]) > indent(line)) and not (line.strip().startswith("module") and line.endswith("where")):
            line += " " + lines[at].strip()
            at += 1
        module = re.match(r"\s*module \S+ ?(.*?)\s*where$", line)
        if module:
            behind = next((it for it in lines[at:] if it), "")
            around.append((indent(behind), around[-1][1] + module[1] + " "))
            continue
        stated = re.match(rf"\s*(pub )?({NAME}) : (.*)$", line)
        if stated and stated[2] not in KINDS:
            text = re.sub(r"\s+", " ", around[-1][1] + stated[3]).strip()
            if not re.match(r"∥?\s*goal\.", stated[3]) and is_statement(text):
                found.append(Lemma(file, begun + 1, stated[2], text, shape_of(text), bool(stated[1]), own_words(lines, begun, stated[2])))
    return found


def own_words(lines: list[str], begun: int, name: str) -> int:
    """Returns how often a name is in its own statement, which begins at this line, and in the clauses behind it."""
    depth, count = indent(lines[begun]), 0
    for at in range(begun, len(lines)):
        line = lines[at]
        if at > begun and line and indent(line) <= depth and not (indent(line) == depth and re.match(rf"\s*{re.escape(name)}(?: |$)", line)):
            break
        count += words_in(line).count(name) if name in line else 0
    return count


def words_in(text: str) -> list[str]:
    return WORD.findall(text)


def main() -> int:
    reader = argparse.ArgumentParser(description=__doc__, formatter_class=argparse.RawDescriptionHelpFormatter)
    reader.add_argument("crate", nargs="*", help="crates whose lemmas are listed; with none, all")
    reader.add_argument("--counts", action="store_true", help="print the numbers alone")
    reader.add_argument("--most", type=int, metavar="N", help="end with 1 where there are more than N extra copies, or more than N uncited lemmas")
    given = reader.parse_args()
    unknown = [it for it in given.crate if not (CRATES / it).is_dir()]
    if unknown:
        sys.exit(f"lemmas.py: there is no crate {', '.join(unknown)}")
    cited: dict[str, int] = defaultdict(int)
    lemmas: list[Lemma] = []
    own: dict[Path, dict[str, int]] = {}
    for file in sorted([*CRATES.glob("*/proofs/**/*.antt"), *CRATES.glob("*/specs/**/*.antt"), *CRATES.glob("*/src/**/*.rt")]):
        text = file.read_text(encoding="utf-8")
        # an attribute cites a lemma by its path
        text = text.replace("::", " ") if file.suffix == ".rt" else "\n".join(map(bare, text.split("\n")))
        own[file] = counts = defaultdict(int)
        for word in words_in(text):
            counts[word] += 1
        for word, count in counts.items():
            cited[word] += count
        if "/proofs/" in str(file):
            lemmas += lemmas_in(file)
    alike: dict[str, list[Lemma]] = defaultdict(list)
    for lemma in lemmas:
        if len(lemma.text) > 24:
            alike[lemma.shape].append(lemma)
    twice = [it for it in alike.values() if len({lemma.file for lemma in it}) > 1]
    twice.sort(key=lambda it: (-len(it), it[0].place()))
    unused = [it for it in lemmas if it.file.name not in ANSWERS and (cited[it.name] if it.is_pub else own[it.file][it.name]) <= it.inside]
    if given.crate:
        twice = [group for group in twice if any(it.crate() in given.crate for it in group)]
        unused = [it for it in unused if it.crate() in given.crate]
    extra = sum(len({it.file for it in group}) - 1 for group in twice)
    if not given.counts:
        for group in twice:
            print(f"stated {len(group)} times: {group[0].text[:150]}")
            print("".join(f"    {'pub ' if it.is_pub else ''}{it.place()}\n" for it in group), end="")
        for lemma in unused:
            print(f"cited nowhere: {'pub ' if lemma.is_pub else ''}{lemma.place()}")
    print(f"{len(lemmas)} lemmas; {len(twice)} statements are in more than one file, {extra} copies too many; {len(unused)} lemmas are cited nowhere")
    return 1 if given.most is not None and (extra > given.most or len(unused) > given.most) else 0


if __name__ == "__main__":
    try:
        sys.exit(main())
    except (BrokenPipeError, KeyboardInterrupt):
        sys.exit(130)
