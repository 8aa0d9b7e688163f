#!/usr/bin/env python3
"""Writes docs/CRATES.md from crates.txt and the pages of the crates; with --check, says what no longer holds and writes nothing.

Checked are: that each crate has a page of at most 40 lines; that each call and each clause that it cites under "What it promises" is
in the crate's source, and each other name in code letters in the crate or below it; that each wrong body has a line `refused:` and
fits the source; that what docs/CLAIMS.md cites is in the crate that it names; that links of all pages lead to files and headings; and
that docs/CRATES.md is what this script would write (sizes may differ by a tenth). Ends with 1 where one fails."""
from __future__ import annotations

import argparse
import re
import sys
from functools import cache
from pathlib import Path

import planted

TOP = Path(__file__).resolve().parent.parent
CRATES = TOP / "crates"
PAGE = TOP / "docs" / "CRATES.md"
MOST_LINES = 40
OWN = re.compile(r"\b(aw|table)_\w+")

HEAD = """# The crates

Written by `bench/index.py` from `crates.txt` and the page of each crate, `crates/NAME/README.md`, which says what the crate promises, why it is built so, what it does not promise, and how it was attacked. Groups are in the order in which a newcomer walks.

*Stands on* names the highest crates that a crate uses, and so all below them. [*Wrong*](PLANTED.md) are wrong bodies that the checker has to refuse: tried by the gate + by hand.
"""


def groups() -> list[tuple[str, str, list[str]]]:
    """Returns the groups of crates.txt in order: the name of each, what it is, and its crates."""
    found: list[tuple[str, str, list[str]]] = []
    for line in (TOP / "crates.txt").read_text(encoding="utf-8").split("\n"):
        heading = re.match(r"# -- (\w+): (.*)", line)
        crate = re.match(r"(\w+):", line)
        if heading:
            found.append((heading[1], heading[2], []))
        elif crate and found:
            found[-1][2].append(crate[1])
    return found


@cache
def uses() -> dict[str, list[str]]:
    """Returns for each crate those that its line in crates.txt names."""
    lines = (TOP / "crates.txt").read_text(encoding="utf-8").split("\n")
    pairs = [it.split(":", 1) for it in lines if it and not it.startswith("#")]
    return {name.strip(): rest.split() for name, rest in pairs}


@cache
def below(crate: str) -> frozenset[str]:
    """Returns all crates that a crate stands on."""
    direct = uses().get(crate, [])
    return frozenset(direct).union(*(below(it) for it in direct))


def stands_on(crate: str) -> list[str]:
    """Returns the crates named that are not below another one named."""
    direct = uses()[crate]
    return [it for it in direct if not any(it in below(other) for other in direct)]


def lines_in(crate: str, folder: str, ending: str) -> int:
    """Returns how many lines the crate's files with this ending have in this folder."""
    return sum(it.read_bytes().count(b"\n") for it in (CRATES / crate / folder).rglob(f"*{ending}"))


def purpose(crate: str) -> str:
    """Returns what a crate is for: the first sentence of its page."""
    page = (CRATES / crate / "README.md").read_text(encoding="utf-8").split("\n\n")
    text = page[1].replace("\n", " ") if len(page) > 1 else ""
    text = re.split(r"(?<=\w)\.(?: |$)|:$", text, maxsplit=1)[0]
    return text.rstrip(".:")


def row(crate: str) -> str:
    """Returns the line of a crate in its table."""
    by_gate, by_hand = len(planted.edits_of(crate, "must-fail")), len(planted.edits_of(crate))
    bodies = f"{by_gate} + {by_hand}" if by_gate else str(by_hand or "")
    cells = [crate, purpose(crate), " ".join(stands_on(crate)), bodies]
    return "| " + " | ".join(cells) + " |"


def page() -> str:
    """Returns the text of docs/CRATES.md."""
    parts = [HEAD]
    total = [0, 0, 0]
    for name, what, crates in groups():
        parts.append(f"## {name.capitalize()}\n\n{what[0].upper()}{what[1:]}.\n")
        parts.append("| Crate | What it is for | Stands on | Wrong |\n|---|---|---|---|\n" + "\n".join(map(row, crates)) + "\n")
        for crate in crates:
            for i, it in enumerate((("src", ".rt"), ("specs", ".antt"), ("proofs", ".antt"))):
                total[i] += lines_in(crate, *it)
    names = [it for _, _, crates in groups() for it in crates]
    gate, hand = (sum(len(planted.edits_of(it, folder)) for it in names) for folder in ("must-fail", "planted"))
    parts.append(f"In all: {len(names)} crates; lines of source / definitions / proofs {' / '.join(f'{it:,}' for it in total)}; wrong bodies {gate} + {hand}.\n")
    return "\n".join(parts)


def surface(crate: str) -> dict[str, set[str]]:
    """Returns the calls and types of a crate's source, each with the names of its clauses and ghost fields."""
    found: dict[str, set[str]] = {}
    for file in sorted((CRATES / crate / "src").rglob("*.rt")):
        owner, now = "", ""
        for line in file.read_text(encoding="utf-8").split("\n"):
            kind = re.match(r"(?:pub(?:\(\w+\))? )?(?:trait|struct|enum|type) (\w+)", line)
            block = re.match(r"impl\b(.*)$", line)
            call = re.match(r"(\s*)(?:pub(?:\(\w+\))? )?(?:const )?fn (\w+)", line)
            if kind:
                owner = now = kind[1]
            elif block:
                owner = now = type_of(block[1])
            elif call:
                now = f"{owner}::{call[2]}" if call[1] and owner else call[2]
            elif line.startswith("}"):
                owner = now = ""
            if now:
                found.setdefault(now, set()).update(re.findall(r"\bensures (\w+) \{", line))
            field = re.match(r"\s+(?:pub )?ghost (\w+)\s*[:=]", line)
            if field and owner:
                found.setdefault(owner, set()).add(field[1])
    return found


def type_of(head: str) -> str:
    """Returns the type that an `impl` is for, from what is behind that word."""
    bare = head
    while re.search(r"<[^<>]*>", bare):
        bare = re.sub(r"<[^<>]*>", "", bare)
    return bare.split("{")[0].split(" where")[0].split(" for ")[-1].strip(" &").split("::")[-1].split(" ")[-1]


# A citation: calls in code letters, and behind them in parentheses the clauses that are meant.
CITED = re.compile(r"((?:`[^`]+`(?:, field)?(?:, )?)+)(?: ?\(((?:`[^`]+`(?:, )?)+)\))?")


def cites(crate: str, text: str) -> list[str]:
    """Returns what is wrong with what a crate's page cites in front of the first colon of each of its promises."""
    faults, known = [], surface(crate)
    for item in re.findall(r"(?m)^- (.*)$", text):
        head = re.sub(r"`[^`]*`", lambda it: it[0].replace(":", "\0"), item).split(":")[0].replace("\0", ":")
        for calls, clauses in CITED.findall(head):
            names = re.findall(r"`([^`]+)`", calls)
            said = set().union(*(known.get(it, set()) for it in names))
            faults += [f"{it} is no call or type of {crate}" for it in names if it not in known]
            faults += [f"{it} is no clause of {', '.join(names)}" for it in re.findall(r"`([^`]+)`", clauses) if it not in said]
    return faults


@cache
def words_of(crate: str) -> frozenset[str]:
    """Returns all words of a crate's text, and the names of its wrong bodies."""
    words: set[str] = set()
    for folder in ("src", "specs", "proofs"):
        for file in (CRATES / crate / folder).rglob("*.*"):
            words.add(file.stem)
            words.update(re.findall(r"\w+", file.read_text(encoding="utf-8")))
    words.update(it.stem for folder in ("planted", "must-fail") for it in planted.edits_of(crate, folder))
    return frozenset(words)


def unknown_names(crate: str, text: str) -> list[str]:
    """Returns the names in code letters that are neither in the crate, nor in one below, nor a path of the repository."""
    near = [crate, *(it for it in below(crate) if (CRATES / it).is_dir())]
    faults = []
    for said in re.findall(r"`([^`\n]+)`", text):
        if "/" in said or said.endswith((".rt", ".antt", ".py")):
            places = (TOP / said, CRATES / crate / said, CRATES / crate / "src" / said)
            if not any(it.exists() for it in places):
                faults.append(f"there is no file {said}")
        elif re.fullmatch(r"[A-Za-z_]+(?:::[A-Za-z_]+)*", said):
            names = said.split("::")
            is_known = said in uses() or all(any(it in words_of(crate) for crate in near) for it in names)
            if not is_known and said not in KNOWN and not any(said in it for it in uses().values()):
                faults.append(f"{said} is not in {crate} or below it")
    return faults


# Names that pages cite and that are no name of a crate's text.
KNOWN = {"stdin", "stdout", "args", "aw", "smallvec", "std", "rt", "HANDLES", "futures", "Clone", "main"}


def faults_of(crate: str) -> list[str]:
    """Returns what is wrong with the page and the wrong bodies of a crate."""
    at, faults = CRATES / crate / "README.md", []
    if not at.is_file():
        return [f"crates/{crate}/README.md is missing: say there what the crate is for and what it promises"]
    text = at.read_text(encoding="utf-8")
    if text.count("\n") > MOST_LINES:
        faults.append(f"it has {text.count(chr(10))} lines, and {MOST_LINES} is the most")
    if not text.startswith(f"# {crate}\n\n"):
        faults.append(f"its first lines have to be '# {crate}' and an empty one")
    promises = re.search(r"(?ms)^## What it promises\n(.*?)(?=^## |\Z)", text)
    faults += cites(crate, promises[1]) if promises else []
    faults += unknown_names(crate, text)
    told = [f"crates/{crate}/README.md: {it}" for it in dict.fromkeys(faults)]
    for folder in ("must-fail", "planted"):
        for edit in planted.edits_of(crate, folder):
            why = planted.why_not(edit)
            if why:
                told.append(f"{edit.relative_to(TOP)}: {why}")
            elif folder == "planted":
                said = planted.refused_by(edit).split(" at ")[0]
                if not said:
                    told.append(f"{edit.relative_to(TOP)}: it has no line 'refused: FUNCTION at GOAL'")
                elif not (CRATES / crate / said).is_file() and not all(it in words_of(crate) for it in re.findall(r"\w+", said)):
                    told.append(f"{edit.relative_to(TOP)}: {said} is no function of {crate}: mend its line 'refused:'")
    return told


def headings(text: str) -> set[str]:
    """Returns the anchors of a page's headings."""
    names = re.findall(r"(?m)^#+ (.*)$", re.sub(r"(?ms)^```.*?^```", "", text))
    return {re.sub(r"[^\w\- ]", "", it.lower()).strip().replace(" ", "-") for it in names}


def broken_links() -> list[str]:
    """Returns the links of the pages that lead to no file, or to no heading of a page."""
    pages = {it.resolve(): it.read_text(encoding="utf-8") for folder in ("", "docs", "crates/*", "bench", "bench/peer") for it in TOP.glob(f"{folder}/*.md".lstrip("/"))}
    faults = []
    for at, text in pages.items():
        for link in re.findall(r"\]\(([^)\s]+)\)", re.sub(r"(?ms)^```.*?^```", "", text)):
            path, _, heading = link.partition("#")
            to = (at.parent / path).resolve() if path else at
            if not link.startswith("http") and (not to.exists() or heading and to in pages and heading not in headings(pages[to])):
                faults.append(f"{at.relative_to(TOP)}: the link {link} leads nowhere")
    return faults


def lost_citations() -> list[str]:
    """Returns what docs/CLAIMS.md cites in its tables that is not in the crate that it names there."""
    faults = []
    for line in (TOP / "docs" / "CLAIMS.md").read_text(encoding="utf-8").split("\n"):
        cells, crate = re.split(r"(?<!\\) \| ", line.strip("| ")), ""
        for said in re.findall(r"`([^`]+)`", cells[1]) if line.startswith("| ") and len(cells) == 2 else []:
            path = re.fullmatch(r"(?:(\w+)::)?([\w:]+)", said)
            if not path:
                continue
            if path[1] in uses():
                crate, said = path[1], path[2]
            near = [crate, *(it for it in below(crate) if (CRATES / it).is_dir())] if crate else []
            faults += [f"docs/CLAIMS.md: {said} is not in {crate}" for it in said.split("::") if near and not any(it in words_of(at) for at in near)]
    return faults


def is_stale(was: str, now: str) -> bool:
    """Returns whether the page differs from what would be written, but for sizes that differ by a tenth or by twenty lines."""
    sizes = re.compile(r"[\d,]+(?: / [\d,]+){2}")
    if sizes.sub("", was) != sizes.sub("", now):
        return True
    both = zip(re.findall(r"[\d,]+", " ".join(sizes.findall(was))), re.findall(r"[\d,]+", " ".join(sizes.findall(now))), strict=True)
    pairs = [(int(a.replace(",", "")), int(b.replace(",", ""))) for a, b in both]
    return any(abs(a - b) > max(20, b // 10) for a, b in pairs)


def main() -> int:
    reader = argparse.ArgumentParser(description=__doc__, formatter_class=argparse.RawDescriptionHelpFormatter)
    reader.add_argument("--check", action="store_true", help="write nothing, and say what no longer holds")
    checks = reader.parse_args().check
    names = [it for _, _, crates in groups() for it in crates]
    told = [f"crates/{it}: crates.txt has no line for it below a heading" for it in sorted(p.name for p in CRATES.iterdir()) if it not in names]
    told += [f"{it.relative_to(TOP)}: a wrong body belongs in crates/{it.parent.name}/planted" for it in sorted(TOP.glob("bench/planted/*/*.edit"))]
    told += [it for crate in names for it in faults_of(crate)]
    if told and any("is missing" in it for it in told):
        print("\n".join(told))
        return 1
    text = page()
    told += broken_links() + lost_citations() if checks else []
    if not checks:
        PAGE.write_text(text, encoding="utf-8")
    elif not PAGE.is_file() or is_stale(PAGE.read_text(encoding="utf-8"), text):
        told.append("docs/CRATES.md is stale: run bench/index.py")
    print("\n".join(told) or f"index.py: {len(names)} crates, each with its page")
    return 1 if told else 0


if __name__ == "__main__":
    sys.exit(main())
