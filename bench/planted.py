#!/usr/bin/env python3
"""Tries the wrong bodies that the gate leaves out, crates/CRATE/planted/*.edit, or lists them.

A wrong body is the code of one function, changed so that it does something wrong. To try it, the sources are copied into a folder of
its own, the wrong bodies of the crates named are put into their folders must-fail/, and `rt must-fail` runs there: it proves each
crate as it is and then tries each of its wrong bodies. The checker has to refuse each; where one is accepted this ends with 1."""
from __future__ import annotations

import argparse
import re
import shutil
import subprocess
import sys
import tempfile
from pathlib import Path

TOP = Path(__file__).resolve().parent.parent
CRATES = TOP / "crates"


def edits_of(crate: str, folder: str = "planted") -> list[Path]:
    """Returns the wrong bodies of the crate in this folder of it, in order of their names."""
    return sorted((CRATES / crate / folder).glob("*.edit"))


def refused_by(edit: Path) -> str:
    """Returns where the wrong body was refused when it was last tried: what its line `refused:` says."""
    lines = edit.read_text(encoding="utf-8").split("\n")
    return next((it.removeprefix("refused:").strip() for it in lines if it.startswith("refused:")), "")


def why_not(edit: Path) -> str:
    """Returns why the wrong body cannot be applied to its crate as it is, or nothing."""
    path, texts = "", {}
    for line in edit.read_text(encoding="utf-8").split("\n"):
        if line.startswith("file: "):
            path = line.removeprefix("file: ").strip()
            file = edit.parent.parent / path
            if not file.is_file():
                return f"there is no file {path}"
            texts.setdefault(path, file.read_text(encoding="utf-8"))
        elif line.startswith("old: "):
            old = line.removeprefix("old: ")
            count = texts.get(path, "").count(old)
            if count != 1:
                return f"the text behind 'old:' is in {path} {count} times, and has to be there once"
        elif line.startswith("new:"):
            texts[path] = texts[path].replace(old, line.removeprefix("new:").removeprefix(" "))
    return ""


def list_edits(names: list[str]) -> int:
    """Prints each wrong body with its name and where it was refused, and those that no longer fit the source. Returns the status."""
    stale = 0
    for crate in names:
        for folder in ("must-fail", "planted"):
            for edit in edits_of(crate, folder):
                why = why_not(edit)
                stale += bool(why)
                said = refused_by(edit) or ("gate" if folder == "must-fail" else "no line `refused:`")
                print(f"{crate}/{edit.stem}: {said}" + (f" -- CANNOT BE APPLIED: {why}" if why else ""))
    if stale:
        print(f"planted.py: {stale} wrong bodies do not fit the source: mend their lines `file:` and `old:`", file=sys.stderr)
    return 1 if stale else 0


def write_goal(line: str) -> None:
    """Writes the goal that a line of `rt must-fail` names into the line `refused:` of its wrong body, where it is another one."""
    said = re.match(r"(?:rt: )?must-fail (\w+)/([\w.-]+\.edit): refused, as it must be.*?\(`([^`]+)`\)", line)
    edit = CRATES / said[1] / "planted" / said[2] if said else CRATES
    if not said or not edit.is_file() or refused_by(edit).rpartition(" at ")[2] == said[3]:
        return
    function = refused_by(edit).split(" at ")[0] or "?"
    kept = [it for it in edit.read_text(encoding="utf-8").split("\n") if not it.startswith("refused:")]
    edit.write_text("\n".join([f"refused: {function} at {said[3]}", *kept]), encoding="utf-8")
    print(f"planted.py: {edit.relative_to(TOP)} is refused at {said[3]} now")


def try_edits(names: list[str], writes: bool) -> int:
    """Tries the wrong bodies of these crates in a copy, and returns the status of `rt must-fail`."""
    if not shutil.which("rt"):
        sys.exit("planted.py: there is no command rt: it comes with the kit that README.md names")
    with tempfile.TemporaryDirectory() as room:
        skip = shutil.ignore_patterns("out", "must-fail", "planted")
        shutil.copytree(CRATES, Path(room, "crates"), ignore=skip)
        for name in ("crates.txt", "HANDLES"):
            shutil.copy(TOP / name, room)
        for name in names:
            shutil.copytree(CRATES / name / "planted", Path(room, "crates", name, "must-fail"))
        ran = subprocess.Popen(["rt", "must-fail", *names], cwd=room, stdout=subprocess.PIPE, text=True)
        for line in ran.stdout or ():
            print(line, end="", flush=True)
            if writes:
                write_goal(line)
        return ran.wait()


def main() -> int:
    reader = argparse.ArgumentParser(description=__doc__, formatter_class=argparse.RawDescriptionHelpFormatter)
    reader.add_argument("crate", nargs="*", help="a crate; with none, all that have a folder planted/")
    reader.add_argument("--list", action="store_true", help="print the wrong bodies and where each was refused, and try none")
    reader.add_argument("--write", action="store_true", help="write where each was refused into its line 'refused:'")
    words = reader.parse_args()
    here = sorted(it.name for it in CRATES.iterdir() if edits_of(it.name) or words.list and edits_of(it.name, "must-fail"))
    unknown = [it for it in words.crate if it not in here]
    if unknown:
        sys.exit(f"planted.py: no wrong bodies in {', '.join(f'crates/{it}/planted' for it in unknown)}")
    return list_edits(words.crate or here) if words.list else try_edits(words.crate or here, words.write)


if __name__ == "__main__":
    try:
        sys.exit(main())
    except (BrokenPipeError, KeyboardInterrupt):
        sys.exit(130)
