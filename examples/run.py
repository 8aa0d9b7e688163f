#!/usr/bin/env python3
"""Runs the examples with a built program, and looks whether the pages show them as they are.

    python3 examples/run.py crates/aw_prog/out/aw_prog

Stored outputs: for each FILE.aw in faults/ and tutorial/, what stands beside it in FILE.check, FILE.plain and
FILE.replay is what these commands have to write of it. They were written by hand before any was run. The exit
status has to be the one that belongs to the first words written.
Shown commands: each box of docs/TUTORIAL.md that begins with `$ aw` has to show all that this command writes.
Shown texts: the pages have to show each FILE.aw, or what stands in it behind its line `schedule`, of tutorial/FILE.aw
line by line; of those named KIND-MORE.aw the faulty line alone, and of FILE.OTHER.aw the lines that FILE.aw has not.
"""
import re
import subprocess
import sys
from pathlib import Path

HERE = Path(__file__).resolve().parent
DOCS = HERE.parent / "docs"
COMMANDS = ("check", "plain", "replay")
STATUS_OF = {"bad specification ": 3, "bad types ": 15, "circular ": 4, "bad schedule ": 5}
PAGE_OF = {"specification": "FAULTS.md", "schedule": "FAULTS.md", "tutorial": "TUTORIAL.md"}


def status_for(output):
    """The exit status that belongs to an output."""
    return next((status for words, status in STATUS_OF.items() if output.startswith(words)), 0)


def boxes(page):
    """The texts of a page that stand between lines of three backticks."""
    return re.findall(r"^```\n(.*?)^```$", page, re.MULTILINE | re.DOTALL)


def sources():
    return sorted(path for folder in ("faults", "tutorial") for path in (HERE / folder).rglob("*.aw"))


def stored_runs():
    """Each source with a command and what is stored of its output."""
    for source in sources():
        for command in COMMANDS:
            stored = source.with_suffix("." + command)
            if stored.exists():
                yield source, command, stored.read_text()


def shown_runs():
    """Each command that the tutorial shows, with the output under it."""
    for box in boxes((DOCS / "TUTORIAL.md").read_text()):
        first, _, output = box.partition("\n")
        shown = re.fullmatch(r"\$ aw (\w+) < examples/(\S+)", first)
        if shown:
            yield HERE / shown[2], shown[1], output


def faults_of_run(program, source, command, expected):
    done = subprocess.run([program, command], input=source.read_bytes(), capture_output=True, timeout=60)
    name = f"{source.relative_to(HERE)} {command}"
    if done.stdout.decode() != expected:
        yield f"{name}: wrote {done.stdout[:200]!r}"
    if done.returncode != status_for(expected):
        yield f"{name}: ended with {done.returncode}"


def faulty_line(source):
    """The line of a source that its stored output names."""
    stored = next(source.with_suffix("." + c) for c in COMMANDS if source.with_suffix("." + c).exists())
    number = re.search(r" line (\d+) ", stored.read_text())
    return source.read_text().split("\n")[int(number[1]) - 1] if number else None


def new_lines(source):
    """The lines of NAME.OTHER.aw that NAME.aw has not."""
    base = source.with_name(source.name.split(".")[0] + ".aw").read_text().splitlines()
    return [line for line in source.read_text().splitlines() if line not in base]


def is_shown(source):
    folder = source.parent.name
    page = (DOCS / PAGE_OF[folder]).read_text()
    if "-" in source.name and faulty_line(source):
        return f"`{faulty_line(source)}`" in page
    if source.name.count(".") > 1:
        return all(line + "\n" in page or f"`{line}`" in page for line in new_lines(source))
    text = re.split(r"\nschedule(?: 2)?\n", source.read_text())[-1]
    return text in boxes(page) or folder == "tutorial" and all(line + "\n" in page for line in text.splitlines())


def main():
    program = str(Path(sys.argv[1]).resolve())
    runs = [*stored_runs(), *shown_runs()]
    faults = [fault for run in runs for fault in faults_of_run(program, *run)]
    faults += [f"{source.relative_to(HERE)}: not shown" for source in sources() if not is_shown(source)]
    print("\n".join(faults + [f"{len(runs)} runs, {len(sources())} texts, {len(faults)} faults"]))
    return 1 if faults else 0


if __name__ == "__main__":
    sys.exit(main())
