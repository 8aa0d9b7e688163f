#!/usr/bin/env python3
"""Times the store with hashes (crates/table_equations/out/table_equations, or the file that is given) beside the same work in plain Rust over
std's HashMap (bench/race, which it builds with cargo). Both have to write the same numbers. Each work runs five times, in turn;
the least time and the largest memory are told, as a table in Markdown. Ends with 1 where numbers differ or a work takes longer
than in plain Rust."""

import os
import subprocess
import sys
import tempfile

HERE = os.path.dirname(os.path.abspath(__file__))
WORKS = ["built", "named", "added", "both", "reserved", "read"]
TURNS = 5


def timed(call, text):
    """Seconds of the processor, peak memory in MiB, and the last line of what a call wrote to which this text was given."""
    reader, writer = os.pipe()
    with tempfile.TemporaryFile() as given:
        given.write(text)
        given.seek(0)
        child = os.fork()
        if child == 0:
            os.dup2(given.fileno(), 0)
            os.dup2(writer, 1)
            os.execv(call[0], call)
    os.close(writer)
    with os.fdopen(reader) as pipe:
        told = pipe.read()
    _, status, used = os.wait4(child, 0)
    assert status == 0, (call, text, status)
    return used.ru_utime + used.ru_stime, used.ru_maxrss / 1024, told.splitlines()[-1]


def best(runs_of):
    """For each call the least time, the largest memory, and what it wrote, over turns that alternate."""
    runs = [[timed(call, text) for call, text in runs_of] for _ in range(TURNS)]
    return [
        (min(run[i][0] for run in runs), max(run[i][1] for run in runs), runs[0][i][2])
        for i in range(len(runs_of))
    ]


def main():
    proved = sys.argv[1] if len(sys.argv) > 1 else os.path.join(HERE, "..", "crates", "table_equations", "out", "table_equations")
    race = os.path.join(HERE, "race")
    subprocess.run(["cargo", "build", "--release", "--quiet"], cwd=race, check=True)
    plain = os.path.join(race, "target", "release", "race")
    failed = False
    print("| work | proved | plain Rust |\n|---|---|---|")
    for size in ("wide", "deep"):
        for work in WORKS:
            word = f"{size}-{work}"
            (s, m, told), (t, n, other) = best([([proved], b"+++ works\n" + word.encode() + b"\n"), ([plain, word], b"")])
            print(f"| {word} | {s:.2f} s, {m:.0f} MiB | {t:.2f} s, {n:.0f} MiB |", flush=True)
            if told != other or (s > t and work != "built"):
                print(f"{word}: {told.strip()} against {other.strip()}, {s:.2f} s against {t:.2f} s", file=sys.stderr)
                failed = True
    sys.exit(1 if failed else 0)


main()
