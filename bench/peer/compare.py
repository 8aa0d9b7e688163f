#!/usr/bin/env python3
"""compare.py BIN.. [--dir DIR] [--only PREFIX] [--runs N] [--instructions]: times each benchmark, N times.

With more than one binary each of the N turns runs one after the other, so that a machine whose speed
changes changes it for all. Told are the medians of the N times, and of the N ratios of a turn, of each
binary to those before it, by the processor's time, which is the steadier number on a machine that others
use too; the outputs and statuses are compared with those of the first. The bytes written go to a file.
A binary that knows no such command (status 2) is left out of that case. With --instructions valgrind
counts the instructions of one run each, in millions, in place of the times."""
import argparse
import os
import shutil
import statistics
import subprocess
import sys
import tempfile
import threading
import time
from typing import NamedTuple

HERE = os.path.dirname(os.path.abspath(__file__))
HAS_TIME = os.path.exists("/usr/bin/time")


class Run(NamedTuple):
    """Seconds by the clock and of the processor, and the status; "late" where it took too long."""
    clock: float
    cpu: float
    status: int | str


def arguments() -> argparse.Namespace:
    ap = argparse.ArgumentParser(description=__doc__, formatter_class=argparse.RawDescriptionHelpFormatter)
    ap.add_argument("bins", nargs="+", metavar="BIN")
    ap.add_argument("--dir", default="bench-data", help="where the inputs are; made where they are not")
    ap.add_argument("--only", default="", help="the cases whose names begin so")
    ap.add_argument("--runs", type=int, default=11)
    ap.add_argument("--limit", type=float, default=300.0, help="seconds per run")
    ap.add_argument("--instructions", action="store_true")
    a = ap.parse_args()
    for it in a.bins:
        if not os.access(it, os.X_OK):
            ap.error(f"{it} can't be run: build it first, or name another")
    if a.instructions and not shutil.which("valgrind"):
        ap.error("--instructions needs valgrind: install the package valgrind")
    return a


def run(a: argparse.Namespace, bin_: str, words: list[str], inp: str, out: str) -> Run:
    """One run whose output goes to this file."""
    with open(inp, "rb") as i, open(out, "wb") as o:
        t = time.perf_counter()
        p = subprocess.Popen([bin_, *words], stdin=i, stdout=o, stderr=subprocess.DEVNULL)
        # No timeout in wait: Python would poll.
        late = threading.Timer(a.limit, p.kill)
        late.start()
        _, st, use = os.wait4(p.pid, 0)
        t = time.perf_counter() - t
        late.cancel()
        p.returncode = os.waitstatus_to_exitcode(st)
    return Run(t, use.ru_utime + use.ru_stime, "late" if t >= a.limit else p.returncode)


def held(bin_: str, words: list[str], inp: str) -> float:
    """The most memory in MiB that one more run held. Not by wait4, which counts what this program holds as well."""
    if not HAS_TIME:
        return 0
    with tempfile.NamedTemporaryFile("r") as told, open(inp, "rb") as i:
        subprocess.run(["/usr/bin/time", "-f", "%M", "-o", told.name, bin_, *words], stdin=i,
                       stdout=subprocess.DEVNULL, stderr=subprocess.DEVNULL)
        return int(told.read().split()[-1]) / 1024


def instructions(bin_: str, words: list[str], inp: str) -> float:
    """The instructions of one run, in millions."""
    with open(inp, "rb") as i:
        told = subprocess.run(["valgrind", "--tool=callgrind", "--callgrind-out-file=/dev/null", bin_, *words], stdin=i,
                              stdout=subprocess.DEVNULL, stderr=subprocess.PIPE, text=True).stderr
    counts = [it.split()[-1] for it in told.splitlines() if "Collected" in it]
    return int(counts[-1]) / 1e6 if counts else 0


def same(x: str, y: str) -> bool:
    if os.path.getsize(x) != os.path.getsize(y):
        return False
    with open(x, "rb") as f, open(y, "rb") as g:
        while True:
            b, c = f.read(1 << 20), g.read(1 << 20)
            if b != c:
                return False
            if not b:
                return True


def told(a: argparse.Namespace, words: list[str], inp: str, outs: list[str]) -> tuple[str, bool]:
    """What is told of a case, and whether all binaries that know its command did the same."""
    firsts = [run(a, b, words, inp, o) for b, o in zip(a.bins, outs)]
    here = [k for k, it in enumerate(firsts) if k == 0 or it.status != 2]
    turns = [firsts]
    while not a.instructions and len(turns) < a.runs and all(it.status != "late" for it in turns[-1]):
        turns.append([run(a, b, words, inp, o) if k in here else firsts[k] for k, (b, o) in enumerate(zip(a.bins, outs))])
    last = turns[-1]
    text, ratios = f"{last[0].status!s:>4}", ""
    counts = {k: instructions(a.bins[k], words, inp) for k in here} if a.instructions else {}
    for k in range(len(a.bins)):
        if k not in here:
            text += f" | {'-':>9}" if a.instructions else f" | {'-':>9} {'-':>7}"
        elif a.instructions:
            text += f" | {counts[k]:9.1f}"
        else:
            mib = 0 if last[k].status == "late" else held(a.bins[k], words, inp)
            text += f" | {statistics.median(it[k].cpu for it in turns) * 1000:9.2f} {mib:7.1f}"
        for j in range(k):
            if j not in here or k not in here:
                ratios += f" {'-':>6}"
            elif a.instructions:
                ratios += f" {counts[k] / max(counts[j], 1e-6):6.2f}"
            else:
                ratios += f" {statistics.median(it[k].cpu / max(it[j].cpu, 1e-4) for it in turns):6.2f}"
    bad = [k for k in here[1:] if last[k].status != last[0].status or not same(outs[0], outs[k])]
    differ = ", ".join(f"{k + 1} DIFFERS (status {last[k].status})" for k in bad)
    return text + " |" + ratios + ("  " + (differ or "equal") if len(here) > 1 else ""), not bad


def main() -> int:
    a = arguments()
    if not os.path.exists(os.path.join(a.dir, "cases.tsv")):
        subprocess.run([sys.executable, os.path.join(HERE, "inputs.py"), a.dir], check=True)
    room = "/dev/shm" if os.path.isdir("/dev/shm") and os.access("/dev/shm", os.W_OK) else a.dir
    ks = range(len(a.bins))
    columns = "".join(f" | {f'M ins {k + 1}':>9}" if a.instructions else f" | {f'cpu ms {k + 1}':>9} {'MiB':>7}" for k in ks)
    ratios = "".join(f" {f'{k + 1}/{j + 1}':>6}" for k in ks for j in range(k))
    print(f"{'case':26} {'in MB':>6} {'out MB':>6} {'st':>4}{columns} |{ratios}")
    bad = 0
    with open(os.path.join(a.dir, "cases.tsv")) as cases:
        rows = [it.rstrip("\n").split("\t") for it in cases]
    for name, words, size in rows:
        if not name.startswith(a.only):
            continue
        inp = os.path.join(a.dir, name + ".txt") if int(size) else os.devnull
        outs = [os.path.join(room, f"aw_bench_{os.getpid()}_{k}.out") for k in ks]
        text, is_same = told(a, words.split(), inp, outs)
        bad += not is_same
        print(f"{name:26} {int(size) / 1e6:6.2f} {os.path.getsize(outs[0]) / 1e6:6.2f} {text}", flush=True)
        for out in outs:
            os.unlink(out)
    return 1 if bad else 0


if __name__ == "__main__":
    sys.exit(main())
