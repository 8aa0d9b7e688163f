#!/usr/bin/env python3
"""changes.py BIN [--every N] [FILE..]
   changes.py BIN --program aw_book [--aw AW] [--every N]
   changes.py BIN --program companions

Changes inputs at each byte, or at each Nth: the byte is taken out, doubled, or replaced by one that begins something else.
Each answer is compared with the second reader in reading.py: the status, the line of a refusal, and what `check` writes.
Prints the counts, and each run that differs. Without FILE the inputs are the examples.

With `--program aw_book` BIN is that program, and journals of real nodes are changed; with `--program companions` BIN is aw, and the companions in
Python are given changed files, at a dozen places each or at each Nth. What has to come is told by cuts.py.
"""
import argparse
import os
import sys
from collections import Counter
from concurrent.futures import ThreadPoolExecutor

sys.dont_write_bytecode = True
import cuts
import nodes
import readers
import reading

REPLACED = [b"(", b")", b"<", b",", b"{", b";", b"=", b'"', b"\\", b"\n", b"%", b"0", b"9", b"b", b"/", b".", b" ",
            b"\xff", b"\0"]


def changed(data, at):
    """The input with each change at a place."""
    byte = data[at:at + 1]
    yield data[:at] + data[at + 1:]
    yield data[:at] + byte + data[at:]
    for other in REPLACED:
        if other != byte:
            yield data[:at] + other + data[at + 1:]


def differs(binary, command, data, one_role):
    """What is wrong with the answer, or nothing; and the status that is wanted."""
    status, written = cuts.answer(binary, command, data)
    wanted, line = reading.refusal(data, command, one_role)
    if line is not None and (status, written) != (wanted, (line + "\n").encode()):
        return "status %d, %r for %d, %r" % (status, written[:80], wanted, line), wanted
    if line is None and status != wanted:
        return "status %d, %r for %d" % (status, written[:80], wanted), wanted
    if line is None and command == "check" and written != reading.accepted(data).encode():
        return "%r is not what is accepted" % written[:80], wanted
    return None, wanted


def change(binary, path, command, every):
    """Changes one input. The counts of statuses, and what differs."""
    with open(path, "rb") as file:
        data = file.read()
    one_role = cuts.answer(binary, "replay", b"role a\nrole b\n")[0] == 3
    counts, wrong = Counter(), []
    with ThreadPoolExecutor(2) as pool:
        for at in range(0, len(data), every):
            given = list(changed(data, at))
            for one, (fault, status) in zip(given, pool.map(lambda one: differs(binary, command, one, one_role), given)):
                counts[status] += 1
                if fault:
                    wrong.append("%s at byte %d: %s; the line is %r" % (command, at, fault, line_at(one, at)))
    return counts, wrong


def line_at(data, at):
    return data[data.rfind(b"\n", 0, at) + 1:].split(b"\n")[0]


def main():
    parser = argparse.ArgumentParser(description=__doc__, formatter_class=argparse.RawDescriptionHelpFormatter)
    parser.add_argument("binary")
    parser.add_argument("files", nargs="*")
    parser.add_argument("--every", type=int, default=1)
    readers.word_of(parser)
    arguments = parser.parse_intermixed_args()
    if arguments.program_is != "aw":
        cuts.finish(readers.changes(*readers.both(arguments), arguments.every))
    binary, faults = os.path.abspath(arguments.binary), 0
    paths = arguments.files or [os.path.join(cuts.HERE, "..", "examples", name) for name in cuts.EXAMPLES]
    for path in paths:
        for command in ("check", "plain"):
            counts, wrong = change(binary, path, command, arguments.every)
            faults += cuts.tell("%s %s" % (command, os.path.basename(path)), sum(counts.values()), counts, wrong)
    cuts.finish(faults)


if __name__ == "__main__":
    nodes.alone()
    readers.guarded(main)
