#!/usr/bin/env python3
"""pages.py BIN

Types what the pages show, as a reader would, and compares what comes with what they show under it:

- docs/TUTORIAL.md: each command behind a `$`, in the order of the page, in a folder that has the examples and the program where README.md says
  it stands. A terminal in which a node was begun is left to it, and a node that is begun anew at a port ends the one before. Where the page says
  "Start it again" the kept node is killed first.
- README.md: its first two boxes are examples/repair-order.aw and what `replay` writes of it; its commands on a built program end with 0.
- docs/SCHEDULE.md: its example.
- docs/PROTOCOL.md: the session in bytes, and the two messages.

Ends with 1 where something else came. Nodes are in a network of their own where the system lets them, else the ports from 7400 on have to be free.
"""
import os
import re
import shutil
import subprocess
import sys
import tempfile
import time

sys.dont_write_bytecode = True
import nodes

TOP = os.path.join(nodes.HERE, "..")
BUILT = "crates/aw_prog/out/aw_prog"


def page(name):
    with open(os.path.join(TOP, name), encoding="utf-8") as file:
        return file.read()


def boxes(text):
    """Each box with the paragraph before it."""
    found = re.split(r"^```\w*\n(.*?)^```$", text, flags=re.MULTILINE | re.DOTALL)
    return [(found[at - 1].strip().rpartition("\n\n")[2], found[at]) for at in range(1, len(found), 2)]


def commands(box):
    """Each command of a box with what is shown under it."""
    found = re.split(r"^\$ (.*)\n", box, flags=re.MULTILINE)
    return list(zip(found[1::2], found[2::2]))


class Reader:
    """Somebody who reads the tutorial, with some terminals."""

    def __init__(self, folder):
        self.top = self.folder = folder
        self.aliases, self.serving, self.wrong, self.typed = [], {}, 0, 0

    def shell(self, command):
        """What a new terminal does with a command."""
        return ["bash", "-c", "\n".join(["shopt -s expand_aliases", *self.aliases, command])]

    def type(self, command, shown):
        self.typed += 1
        if command.startswith("alias "):
            self.aliases.append(subprocess.run(["bash", "-c", "shopt -s expand_aliases\n%s\nalias" % command], cwd=self.folder, text=True,
                                               capture_output=True).stdout.strip())
        elif command.startswith("cd "):
            self.folder = os.path.join(self.folder, command[3:])
        elif command.startswith("aw node "):
            self.serve(command)
        else:
            self.compare(command, shown)

    def compare(self, command, shown):
        run = subprocess.run(self.shell(command), cwd=self.folder, capture_output=True, text=True, timeout=60)
        if run.stdout + run.stderr != shown:
            self.wrong += 1
            print("$ %s\n%r\n  where the page shows\n%r" % (command, run.stdout + run.stderr, shown))

    def serve(self, command):
        """Begins a node, and waits until it listens."""
        role = command.split()[2]
        self.end(role)
        process = subprocess.Popen(self.shell("exec " + self.spelled(command)), cwd=self.folder, stdout=subprocess.PIPE, stderr=subprocess.STDOUT)
        port = nodes.FIRST_PORT + ("front", "assessor", "payments").index(role)
        peer = nodes.connect(port, process)
        if peer is None:
            self.wrong += 1
            print("$ %s\n  ended with %s: %r" % (command, process.wait(), process.stdout.read()))
        else:
            peer.close()
        self.serving[role] = (command, self.folder, process)
        self.folder = self.top

    def spelled(self, command):
        """The command with the alias put in: `exec` takes none."""
        return re.sub(r"^aw\b", re.search(r"aw='?([^']*)'?", self.aliases[0])[1], command)

    def end(self, role):
        if role in self.serving:
            process = self.serving.pop(role)[2]
            process.kill()
            process.wait()

    def again(self):
        """Kills the kept node and begins it again in its folder."""
        role, (command, folder, _) = next((role, one) for role, one in self.serving.items() if "kept" in one[0])
        self.folder = folder
        self.serve(command)

    def read(self, text):
        for before, box in boxes(text):
            if before.startswith("Start it again"):
                self.again()
            for command, shown in commands(box):
                self.type(command, shown)
        for role in list(self.serving):
            self.end(role)


def copied(binary, folder):
    """The examples, and the program where it stands once it is built."""
    shutil.copytree(os.path.join(TOP, "examples"), os.path.join(folder, "examples"))
    os.makedirs(os.path.join(folder, os.path.dirname(BUILT)))
    shutil.copy(binary, os.path.join(folder, BUILT))


def answer(binary, command, data):
    run = subprocess.run([binary, command], input=data.encode(), capture_output=True, timeout=60)
    return run.stdout.decode()


def hex_bytes(text):
    return bytes.fromhex(re.sub(r"\s", "", text))


def readme(binary, folder):
    """What is wrong in README.md."""
    shown = [box for _, box in boxes(page("README.md"))]
    example = page("examples/repair-order.aw")
    if shown[0] != example:
        yield "README.md: the first box is not examples/repair-order.aw"
    if shown[1] != answer(binary, "replay", example):
        yield "README.md: the second box is not what replay writes"
    for line in "".join(shown).splitlines():
        if line.startswith(BUILT) and subprocess.run(line, shell=True, cwd=folder, capture_output=True, timeout=60).returncode:
            yield "README.md: %s fails" % line


def schedule(binary):
    """What is wrong in docs/SCHEDULE.md."""
    shown = [box for _, box in boxes(page("docs/SCHEDULE.md"))]
    for command, wanted in (("replay", shown[1]), ("plain", shown[2])):
        if answer(binary, command, shown[0]) != wanted:
            yield "docs/SCHEDULE.md: %s writes something else of the example" % command


def protocol(binary):
    """What is wrong in docs/PROTOCOL.md: the session at its end, and the messages of the part before."""
    text = page("docs/PROTOCOL.md")
    shown = [box for _, box in boxes(text)]
    asked = next(box for box in shown if box.startswith("push "))
    replies = shown[shown.index(asked) + 1]
    log = re.search(r"the node writes `(session[^`]*)`", text)[1]
    cut = re.search(r"Without the last byte of the fourth frame it gives the first three replies and writes `(session[^`]*)`", text)[1]
    clinic = boxes(page("docs/LANGUAGE.md"))[0][1].encode()
    data = b"".join(hex_bytes(line.split(None, 1)[1]) for line in asked.splitlines())
    wanted = [hex_bytes(line) for line in replies.splitlines()]
    for sent, expected, line in ((data, wanted, log), (data[:-1], wanted[:3], cut)):
        served = nodes.serve(binary, ["node", "lab", "1"], clinic, [sent])
        if (served.status, served.written.decode(), served.replies) != (0, line + "\n", [b"".join(expected)]):
            yield "docs/PROTOCOL.md: the session is served otherwise: %r" % served
    plain, loaded = [hex_bytes(box) for box in shown if box.startswith(("01 0001 00", "02 0001 00"))]
    if [len(plain), len(loaded)] != [33, 86]:
        yield "docs/PROTOCOL.md: the messages have %d and %d bytes" % (len(plain), len(loaded))
    for message in (plain, loaded):
        served = nodes.serve(binary, ["node", "lab", "1"], clinic, [nodes.frame(nodes.PUSH, message) * 2])
        if served.replies != [nodes.frame(1, b"") + nodes.frame(2, b"")]:
            yield "docs/PROTOCOL.md: a message is answered %r" % served.replies
    served = nodes.serve(binary, ["node", "lab", "1"], clinic, [nodes.frame(nodes.PUSH, loaded) + nodes.frame(nodes.PUSH, loaded[:-3] + b"Eve")])
    if nodes.split(served.replies[0])[1] != nodes.frame(3, b'kept "Ada" came "Eve"'):
        yield "docs/PROTOCOL.md: the other message is answered %r" % served.replies


def main():
    binary = os.path.abspath(sys.argv[1])
    with tempfile.TemporaryDirectory() as folder:
        copied(binary, folder)
        reader = Reader(folder)
        reader.read(page("docs/TUTORIAL.md"))
        faults = [*readme(binary, folder), *schedule(binary), *protocol(binary)]
    print("\n".join(faults + ["%d commands of the tutorial typed, %d faults" % (reader.typed, reader.wrong + len(faults))]))
    sys.exit(1 if reader.wrong or faults else 0)


if __name__ == "__main__":
    nodes.alone()
    main()
