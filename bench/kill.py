#!/usr/bin/env python3
"""kill.py BIN [--kills N] [--lives N] [--seed N]
   kill.py BIN --reopen EVENTS [--choices]

The first form serves the clinic of examples/clinical-test.aw by `node clinic 1000000 kept`, asks it for starts and choices as fast as
they are answered, and kills it with SIGKILL at a random moment; then it starts it again in the same folder and asks for every choice
that was answered `taken`: each has to be `known` or `developed`. So many kills are made, each journal having so many lives. Prints
what was found and ends with 1 where a choice was lost.

The second form writes a journal of so many starts of cases, or of half as many and a choice of each case, and prints how long the node takes
until it has answered its first frame, by the clock and of the processor, and the most memory that it held.

The node listens at port 7400 of this machine; nothing else may. Journals lie in a folder that is taken away at the end.
"""
import argparse
import os
import random
import signal
import socket
import struct
import subprocess
import sys
import tempfile
import threading
import time

sys.dont_write_bytecode = True
HERE = os.path.dirname(os.path.abspath(__file__))
sys.path.insert(0, os.path.join(HERE, '..', 'examples'))
from client import FIRST_PORT, Node, Trouble, Words, names_in

SPECIFICATION = os.path.join(HERE, '..', 'examples', 'clinical-test.aw')
ROLE, SORT, RULE = 'clinic', 'visit', 'admit'
CHOOSE = 2


class Served:
    """A node that is served in a folder, until it is killed."""

    def __init__(self, binary, folder):
        with open(SPECIFICATION, 'rb') as file:
            self.process = subprocess.Popen([binary, 'node', ROLE, '1000000', 'kept'], stdin=file, stdout=subprocess.DEVNULL, cwd=folder)

    def session(self, names):
        """A session with it, as soon as it listens."""
        while True:
            try:
                return Node(names, ROLE)
            except Trouble:
                if self.process.poll() is not None:
                    sys.exit('The node ended with status %d; is port %d free?' % (self.process.returncode, FIRST_PORT))
                time.sleep(0.002)

    def kill(self):
        self.process.send_signal(signal.SIGKILL)
        self.process.wait()


def start_of(names, case):
    return b'\x00' + struct.pack('>HQ', names.number('sort', SORT), case)


def admit_of(names, case):
    words = Words(names, '%s#%d {"Ada", 7, glucose}' % (SORT, case))
    node, terms = words.node(), words.several(words.ground, '{', '}')
    return b'\x01' + node + struct.pack('>HB', names.number('rule', RULE), len(terms)) + b''.join(terms)


def choices(names, first):
    """A start and a choice of each case, without end."""
    case = first
    while True:
        yield start_of(names, case)
        yield admit_of(names, case)
        case += 1


def live(node, asked, taken):
    """Asks one choice after the other until the node is gone; notes each that was answered `taken`."""
    try:
        for choice in asked:
            if node.ask(CHOOSE, choice) == (6, b'taken'):
                taken.append(choice)
    except (Trouble, OSError):
        return


def lost(node, taken):
    """How many of these choices are not there any more."""
    frames = b''.join(struct.pack('>BI', CHOOSE, len(choice)) + choice for choice in taken)
    sender = threading.Thread(target=node.peer.sendall, args=(frames,), daemon=True)
    sender.start()
    missing = 0
    for _ in taken:
        kind, length = struct.unpack('>BI', node.read(5))
        if (kind, node.read(length)) not in ((6, b'known'), (6, b'developed')):
            missing += 1
    sender.join()
    return missing


def one_journal(binary, names, lives, draw):
    """How many choices were answered, how many were lost, and the longest time to reopen, of a journal that is killed so often."""
    taken, missing, longest, case = [], 0, 0.0, 0
    with tempfile.TemporaryDirectory() as folder:
        for _ in range(lives):
            began = time.monotonic()
            served = Served(binary, folder)
            node = served.session(names)
            missing += lost(node, taken)
            longest = max(longest, time.monotonic() - began)
            worker = threading.Thread(target=live, args=(node, choices(names, case), taken), daemon=True)
            worker.start()
            time.sleep(draw.random() * 0.05)
            served.kill()
            worker.join()
            case += 100_000
        served = Served(binary, folder)
        missing += lost(served.session(names), taken)
        served.kill()
    return len(taken), missing, longest


def kills(binary, count, lives, seed):
    names, draw = names_in(SPECIFICATION), random.Random(seed)
    began, answered, missing, longest, killed = time.monotonic(), 0, 0, 0.0, 0
    while killed < count:
        several = min(lives, count - killed)
        one = one_journal(binary, names, several, draw)
        answered, missing, longest, killed = answered + one[0], missing + one[1], max(longest, one[2]), killed + several
    print('%d kills, %d choices answered, %d lost; at most %.2f s to reopen and to find them; %.0f s in all'
          % (killed, answered, missing, longest, time.monotonic() - began))
    return 1 if missing else 0


def head(binary, folder, names):
    """The bytes of a journal without events, but for its last gate."""
    served = Served(binary, folder)
    served.session(names)
    served.kill()
    with open(os.path.join(folder, 'workspace.journal'), 'rb') as file:
        return file.read()[:-1]


def events_of(names, count, with_choices):
    """So many starts, or half as many and a choice of each case."""
    asked = choices(names, 0)
    return (next(asked) for _ in range(count)) if with_choices else (start_of(names, case) for case in range(count))


def reopen(binary, events, with_choices):
    names = names_in(SPECIFICATION)
    with tempfile.TemporaryDirectory() as folder:
        path = os.path.join(folder, 'workspace.journal')
        data = [head(binary, folder, names)]
        for event in events_of(names, events, with_choices):
            data.append(b'\x01' + struct.pack('>QB', len(event) + 1, 1) + event)
        with open(path, 'wb') as file:
            file.write(b''.join(data) + b'\x00')
        del data
        began = time.monotonic()
        served = Served(binary, folder)
        answer = served.session(names).ask(CHOOSE, start_of(names, 0))
        took = time.monotonic() - began
        served.process.send_signal(signal.SIGKILL)
        _, served.process.returncode, used = os.wait4(served.process.pid, 0)
        print('%d events, %.1f MB: %.2f s to the first reply, %.2f s of the processor, %d MiB held; %s'
              % (events, os.path.getsize(path) / 1e6, took, used.ru_utime + used.ru_stime, used.ru_maxrss // 1024, answer[1].decode()))
    return 0 if answer == (6, b'known') else 1


def main():
    asked = argparse.ArgumentParser()
    asked.add_argument('binary')
    asked.add_argument('--kills', type=int, default=1000)
    asked.add_argument('--lives', type=int, default=50)
    asked.add_argument('--seed', type=int, default=1)
    asked.add_argument('--reopen', type=int)
    asked.add_argument('--choices', action='store_true')
    given = asked.parse_args()
    binary = os.path.abspath(given.binary)
    sys.exit(reopen(binary, given.reopen, given.choices) if given.reopen else kills(binary, given.kills, given.lives, given.seed))


if __name__ == '__main__':
    main()
