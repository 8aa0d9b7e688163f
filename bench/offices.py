#!/usr/bin/env python3
"""offices.py BIN [--runs N] [--first N] [--seed N]

Serves 2 to 8 offices of one specification, each by a kept node in a process of its own. Users' choices are drawn from the nodes' own
worklists, and couriers carry messages in between, some of them while choices go on. Nodes are killed with SIGKILL and started again, some of
them with a choice in hand, which is then asked again; couriers are killed while they carry. At the end a courier carries until nothing
moves, and has to end quiet. Then:

- the journals hold just the choices that were answered, each office's in its order;
- put together, each event as soon as what it needs was sent, all their events have an order in which replay answers each of them `taken` or
  `new`, and `again` where any other message is delivered; its artifacts are those of the undivided run, each office has there the worklist
  that its node tells, and sent, in their order, the messages that its node holds;
- the recorded choices replayed in order of time, with all messages delivered after each, give the same worklists and artifacts, and each
  office called the same tasks; without the loads of messages, these choices send the same messages as those in the order of the journals;
- after one more crash of each node a courier ends quiet again, and no journal has changed.

Prints what was done and ends with 1 where anything differs. The nodes listen at the ports from 7400 on, in a network of their own where the
system gives one. Journals lie in a folder that is taken away at the end.
"""
import argparse
import os
import random
import re
import signal
import struct
import subprocess
import sys
import tempfile
import time

sys.dont_write_bytecode = True
HERE = os.path.dirname(os.path.abspath(__file__))
sys.path.insert(0, os.path.join(HERE, '..', 'examples'))
from client import Names, Node, Shown, Trouble, Words, plain
from nodes import CHOOSE, FAST, JOURNAL, LIST, PULL, alone, events, place

EXAMPLES = ('clinical-test.aw', 'insurance-claim.aw')
AT_ONCE = 32


def offices(count):
    """A specification of so many offices, each of which hands work on to the next."""
    last = count - 1
    lines = ['role office%d' % i for i in range(count)]
    lines += ['con item 2', 'con ok 0', 'con no 0', 'sort case office0 0 1']
    lines += ['sort work%d office%d 1 1' % (i, i) for i in range(1, count)] + ['start case']
    lines += ['offer work%d' % i for i in range(1, count)]
    lines += ['use office%d work%d' % (i - 1, i) for i in range(1, count)]
    lines += ['rule open {a} : case()<item(a, y)> = work1(item(a, ok))<y>',
              'rule both {a} : case()<item(y, z)> = work1(item(a, z))<y> ; work1(a)<z>']
    for i in range(1, count):
        if i < last:
            lines += ['rule pass%d {b} : work%d(x)<item(b, y)> = work%d(item(x, b))<y>' % (i, i, i + 1),
                      'rule chain%d : work%d(x)<z> = work%d(x)<y> ; work%d(item(y, no))<z>' % (i, i, i + 1, i + 1)]
        lines += ['rule end%d {b} : work%d(x)<b>' % (i, i),
                  'rule refuse%d : work%d(item(x, no))<no>' % (i, i),
                  'rule look%d : work%d(item(item(x, y), z))<item(y, x)>' % (i, i)]
    return '\n'.join(lines) + '\n'


def specification(number, draw):
    """The specification of a run: two runs in ten use a worked example."""
    if number % 10 < len(EXAMPLES):
        with open(os.path.join(HERE, '..', 'examples', EXAMPLES[number % 10]), encoding='utf-8') as file:
            return file.read().split('\nschedule')[0] + '\n'
    return offices(draw.randint(2, 8))


def fields(text):
    """How many fields each rule has."""
    return {name: len(re.findall('[a-z][a-z0-9_]*', inside or '')) for name, inside in re.findall(r'^rule ([a-z0-9_]+) *(?:\{([^}]*)\})?', text, re.M)}


def starts(text):
    return re.findall(r'^start ([a-z0-9_]+)$', text, re.M)


def home_of(text, sort):
    return re.search(r'^sort %s ([a-z0-9_]+) ' % sort, text, re.M).group(1)


class Office:
    """A kept node of a role, in a folder of its own."""

    def __init__(self, binary, text, names, role, folder):
        self.binary, self.text, self.names, self.role = binary, text, names, role
        self.folder = os.path.join(folder, role)
        os.mkdir(self.folder)
        self.start()

    def start(self):
        with tempfile.TemporaryFile() as file:
            file.write(self.text.encode())
            file.seek(0)
            self.process = subprocess.Popen([self.binary, 'node', self.role, '1000000', 'kept'], stdin=file, stdout=subprocess.DEVNULL, cwd=self.folder)
        while True:
            try:
                return self.session()
            except Trouble:
                if self.process.poll() is not None:
                    sys.exit('The node of %s ended with status %d.' % (self.role, self.process.returncode))
                time.sleep(0.002)

    def session(self):
        return Node(self.names, self.role)

    def kill(self):
        self.process.send_signal(signal.SIGKILL)
        self.process.wait()

    def all_of(self, kind, reply):
        """What it replies to one question for each place, from place 0 on, some at once."""
        node, found, more = self.session(), [], True
        while more:
            node.peer.sendall(b''.join(place(kind, len(found) + i) for i in range(AT_ONCE)))
            for _ in range(AT_ONCE):
                answered, length = struct.unpack('>BI', node.read(5))
                payload = node.read(length)
                more = more and answered == reply
                if more:
                    found.append(payload)
        node.peer.close()
        return found

    def items(self):
        """The lines of its worklist."""
        return [payload.decode() for payload in self.all_of(LIST, 11)]

    def outbox(self):
        """The messages that it sent, in the words of a transcript."""
        return [Shown(self.names, payload).whole() for payload in self.all_of(PULL, 7)]

    def journal(self):
        with open(os.path.join(self.folder, JOURNAL), 'rb') as file:
            return file.read()

    def choose(self, data):
        node = self.session()
        answer = plain(*node.ask(CHOOSE, data))
        node.peer.close()
        return answer

    def choose_and_crash(self, data, pause):
        """Asks for a choice and is killed some time later, before anybody reads the reply; then it is asked again."""
        node = self.session()
        node.peer.sendall(struct.pack('>BI', CHOOSE, len(data)) + data)
        time.sleep(pause)
        self.kill()
        node.peer.close()
        self.start()
        answer = self.choose(data)
        return 'taken' if answer in ('known', 'developed') else answer


class Run:
    """One run: the offices, and the choices that were taken, as lines of a schedule, each with its role."""

    def __init__(self, binary, text, draw, folder):
        self.binary, self.text, self.draw = binary, text, draw
        self.names, self.fields, self.cases = Names(text), fields(text), 0
        self.offices = {role: Office(binary, text, self.names, role, folder) for role in self.names.roles}
        self.lines, self.said, self.taken = [], {}, {role: [] for role in self.names.roles}
        self.carrying, self.kills, self.broken, self.couriers, self.dropped, self.joined = [], 0, 0, 0, 0, 0

    def choose(self, role, data, line):
        """A choice at an office, now and then with a crash before its answer is read."""
        office = self.offices[role]
        if self.draw.random() < 0.08:
            self.broken += 1
            answer = office.choose_and_crash(data, self.draw.random() * 0.004)
        else:
            answer = office.choose(data)
        if answer == 'taken':
            self.lines.append(line)
            self.said[data] = line
            self.taken[role].append(data)

    def start_case(self):
        sort = self.draw.choice(starts(self.text))
        self.cases += 1
        data = b'\x00' + struct.pack('>HQ', self.names.number('sort', sort), self.cases)
        self.choose(home_of(self.text, sort), data, 'start %s %d' % (sort, self.cases))

    def choose_one(self):
        role = self.draw.choice(self.names.roles)
        ready = [line.split() for line in self.offices[role].items() if line.endswith(' ready')]
        if not ready:
            return
        _, node, rule, _ = self.draw.choice(ready)
        constants = [name for name in ('ok', 'no', 'glucose') if name in self.names.cons]
        arguments = [self.draw.choice(['7', '"Ada"', '"12"'] + constants) for _ in range(self.fields[rule])]
        words = Words(self.names, node + ' {' + ', '.join(arguments) + '}')
        at, terms = words.node(), words.several(words.ground, '{', '}')
        data = b'\x01' + at + struct.pack('>HB', self.names.number('rule', rule), len(terms)) + b''.join(terms)
        self.choose(role, data, 'choose %s %s%s' % (node, rule, ' {' + ', '.join(arguments) + '}' if arguments else ''))

    def courier(self, rounds):
        """A courier that carries until its rounds are spent."""
        self.couriers += 1
        return self.program(['courier', str(rounds)], self.text)

    def carry_meanwhile(self):
        """A courier that carries while other things happen."""
        self.couriers += 1
        with tempfile.TemporaryFile() as file:
            file.write(self.text.encode())
            file.seek(0)
            self.carrying.append(subprocess.Popen([self.binary, 'courier', '1000'], stdin=file, stdout=subprocess.DEVNULL))

    def drop_couriers(self, pause=0.0):
        """Kills the couriers that are still carrying."""
        time.sleep(pause)
        for process in self.carrying:
            self.dropped += process.poll() is None
            process.kill()
            process.wait()
        self.carrying = []

    def crash(self):
        office = self.offices[self.draw.choice(self.names.roles)]
        office.kill()
        office.start()
        self.kills += 1

    def program(self, words, text):
        return subprocess.run([self.binary, *words], input=text.encode(), stdout=subprocess.PIPE).stdout.decode()

    def step(self):
        what = self.draw.random()
        if what < 0.15 or not self.lines:
            self.start_case()
        elif what < 0.68:
            self.choose_one()
        elif what < 0.78:
            self.courier(self.draw.randint(1, 3))
        elif what < 0.93:
            self.carry_meanwhile()
            if what > 0.85:
                self.drop_couriers(self.draw.random() * 0.02)
        else:
            self.crash()

    def differs(self):
        """What is not as it has to be, or nothing."""
        self.drop_couriers(self.draw.random() * 0.01)
        if self.courier(1000) != 'quiet\n':
            return 'the last courier did not end quiet'
        items = {role: office.items() for role, office in self.offices.items()}
        outboxes = {role: office.outbox() for role, office in self.offices.items()}
        return self.journals_differ(items, outboxes) or self.times_differ(items, outboxes) or self.crashes_differ()

    def lists(self):
        return ''.join('list %s\n' % role for role in self.names.roles)

    def undivided(self):
        """The artifacts of the undivided run."""
        return artifacts(self.program(['plain'], self.text + 'schedule\n' + '\n'.join(self.lines) + '\n'))

    def journals_differ(self, items, outboxes):
        """The journals, put together, against the nodes."""
        journals = {role: events(office.journal())[0] for role, office in self.offices.items()}
        for role, found in journals.items():
            if [event[1:] for event in found if event[0] == 1] != self.taken[role]:
                return 'the journal of %s has other choices than those that were answered' % role
        order, left = self.put_together(journals)
        if left:
            return 'the journals have no order: %s' % left
        self.joined += len(order)
        self.order = [line for _, line in order if not line.startswith('deliver ')]
        replayed = self.replay([line for _, line in order], 'settle\n' + self.lists())
        answers, sent = told(replayed, order)
        if set(answers[:len(order)]) - {'taken', 'new'}:
            return 'an event of a journal is answered %s' % sorted(set(answers[:len(order)]) - {'taken', 'new'})
        if set(answers[len(order):]) - {'again'}:
            return 'a message that no journal has is not known already'
        return self.replay_differs(replayed, items) or next(('%s sent other messages than its journal says' % role for role in outboxes if outboxes[role] != sent.get(role, [])), None)

    def put_together(self, journals):
        """The events of all journals, each as soon as what it needs was sent, with their roles; and what is left of each journal."""
        order, at, numbers, moved = [], dict.fromkeys(journals, 0), {}, True
        while moved:
            moved = False
            for role, found in journals.items():
                while at[role] < len(found):
                    kind, data = found[at[role]][0], found[at[role]][1:]
                    words = self.said[data] if kind == 1 else Shown(self.names, data).whole()
                    if kind == 2 and words not in numbers:
                        break
                    order.append((role, words if kind == 1 else 'deliver %d' % numbers[words]))
                    at[role], moved = at[role] + 1, True
            if moved:
                numbers = {words: int(number) for number, words in re.findall(r'^sent (\d+) (.*)$', self.replay([line for _, line in order]), re.M)}
        return order, ', '.join('%s at event %d of %d' % (role, at[role] + 1, len(found)) for role, found in journals.items() if at[role] < len(found))

    def replay(self, lines, behind=''):
        """A replay of these events, with loads as nodes send them."""
        return self.program(['replay'], self.text + 'schedule 2\n' + '\n'.join(lines) + '\n' + behind)

    def replay_differs(self, replayed, items):
        if not artifacts(replayed) or artifacts(replayed) != self.undivided():
            return 'the artifacts differ'
        return next(('the worklist of %s differs' % role for role in items if items[role] != listed(replayed, role)), None)

    def times_differ(self, items, outboxes):
        """The same choices with nothing late: what each office holds and called, and without loads what was sent."""
        replayed = self.replay([line + '\nsettle' for line in self.lines], self.lists())
        if replayed.count(': taken\n') != len(self.lines):
            return 'a choice was not taken in the replay'
        called = sorted(calls(re.findall(r'^sent \d+ (.*)$', replayed, re.M)))
        if sorted(calls(sum(outboxes.values(), []))) != called:
            return 'other tasks were called than with nothing late'
        bare = [sorted(re.findall(r'^sent \d+ (.*)$', self.program(['replay'], self.text + 'schedule\n' + '\nsettle\n'.join(lines) + '\nsettle\n'), re.M)) for lines in (self.lines, self.order)]
        return self.replay_differs(replayed, items) or (None if bare[0] == bare[1] else 'without loads other messages are sent in another order')

    def crashes_differ(self):
        """Each node crashes once more, and a courier carries all once more."""
        before = {role: events(office.journal())[0] for role, office in self.offices.items()}
        for office in self.offices.values():
            office.kill()
            office.start()
        if self.courier(1000) != 'quiet\n':
            return 'the courier behind the last crash did not end quiet'
        return next(('the journal of %s changed at rest' % role for role, office in self.offices.items() if events(office.journal())[0] != before[role]), None)

    def end(self):
        self.drop_couriers()
        for office in self.offices.values():
            office.kill()


def told(replayed, order):
    """The answers to these events in a replay, and behind them those to messages whose loads or equations had come already; and what the office
    of each event sent, in its order."""
    answers, sent, at = [], {role: [] for role, _ in order}, -1
    for line in replayed.splitlines():
        if line.startswith('sent '):
            sent[order[min(at, len(order) - 1)][0]].append(line.split(' ', 2)[2])
        elif line.startswith(('start ', 'choose ', 'deliver ')):
            answers.append(line.rsplit(': ', 1)[1])
            at += 1
    return answers, sent


def calls(messages):
    """The calls among some messages, without their loads."""
    return [words.split(' with ')[0] for words in messages if words.split()[2] == 'call']


def artifacts(text):
    """The artifacts at the end of an output; nothing where there are none."""
    at = text.find('\nartifacts ')
    return text[at:] if at >= 0 else ''


def listed(text, role):
    """The items behind the list of a role."""
    lines, found = text.splitlines(), []
    for line in lines[lines.index('list ' + role) + 1:]:
        if not line.startswith('item '):
            return found
        found.append(line)
    return found


def main():
    asked = argparse.ArgumentParser(description=__doc__.split('\n\n')[1])
    asked.add_argument('binary', help='the program aw')
    asked.add_argument('--runs', type=int, default=300, help='how many runs are made (300)')
    asked.add_argument('--first', type=int, default=0, help='the number of the first of them (0)')
    asked.add_argument('--seed', type=int, default=1, help='the number that all is drawn from (1)')
    given = asked.parse_args()
    if not os.access(given.binary, os.X_OK):
        sys.exit('There is no program %s; name the program aw, as crates/aw_prog/out/aw_prog.' % given.binary)
    alone()
    binary, began = os.path.abspath(given.binary), time.monotonic()
    sums, wrong = dict.fromkeys(('choices', 'joined', 'kills', 'broken', 'couriers', 'dropped'), 0), 0
    for number in range(given.first, given.first + given.runs):
        draw = random.Random(given.seed * 1_000_003 + number)
        with tempfile.TemporaryDirectory(dir=FAST) as folder:
            run = Run(binary, specification(number, draw), draw, folder)
            try:
                for _ in range(draw.randint(20, 60)):
                    run.step()
                why = run.differs()
            except (Trouble, OSError, struct.error) as trouble:
                why = 'a node did not answer as it has to: %s' % trouble
            finally:
                run.end()
        for name in sums:
            sums[name] += len(run.lines) if name == 'choices' else getattr(run, name)
        if why:
            wrong += 1
            print('run %d: %s' % (number, why), flush=True)
    print('%d runs, %d choices, %d events of journals put together, %d nodes killed and %d with a choice in hand, %d couriers of which %d were killed, %d runs differ; %.0f s'
          % (given.runs, *sums.values(), wrong, time.monotonic() - began))
    sys.exit(1 if wrong else 0)


if __name__ == '__main__':
    main()
