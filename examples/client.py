#!/usr/bin/env python3
"""A client of one workspace that is served as a node, in the words of the transcript.

    client.py [--timeout SECONDS] SPECIFICATION ROLE list
    client.py [--timeout SECONDS] SPECIFICATION ROLE start SORT NUMBER
    client.py [--timeout SECONDS] SPECIFICATION ROLE choose TASK RULE [{ARGUMENTS}]
    client.py [--timeout SECONDS] SPECIFICATION ROLE pull [PLACE]
    client.py [--timeout SECONDS] SPECIFICATION ROLE push [MESSAGE]

`list` shows the worklist, `pull` the messages in the outbox from a place on, as lines `sent PLACE to ROLE ..`. `push` hands a message
to the workspace; with no message it takes such lines from the input and passes over those for other roles, so that

    client.py clinic.aw clinic pull | client.py clinic.aw lab push

carries all messages from one workspace to the other. A node waits at port 7400 and the number of its role, counted from 0. It serves
one session after the other, so others may be served first; after SECONDS without a byte (600 where none are said) the client gives up.

Ends with
    0  the node answered everything, whatever the answer was
    1  a name, a number or a value is none of this specification, or the node's answer is none of it (the node was started with another one
       then; where its numbers have names in this one too, the names are wrong and nothing tells)
    2  the words behind `client.py` are none of the above
    3  no node listens, or the session ended before the reply was whole: whether the choice or the message in hand was taken, the answer to
       asking again tells
    4  nobody reads the output any more
"""
from __future__ import annotations

import argparse
import os
import re
import socket
import struct
import sys
from collections.abc import Callable, Iterable

FIRST_PORT = 7400
REPLIES = {1: 'new', 2: 'again', 4: 'not mine', 5: 'bad name', 8: 'too long', 9: 'bad frame'}
MOST = 1 << 64
LONGEST_FRAME, LONGEST_TEXT, MOST_PARTS, MOST_STEPS, LARGEST_LOAD, LARGEST_SLOT, DEEPEST = 1 << 20, 1024, 8, 250, 64, 512, 32
PATIENCE = 600.0
NOT_FITTING, NO_SESSION, NOT_READ = 1, 3, 4
OTHER_SPECIFICATION = 'The node replied with what this specification has no name for; give the specification that the node was started with.'


class Trouble(Exception):
    """What is wrong, and what to do about it, in one sentence; and how the program ends then."""

    status = NOT_FITTING


class Broken(Trouble):
    """No session, or one that ended too early."""

    status = NO_SESSION


def shortened(text: str) -> str:
    """A text that fits into a sentence."""
    return text if len(text) <= 60 else text[:57] + '...'


class Names:
    """The names that a specification declares, each list in its order."""

    def __init__(self, text: str) -> None:
        lines = [line.split() for line in text.splitlines() if not line.lstrip().startswith('%')]
        ends = [i for i, words in enumerate(lines) if words[:1] == ['schedule']]
        lines = [words for words in lines[:ends[0] if ends else None] if len(words) > 1]
        self.roles = [words[1] for words in lines if words[0] == 'role']
        self.cons = [words[1] for words in lines if words[0] == 'con']
        self.sorts = [words[1] for words in lines if words[0] == 'sort']
        self.rules = [re.match('[a-z0-9_]*', words[1]).group() for words in lines if words[0] == 'rule']

    def number(self, kind: str, name: str) -> int:
        names = getattr(self, kind + 's')
        if name not in names:
            raise Trouble('The specification declares no %s "%s"; it has %s.' % (kind, name, ', '.join(names) or 'none'))
        return names.index(name)


class Words:
    """Words of the transcript, read from the front and spelled in bytes."""

    TOKEN = re.compile(r'\s*("(?:[^"\\]|\\.)*"|[a-z][a-z0-9_]*#\d+(?:/[a-z][a-z0-9_]*\.[1-8])*(?::[rp]\d+)?|[a-z][a-z0-9_]*|\d+|\S)')

    def __init__(self, names: Names, text: str) -> None:
        self.names, self.text = names, text
        self.tokens, at = [], 0
        while text[at:].strip():
            found = self.TOKEN.match(text, at)
            self.tokens.append(found.group(1))
            at = found.end()

    def peek(self) -> str:
        return self.tokens[0] if self.tokens else ''

    def take(self, what: str, test: str | None = None) -> str:
        token = self.peek()
        if not token or (test and not re.fullmatch(test, token)):
            raise Trouble('In "%s" there should be %s where %s stands.' % (self.text.strip(), what, '"%s"' % token if token else 'the end'))
        return self.tokens.pop(0)

    def skip(self, token: str) -> bool:
        if self.peek() == token:
            self.tokens.pop(0)
            return True
        return False

    def end(self) -> None:
        if self.tokens:
            raise Trouble('In "%s" nothing may follow where "%s" stands; take it away.' % (self.text.strip(), self.peek()))

    def number(self) -> int:
        return self.within(self.take('a number', r'[0-9]+'), MOST - 1, 'number')

    def within(self, digits: str, most: int, what: str) -> int:
        """A number that its place in the message has room for."""
        if len(digits.lstrip('0')) > len(str(most)) or int(digits) > most:
            raise Trouble('The %s %s is too large; the largest is %d.' % (what, shortened(digits), most))
        return int(digits)

    def count(self, number: int, most: int, what: str) -> bytes:
        """The byte that says how many there are."""
        if number > most:
            raise Trouble('In "%s" there are %d %s; there may be %d.' % (shortened(self.text.strip()), number, what, most))
        return bytes([number])

    def several(self, one: Callable[[], bytes], opening: str, closing: str) -> list[bytes]:
        """What `one` reads, several times with commas between, in brackets."""
        self.take('"%s"' % opening, re.escape(opening))
        found = []
        while not self.skip(closing):
            if found:
                self.take('a comma or "%s"' % closing, ',')
            found.append(one())
        return found

    def literal(self) -> bytes:
        """The length and the bytes of a text in quotes."""
        inside = self.take('a text in quotes', '(?s)".*"')[1:-1]
        content = re.sub(r'\\(.)', lambda m: {'n': '\n'}.get(m.group(1), m.group(1)), inside, flags=re.S).encode('utf-8', 'surrogateescape')
        if len(content) > LONGEST_TEXT:
            raise Trouble('The text "%s" has %d bytes; a text has at most %d.' % (shortened(inside), len(content), LONGEST_TEXT))
        return struct.pack('>H', len(content)) + content

    def node_bytes(self, name: str) -> bytes:
        parts = re.fullmatch(r'([a-z][a-z0-9_]*)#(\d+)((?:/[a-z][a-z0-9_]*\.[1-8])*)', name)
        if not parts:
            raise Trouble('"%s" is no name of a task; write one as visit#1 or visit#1/admit.1.' % name)
        steps = [step.split('.') for step in parts.group(3).split('/')[1:]]
        case = self.within(parts.group(2), MOST - 1, 'case')
        data = struct.pack('>HQ', self.names.number('sort', parts.group(1)), case) + self.count(len(steps), MOST_STEPS, 'steps')
        return data + b''.join(struct.pack('>HB', self.names.number('rule', rule), int(child)) for rule, child in steps)

    def node(self) -> bytes:
        return self.node_bytes(self.take('the name of a task, as visit#1', r'[a-z].*#.*'))

    def ref(self) -> bytes:
        token = self.take('a reference, as visit#1:r1', r'[a-z].*#.*:[rp]\d+')
        name, slot = token.rsplit(':', 1)
        return self.node_bytes(name) + struct.pack('>BH', 'rp'.index(slot[0]), self.within(slot[1:], LARGEST_SLOT, 'number'))

    def refs(self) -> bytes:
        found = self.several(self.ref, '(', ')')
        return self.count(len(found), MOST_PARTS, 'references') + b''.join(found)

    def ground(self, depth: int = 1) -> bytes:
        if depth > DEEPEST:
            raise Trouble('The value in "%s" is nested too deep; a value is nested at most %d deep.' % (shortened(self.text.strip()), DEEPEST))
        if self.peek().startswith('"'):
            return b'\x03' + self.literal()
        if self.peek().isdigit():
            return b'\x02' + struct.pack('>Q', self.number())
        con = self.names.number('con', self.take('a value', r'[a-z][a-z0-9_]*'))
        parts = self.several(lambda: self.ground(depth + 1), '(', ')') if self.peek() == '(' else []
        return b'\x01' + struct.pack('>H', con) + self.count(len(parts), MOST_PARTS, 'parts') + b''.join(parts)

    def body(self) -> bytes:
        if self.peek().startswith('"'):
            return b'\x03' + self.literal()
        if self.peek().isdigit():
            return b'\x02' + struct.pack('>Q', self.number())
        if '#' in self.peek():
            return b'\x00' + self.ref()
        con = self.names.number('con', self.take('a value', r'[a-z][a-z0-9_]*'))
        return b'\x01' + struct.pack('>H', con) + (self.refs() if self.peek() == '(' else b'\x00')

    def equation(self) -> bytes:
        left = self.ref()
        self.take('"="', '=')
        return left + self.body()

    def load(self) -> list[bytes]:
        if not self.skip('with'):
            return []
        equations = [self.equation()]
        while self.skip(';'):
            equations.append(self.equation())
        return equations

    def message(self) -> tuple[int, bytes]:
        """A message behind its place, as `to lab ask visit#1/admit.1:r1 from clinic`."""
        self.take('"to"', 'to')
        role = self.names.number('role', self.take('a role', '[a-z].*'))
        kind = self.take('"call", "ask" or "tell"', 'call|ask|tell')
        load = []
        if kind == 'call':
            items = self.node() + self.refs()
            load = self.load()
        elif kind == 'ask':
            items = self.ref()
            self.take('"from"', 'from')
            items += struct.pack('>H', self.names.number('role', self.take('a role', '[a-z].*')))
        else:
            items = self.equation()
            load = self.load()
        self.end()
        head = struct.pack('>BHB', 2 if load else 1, role, ['call', 'ask', 'tell'].index(kind))
        return role, head + items + (self.count(len(load), LARGEST_LOAD, 'equations') + b''.join(load) if load else b'')


class Shown:
    """A message, from bytes to the words of the transcript. Where it names what the specification has not, it is not one of its messages."""

    def __init__(self, names: Names, data: bytes) -> None:
        self.names, self.data, self.at = names, data, 0

    def take(self, form: str) -> tuple[int, ...]:
        values = struct.unpack_from('>' + form, self.data, self.at)
        self.at += struct.calcsize('>' + form)
        return values

    def node(self) -> str:
        sort, case, steps = self.take('HQB')
        pairs = [self.take('HB') for _ in range(steps)]
        return '%s#%d' % (self.names.sorts[sort], case) + ''.join('/%s.%d' % (self.names.rules[r], c) for r, c in pairs)

    def ref(self) -> str:
        node = self.node()
        slot, number = self.take('BH')
        return '%s:%s%d' % (node, 'rp'[slot], number)

    def refs(self) -> str:
        return ', '.join(self.ref() for _ in range(self.take('B')[0]))

    def body(self) -> str:
        tag, = self.take('B')
        if tag == 0:
            return self.ref()
        if tag == 1:
            name = self.names.cons[self.take('H')[0]]
            parts = self.refs()
            return '%s(%s)' % (name, parts) if parts else name
        if tag == 2:
            return str(self.take('Q')[0])
        length, = self.take('H')
        content = self.data[self.at:self.at + length].decode('utf-8', 'surrogateescape')
        self.at += length
        return '"%s"' % content.replace('\\', '\\\\').replace('"', '\\"').replace('\n', '\\n')

    def equation(self) -> str:
        left = self.ref()
        return '%s = %s' % (left, self.body())

    def message(self) -> str:
        version, role, kind = self.take('BHB')
        if kind == 0:
            text = 'call %s (%s)' % (self.node(), self.refs())
        elif kind == 1:
            text = 'ask %s from %s' % (self.ref(), self.names.roles[self.take('H')[0]])
        else:
            text = 'tell ' + self.equation()
        if version == 2:
            text += ' with ' + '; '.join(self.equation() for _ in range(self.take('B')[0]))
        return 'to %s %s' % (self.names.roles[role], text)

    def whole(self) -> str:
        """The message, or a sentence where these bytes are none that the specification has names for."""
        try:
            text = self.message()
        except (IndexError, struct.error):
            raise Trouble(OTHER_SPECIFICATION) from None
        if self.at != len(self.data):
            raise Trouble(OTHER_SPECIFICATION)
        return text


class Node:
    """A session with the node of a role. It waits so many seconds for each byte of a reply."""

    def __init__(self, names: Names, role: str, patience: float = PATIENCE) -> None:
        self.port = port = FIRST_PORT + names.number('role', role)
        self.patience = patience
        try:
            self.peer = socket.create_connection(('127.0.0.1', port), timeout=patience)
        except ConnectionRefusedError:
            raise Broken('No node of "%s" listens at port %d; start one first with the words: node %s 1.' % (role, port, role)) from None
        except OSError as error:
            raise Broken('No node of "%s" answers at port %d (%s); start one first with the words: node %s 1.'
                         % (role, port, error.strerror or error, role)) from None

    def guarded(self, move: Callable[[], bytes]) -> bytes:
        """What a move of bytes gives; a sentence where the session breaks off in it."""
        try:
            return move()
        except TimeoutError:
            raise Broken('The node has replied nothing for %g seconds; it may be busy with another session: ask again, with a longer --timeout.'
                         % self.patience) from None
        except (ConnectionResetError, BrokenPipeError):
            raise Broken('The node ended the session before it had replied; see what it wrote when it stopped, and ask again.') from None
        except OSError as error:
            raise Broken('The session broke off (%s); ask again.' % (error.strerror or error)) from None

    def read(self, count: int) -> bytes:
        data = b''
        while len(data) < count:
            piece = self.guarded(lambda: self.peer.recv(count - len(data)))
            if not piece:
                raise Broken('The node ended the session before it had replied; see what it wrote when it stopped, and ask again.')
            data += piece
        return data

    def ask(self, kind: int, payload: bytes) -> tuple[int, bytes]:
        """The kind and the payload of the reply to one frame."""
        self.guarded(lambda: self.peer.sendall(struct.pack('>BI', kind, len(payload)) + payload) or b'')
        answered, length = struct.unpack('>BI', self.read(5))
        if not 1 <= answered <= 11 or length > LONGEST_FRAME:
            raise Broken('What listens there is no node: its reply has no form that a node\'s has; see what runs at port %d.' % self.port)
        return answered, self.read(length)


def plain(answered: int, payload: bytes) -> str:
    """A reply to a choice or a push."""
    text = payload.decode('utf-8', 'surrogateescape')
    return {3: 'conflict ' + text, 6: text}.get(answered, REPLIES.get(answered, 'reply %d' % answered))


def tell(asked: str, answered: int, payload: bytes) -> None:
    """Prints what was asked with the reply to it."""
    print('%s: %s' % (asked, plain(answered, payload)))
    if answered == 5:
        print('The node\'s specification has no such name or number of parts, or a value is of another type than its place; look the rule up, and '
              'see that the node was started with this specification.', file=sys.stderr)


def expected(answered: int, kind: int) -> None:
    """Ends where a reply is of another kind."""
    if answered != kind:
        raise Broken('The node broke the session off with "%s"; ask again.' % REPLIES.get(answered, 'reply %d' % answered))


def show_list(node: Node) -> None:
    place = 0
    while True:
        answered, payload = node.ask(4, struct.pack('>Q', place))
        if answered != 11:
            expected(answered, 10)
            return
        print(payload.decode('utf-8', 'surrogateescape'))
        place += 1


def pull(names: Names, node: Node, place: int) -> None:
    while True:
        answered, payload = node.ask(3, struct.pack('>Q', place))
        if answered != 7:
            expected(answered, 10)
            return
        print('sent %d %s' % (place, Shown(names, payload).whole()))
        place += 1


def push(names: Names, node: Node, role: str, lines: Iterable[str], all_are_meant: bool) -> None:
    for line in lines:
        words = Words(names, re.sub(r'^\s*sent \d+ ', '', line))
        if not words.tokens:
            continue
        to, data = words.message()
        if all_are_meant or names.roles[to] == role:
            tell(line.strip(), *node.ask(1, data))


def names_in(path: str) -> Names:
    """The names that the specification at this path declares."""
    try:
        with open(path, encoding='utf-8', errors='surrogateescape') as file:
            return Names(file.read())
    except OSError as error:
        raise Trouble('The specification "%s" cannot be read (%s); give the path of its file.' % (path, error.strerror)) from None


def call(program: Callable[[], None], advice: str) -> None:
    """Runs a program, and ends with a sentence where it has trouble; the advice is for a session that broke off."""
    status, text = 0, ''
    try:
        if sys.stdout is None:
            raise BrokenPipeError
        program()
        sys.stdout.flush()
    except Trouble as trouble:
        status, text = trouble.status, str(trouble)
    except BrokenPipeError:
        status, text = NOT_READ, 'Nobody reads the output any more, so the rest was not asked for.'
    except OSError as error:
        status, text = NO_SESSION, 'The session broke off (%s); %s.' % (error.strerror or error, advice)
    except KeyboardInterrupt:
        status, text = 130, 'Stopped; whether what was asked last was done, the answer to asking again tells.'
    if status == NOT_READ and sys.stdout:
        # (what is left in the buffer has nobody to go to)
        os.dup2(os.open(os.devnull, os.O_WRONLY), sys.stdout.fileno())
    if text and sys.stderr:
        print(text, file=sys.stderr)
    sys.exit(status)


def read_words(words: list[str]) -> argparse.Namespace:
    asked = argparse.ArgumentParser(prog='client.py', description=__doc__, formatter_class=argparse.RawDescriptionHelpFormatter)
    asked.add_argument('--timeout', type=float, default=PATIENCE, metavar='SECONDS', help='how long to wait for each byte of a reply')
    asked.add_argument('specification')
    asked.add_argument('role')
    asked.add_argument('command', choices=('list', 'start', 'choose', 'pull', 'push'))
    asked.add_argument('words', nargs='*')
    given = asked.parse_args(words)
    if not 0 < given.timeout < 1e9:
        asked.error('SECONDS is a number above 0')
    return given


def run(words: list[str]) -> None:
    given = read_words(words)
    for stream in filter(None, (sys.stdin, sys.stdout, sys.stderr)):
        stream.reconfigure(errors='surrogateescape')
    names = names_in(given.specification)
    names.number('role', given.role)
    said = Words(names, ' '.join(given.words))
    ask(names, given, said)


def ask(names: Names, given: argparse.Namespace, said: Words) -> None:
    """Does what was said, once the words are all read."""
    def node() -> Node:
        return Node(names, given.role, given.timeout)

    if given.command == 'list':
        said.end()
        show_list(node())
    elif given.command == 'pull':
        place = said.number() if said.tokens else 0
        said.end()
        pull(names, node(), place)
    elif given.command == 'push':
        if not said.tokens and sys.stdin is None:
            raise Trouble('There is no input to read messages from; give a message behind push, or lines as pull writes them.')
        lines = [said.text] if said.tokens else sys.stdin.read().splitlines()
        push(names, node(), given.role, lines, bool(said.tokens))
    elif given.command == 'start':
        data = b'\x00' + struct.pack('>H', names.number('sort', said.take('a sort', '[a-z].*'))) + struct.pack('>Q', said.number())
        said.end()
        tell('start ' + said.text, *node().ask(2, data))
    else:
        data = b'\x01' + said.node() + struct.pack('>H', names.number('rule', said.take('a rule', '[a-z].*')))
        shown = ' '.join(given.words[:2])
        arguments = said.several(said.ground, '{', '}') if said.tokens else []
        said.end()
        data += said.count(len(arguments), MOST_PARTS, 'arguments') + b''.join(arguments)
        tell('choose ' + shown, *node().ask(2, data))


if __name__ == '__main__':
    call(lambda: run(sys.argv[1:]), 'ask again')
