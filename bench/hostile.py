#!/usr/bin/env python3
"""hostile.py BIN [--only WORD] [--limit SECONDS] [--scale N]
   hostile.py BIN --program aw_book [--aw AW] [--limit SECONDS]

Gives the program what nobody in good faith gives it, in each command that takes such input: values a million deep, 16 MiB of each kind of token,
names of 250 and 251 steps, sessions at their limits, nodes that are sent forged values without end, forged journals, and a courier whose nodes lie. Prints for
each the seconds of the processor, the memory held, and how many times the input that is (what was read, from the wire too), as a table in
Markdown, and marks with `!` what took more than 2 seconds or more than 200 times the input, and an end that is none of those called for. Ends
with 1 where an end is marked.

`--scale N` makes the inputs whose name ends in `*` N times larger: of those the work grows faster than the input, or is as large as a session
lets it be. Needs GNU time; nodes are in a network of their own where the system lets them, else the ports from 7400 on have to be free.

With `--program aw_book` BIN is that program, and each of its commands is given forged journals. The companions ask the programs, and have what they
refuse in words (cuts.py and changes.py with `--program companions`).
"""
import argparse
import os
import resource
import socket
import struct
import sys
import tempfile
import threading
from dataclasses import dataclass, field

sys.dont_write_bytecode = True
import inputs
import nodes
import readers
from inputs import BAD_SCHEDULE, BAD_SPECIFICATION, DONE, INPUT_LIMIT, TOO_LARGE, text
from nodes import CHOOSE, LIST, PULL, PUSH, frame, place

USAGE, BAD_JOURNAL, BAD_REPLY = 2, 13, 14
SESSION_LIMIT = 67_108_864
MOST_SECONDS, MOST_TIMES, SMALL = 2.0, 200, 1 << 20


@dataclass
class Attack:
    """What is given, to which command, and the statuses that are called for. A node is asked its sessions, and its last line has to end so; of a
    courier the nodes reply these bytes, each in all its sessions."""
    name: str
    words: list
    text: object
    statuses: tuple
    sessions: object = None
    how: bytes = b""
    replies: list = field(default_factory=list)
    journal: bytes = None


# Texts.

DEEP = 1_000_000
TYPED = ["role r", "con c 1", "con z 0", "sort t r 1 1", "sort s r 0 0", "start s"]


def nest(depth, closed=True):
    return b"c(" * depth + b"z" + b")" * (depth if closed else 0)


def deep_texts():
    """Terms a million deep at each place of a rule, and of a choice."""
    head = text(TYPED)
    places = {"a pattern": (b"rule q : t(", b")<z>"), "a result": (b"rule q : t(x)<", b">"), "an argument of a child": (b"rule q : s()<> = t(", b")<y>"),
              "a parameter": (b"rule q {", b"} : t(x)<z>"), "a child's result": (b"rule q : s()<> = t(z)<", b">"),
              "a type": (b"shape c (", b") t")}
    for name, (begin, end) in places.items():
        for closed in (True, False):
            line = head + begin + nest(DEEP, closed) + end + b"\n"
            yield "%s 1,000,000 deep%s" % (name, "" if closed else ", not closed"), line, BAD_SPECIFICATION
    schedule = text(TYPED[:4] + ["sort s r 0 0", "start s", "rule g {x} : s()<>", "schedule"])
    for closed in (True, False):
        yield ("an argument of a choice 1,000,000 deep%s" % ("" if closed else ", not closed"),
               schedule + b"choose s#1 g {" + nest(DEEP, closed) + b"}\n", BAD_SCHEDULE)


def deep():
    for name, data, status in deep_texts():
        commands = ("plain", "replay") if status == BAD_SCHEDULE else ("check", "plain", "replay", "node", "courier")
        for word in commands:
            yield Attack(name, words_of(word), data, (status,))
    for count in (3_300, 33_000):
        for word in ("plain", "replay"):
            yield Attack("a value made %s deep, 31 in each task" % "{:,}".format(31 * count), [word], inputs.relay(count), (TOO_LARGE,))
    for word in ("plain", "replay"):
        yield Attack("3,000 tasks wait for one result that is handed on 240 times", [word], inputs.handed(3_000, 240), (DONE,))
    for end in ("schedule", "schedule 2"):
        yield Attack("a value made 102,300 deep, by two roles in turn, %s" % end, ["replay"], relay_by_post(3_300, end), (TOO_LARGE,))


def words_of(command):
    return {"node": ["node", "r", "1"], "courier": ["courier", "1"]}.get(command, [command])


def relay_by_post(count, end):
    """A value that passes through so many tasks of another role, in each of which it gets 31 constructors deeper."""
    lines = ["role desk", "role shop", "con z 0", "con c 1", "sort top desk 0 1", "sort task desk 1 1", "sort far shop 1 1", "start top", "offer far",
             "use desk far", "rule go : top()<y> = task(z)<y>", "rule fork : task(x)<z1> = task(x)<y> ; task(y)<z1>",
             "rule leaf : task(x)<y> = far(x)<y>", "rule grow : far(x)<%s>" % inputs.nested(31, "x"), end, "start top 1", "choose top#1 go"]
    late, waiting = [], [("top#1/go.1", count)]
    while waiting:
        node, leaves = waiting.pop()
        if leaves == 1:
            lines.append("choose %s leaf" % node)
            late.append("choose %s/leaf.1 grow" % node)
        else:
            lines.append("choose %s fork" % node)
            waiting += [(node + "/fork.2", leaves - leaves // 2), (node + "/fork.1", leaves // 2)]
    return text(lines + ["settle"] + late + ["settle"])


# Tokens.

TOKENS = {"names": b"a ", "one name": b"a", "numbers": b"1 ", "one number": b"1", "texts": b'"" ', "texts of 1,024 bytes": b'"' + b"x" * 1024 + b'" ',
          "quotes": b'"', "backslashes in a text": b'\\\\', "node names": b"a#1 ", "steps of one node name": b"/a.1", "(": b"(", ")": b")", "()": b"()",
          "<": b"<", ">": b">", "{": b"{", "}": b"}", "commas": b",", "colons": b":", "=": b"=", ";": b";", "names and commas": b"a,", "c(), ": b"c(),",
          "carriage returns": b"\r", "tabs": b"\t", "zeros": b"\0", "bytes 255": b"\xff", "hashes": b"#", "dots": b"."}
PASSED = {"one comment": (b"%", b"x"), "comments": (b"", b"%\n"), "empty lines": (b"", b"\n"), "lines of a blank": (b"", b" \n"), "one line of blanks": (b"", b" ")}
RULE_LISTS = {"a pattern list": b"rule q : t(", "a parameter list": b"rule q {", "a result list": b"rule q : t(x)<", "children": b"rule q : s()<> = "}


def line_of(begin, piece, end=b""):
    return inputs.one_line(begin, piece, end)


def tokens():
    """A line of 16 MiB of each token: as a whole line, behind what begins a line, and in a schedule."""
    head = text(TYPED[:4] + ["sort s r 0 0", "start s", "rule g {x} : s()<>", "schedule"])
    for name, piece in TOKENS.items():
        begin = b'"' if name == "backslashes in a text" else b"a#1" if name == "steps of one node name" else b""
        status = DONE if name in ("carriage returns", "tabs") else BAD_SPECIFICATION
        yield Attack("16 MiB: %s" % name, ["check"], line_of(begin, piece), (status,))
        yield Attack("16 MiB of a schedule: %s" % name, ["replay"], line_of(head + begin, piece), (DONE if status == DONE else BAD_SCHEDULE,))
    for name, (begin, piece) in PASSED.items():
        for word, statuses in (("check", (DONE,)), ("plain", (DONE,)), ("replay", (DONE,)), ("node", (USAGE,)), ("courier", (DONE,))):
            yield Attack("16 MiB: %s" % name, words_of(word), line_of(begin, piece), statuses)


def lists():
    head, schedule = text(TYPED), text(TYPED[:4] + ["sort s r 0 0", "start s", "rule g {x} : s()<>", "schedule"])
    pieces = {"names": b"a,", "numbers": b"1,", "texts": b'"",', "terms": b"c(z),", "deeper terms": b"c(c(c(z))),", "wide terms": b"c(a,a,a,a,a,a,a,a),"}
    for where, begin in RULE_LISTS.items():
        some = {"children": b"t(z)<y>;"} if where == "children" else {"names": b"a,"} if where == "a parameter list" else pieces
        for name, piece in some.items():
            yield Attack("16 MiB: %s of %s" % (where, name), ["check"], line_of(head + begin, piece), (BAD_SPECIFICATION,))
    for name, piece in pieces.items():
        yield Attack("16 MiB: arguments of a choice: %s" % name, ["replay"], line_of(schedule + b"choose s#1 g {", piece, b"z}"), (BAD_SCHEDULE,))
    for name, piece in (("types of a shape", b"shape c ("), ("types of a carry", b"carry t (")):
        yield Attack("16 MiB: %s" % name, ["check"], line_of(head + piece, b"num,", b"num)"), (BAD_SPECIFICATION,))
    yield Attack("16 MiB: one list of names, by a node", words_of("node"), line_of(head + b"rule q : t(", b"a,"), (BAD_SPECIFICATION,))
    yield Attack("16 MiB: one list of names, by a courier", words_of("courier"), line_of(head + b"rule q : t(", b"a,"), (BAD_SPECIFICATION,))


# Names in bytes.

SPEC = text(["role near", "role far", "con c 8", "con ok 0", "sort top near 0 1", "sort deep near 1 1", "sort task far 1 1", "sort loop far 1 1",
             "start top", "offer task", "use near task",
             "rule go : top()<y> = task(ok)<y>", "rule dive : top()<y> = deep(ok)<y>",
             "rule %s : deep(x)<y> = deep(x)<y>" % ("q" * 64), "rule out : deep(x)<y> = task(x)<y>",
             "rule ask : task(ok)<ok>", "rule more {v} : task(c(a, b, d, e, f, g, h, i))<a> = loop(v)<y>", "rule spin : loop(x)<y> = loop(x)<y>"])
GO, DIVE, DOWN, OUT, ASK, MORE, SPIN = range(7)
NEAR, FAR = 0, 1


def name(case, *steps):
    return struct.pack(">HQB", 0, case, len(steps)) + b"".join(struct.pack(">HB", rule, 1) for rule in steps)


def result(node, number=1):
    return node + struct.pack(">BH", 0, number)


def part(node, number):
    return node + struct.pack(">BH", 1, number)


def task(case):
    """A task of the far role."""
    return name(case, GO)


def call(node, *refs):
    return frame(PUSH, struct.pack(">BHB", 1, FAR, 0) + node + bytes([len(refs)]) + b"".join(refs))


def ask(to, ref, role):
    return frame(PUSH, struct.pack(">BHB", 1, to, 1) + ref + struct.pack(">H", role))


def tell(left, body, load=()):
    items = struct.pack(">BHB", 2 if load else 1, FAR, 2) + left + body
    return frame(PUSH, items + (bytes([len(load)]) + b"".join(load) if load else b""))


def same_as(ref):
    return b"\x00" + ref


def made_of(*refs):
    return struct.pack(">BHB", 1, 0, len(refs)) + b"".join(refs)


def start(case):
    return frame(CHOOSE, b"\x00" + struct.pack(">HQ", 0, case))


def choose(node, rule, *arguments):
    return frame(CHOOSE, b"\x01" + node + struct.pack(">HB", rule, len(arguments)) + b"".join(arguments))


OK = struct.pack(">BHB", 1, 1, 0)


def far(title, sessions, how=b"end"):
    """An attack on the node of the far role."""
    return Attack(title, ["node", "far"], SPEC, (DONE,), sessions, how)


def near(title, sessions, how=b"end"):
    return Attack(title, ["node", "near"], SPEC, (DONE,), sessions, how)


def steps():
    """Names of 250 and of 251 steps, with rules of 64 bytes."""
    for count, status in ((250, DONE), (251, BAD_SCHEDULE)):
        for word in ("plain", "replay"):
            yield Attack("1,000 choices on a name of %d steps" % count, [word], inputs.chain_of_steps(count, "q" * 60, 1_000 if count == 250 else 1), (status,))
    for count, how in ((250, b"end"), (251, b"bad")):
        above = [DIVE] + [DOWN] * (count - 2)
        deepest, parent = name(1, *above, OUT), name(1, *above)
        yield near("a choice on a name of %d steps" % count, lambda deepest=deepest: [choose(deepest, ASK)], how)
        yield far("a call of a name of %d steps, listed and pulled" % count,
                  lambda deepest=deepest, parent=parent: [call(deepest, part(parent, 1)) + place(LIST, 0) + place(PULL, 0)], how)
    yield far("10,000 calls of 250 steps, with references of 250 steps, listed and pulled", lambda: [deep_calls(10_000)])


def deep_name(case):
    return name(case, DIVE, *[DOWN] * 248, OUT)


def deep_calls(count):
    calls = b"".join(call(deep_name(case), part(name(case, DIVE, *[DOWN] * 248), 1)) for case in range(count))
    return calls + place(LIST, 0) + place(PULL, 0)


# Sessions.

def bounded():
    pulls = SESSION_LIMIT // 13
    yield near("a session of 64 MiB: pulls past the end", lambda: [place(PULL, 1 << 60) * pulls + b"\x03" * (SESSION_LIMIT - 13 * pulls)], b"cut")
    yield near("the same and a byte more", lambda: [place(PULL, 1 << 60) * pulls + b"\x03\0\0\0\x08\0\0\0\0\0\0\0\0"], b"long")
    yield near("a session of 64 MiB: lists of nothing", lambda: [place(LIST, 0) * pulls], b"end")
    yield near("a session of 64 MiB: the same start", lambda: [start(7) * (SESSION_LIMIT // 16)], b"end")
    yield near("a session of 8 MiB: starts", lambda: [b"".join(map(start, range(SESSION_LIMIT // 128)))], b"end")
    yield far("a session of 8 MiB: asks", lambda: [b"".join(ask(FAR, result(task(case)), NEAR) for case in range(SESSION_LIMIT // 8 // 38))], b"end")
    yield near("a frame that says 1 MiB and is no choice", lambda: [frame(CHOOSE, b"\x01" + bytes(1_048_575))], b"bad")
    yield near("a frame that says more than 1 MiB", lambda: [struct.pack(">BI", CHOOSE, 1_048_577) + bytes(1_048_577)], b"bad")
    yield near("a frame that says 1 MiB, and 4 KiB of it", lambda: [struct.pack(">BI", CHOOSE, 1_048_576) + bytes(4_096)], b"cut")
    yield near("10,000 sessions with nothing", lambda: [b""] * 10_000, b"end")
    yield near("10,000 sessions with a bad frame", lambda: [b"\xff" * 100] * 10_000, b"bad")
    for count in (b"0", b"1000001", b"9" * 100_000):
        yield Attack("%s sessions" % (count.decode() if len(count) < 9 else "a number of 100,000 digits of"), ["node", "near", count], SPEC, (USAGE,))
    yield Attack("100,000 words", ["x"] * 100_000, b"", (USAGE,))
    yield Attack("a role of 100,000 bytes", ["node", "r" * 100_000, "1"], SPEC, (USAGE,))
    yield Attack("bytes that are no text as words", [b"node", b"\xff\xfe", b"1"], b"", (USAGE,))
    yield Attack("the largest trial", ["trial", str(2 ** 64 - 1)], b"", (DONE,))
    yield Attack("a trial past the largest", ["trial", str(2 ** 64)], b"", (USAGE,))


# Forged values.

def waiting_task(reference):
    return call(task(0), reference)


def chain(count, backwards=False, closed=False):
    """A task that waits at the first of so many references, each of which is the same as the next; the last as the first, where it is closed."""
    refs = [part(name(case), 1) for case in range(count)]
    ends = refs[1:] + ([refs[0]] if closed else [])
    tells = [tell(left, same_as(right)) for left, right in zip(refs, ends)]
    return waiting_task(refs[0]) + b"".join(tells[::-1] if backwards else tells)


LOOK = b"".join(place(LIST, number) + place(PULL, number) for number in range(50))


def own_parts(count):
    """References that are each made of themselves eight times, and a task for each."""
    refs = [part(name(case), 1) for case in range(count)]
    return b"".join(call(task(case), ref) + tell(ref, made_of(*[ref] * 8)) for case, ref in enumerate(refs))


def never_told(count):
    """Values that are made of eight references which nobody ever tells, one more each time."""
    refs = [part(name(case), 1) for case in range(8 * count + 1)]
    return waiting_task(refs[0]) + b"".join(tell(refs[number], made_of(*refs[8 * number + 1:8 * number + 9])) for number in range(count))


def loads(count):
    """Tells with loads of 64 equations of eight references that nobody tells."""
    pieces = []
    for number in range(count):
        case = number << 32
        load = [part(name(case + place), 1) + made_of(*[part(name(case + place), 2 + k) for k in range(8)]) for place in range(1, 65)]
        pieces.append(tell(part(name(case), 1), made_of(*[part(name(case), 2 + k) for k in range(8)]), load))
    return b"".join(pieces)


def moved(tasks, moves):
    """So many tasks that wait for one reference, which is told to be the same as another again and again."""
    refs = [part(name(case), 1) for case in range(moves + 1)]
    calls = b"".join(call(task(case), refs[0]) for case in range(tasks))
    return calls + b"".join(tell(left, same_as(right)) for left, right in zip(refs, refs[1:]))


def quarrel(count):
    """Values of eight references of 250 steps each, and others in their place."""
    refs = [part(name(case, DIVE, *[DOWN] * 248), 1) for case in range(16)]
    first, second = tell(refs[0], made_of(*refs[:8])), tell(refs[0], made_of(*refs[8:]))
    return first + second * count


WIDE = text(["role near", "role far", "con ok 0", "con no 0", "sort top near 0 1", "sort task far 1 1", "start top", "offer task", "use near task",
             "rule go : top()<y> = task(no)<y>"] + ["rule r%d : task(ok)<ok>" % number for number in range(1_000)])
WIDE_STARTS = text(["role near", "con ok 0", "sort top near 0 1", "start top"] + ["rule r%d : top()<ok>" % number for number in range(1_000)])


def wide(scale):
    """Tasks whose sort has 1,000 rules, and calls of tasks that wait at a chain."""
    n = 1_000 * scale
    yield Attack("tasks of 1,000 rules that wait, %d *" % n, ["node", "far"], WIDE, (DONE,),
                 lambda: [b"".join(call(task(case), part(name(case), 1)) for case in range(n))], b"end")
    yield Attack("tasks of 1,000 rules that are ready, %d *" % n, ["node", "near"], WIDE_STARTS, (DONE,), lambda: [b"".join(map(start, range(n)))], b"end")
    yield far("calls of %d tasks that wait at the first of 10,000 references which lead on *" % n,
              lambda: [chain(10_000, True) + b"".join(call(task(case), part(name(0), 1)) for case in range(1, n + 1))])


def forged(scale):
    n = 1_000 * scale
    yield far("tasks whose values are made of themselves, 8,000", lambda: [own_parts(8_000) + LOOK])
    yield far("values made of 8 others each, never told, 8,000", lambda: [never_told(8_000) + LOOK])
    yield far("loads of 64 equations, never told, 500", lambda: [loads(500) + LOOK])
    yield far("references that lead round, 10,000, and 1,000 looks", lambda: [chain(10_000, True, True) + LOOK * 10 + choose(task(0), ASK) * 1_000])
    yield far("references that lead on, told from the last, 10,000, and 1,000 looks", lambda: [chain(10_000, True) + LOOK * 10 + choose(task(0), ASK) * 1_000])
    yield far("references that lead on, told from the first, %d *" % (5 * n), lambda: [chain(5 * n) + LOOK])
    yield far("%d tasks wait for a reference that is moved %d times *" % (n, n // 2), lambda: [moved(n, n // 2) + LOOK])
    yield far("conflicts of 250 KiB, 1,000", lambda: [quarrel(1_000)])
    yield far("a reference asked for by its own role, and by a role that is none", lambda: [ask(FAR, result(task(1)), FAR) + ask(FAR, result(task(1)), 9)])
    yield near("starts in falling order, %d *" % (10 * n), lambda: [b"".join(start(case) for case in range(10 * n, 0, -1))])
    yield near("%d open tasks, each listed *" % (3 * n), lambda: [b"".join(map(start, range(3 * n))) + b"".join(place(LIST, at) for at in range(3 * n))])
    yield near("%d open tasks, 1,000 lists past the end *" % (3 * n), lambda: [b"".join(map(start, range(3 * n))) + place(LIST, 1 << 60) * 1_000])


# Journals.

def record(payload):
    return b"\x01" + struct.pack(">Q", len(payload)) + payload


def journals(binary):
    """Kept nodes whose journal is none, or has records that nobody wrote."""
    whole = nodes.serve(binary, ["node", "near", "1", "kept"], SPEC, [b""]).journal
    head, begun = whole[:-1], b"\x01" + start(1)[5:]

    def kept(title, journal, status=DONE):
        return Attack("a journal: " + title, ["node", "near"], SPEC, (status,), lambda: [place(LIST, 0) + place(PULL, 0)], b"end" if status == DONE else b"", journal=journal)
    yield kept("no byte", b"")
    yield kept("16 MiB of zeros", bytes(INPUT_LIMIT))
    yield kept("16 MiB of bytes 255", b"\xff" * INPUT_LIMIT)
    yield kept("16 MiB of bytes 1", b"\x01" * INPUT_LIMIT, BAD_JOURNAL)
    yield kept("a head without a gate", head, BAD_JOURNAL)
    yield kept("a head that says 16 EiB", b"\x01\0\0" + b"\xff" * 8 + head[11:], BAD_JOURNAL)
    yield kept("a record that says 8 EiB", head + b"\x01\x80" + bytes(7) + b"abc")
    yield kept("a record of 16 MiB of zeros, and a good one", head + record(bytes(INPUT_LIMIT)) + record(begun) + b"\0")
    yield kept("1,000,000 records of nothing", head + record(b"") * 1_000_000 + b"\0")
    yield kept("the same start twice", head + record(begun) * 2 + b"\0", BAD_JOURNAL)
    yield kept("400,000 starts", head + b"".join(record(b"\x01" + start(case)[5:]) for case in range(400_000)) + b"\0")


# Couriers.

def reply(kind, payload=b""):
    return frame(kind, payload)


NONE = reply(10, bytes(8))


def couriers():
    message = struct.pack(">BHB", 1, FAR, 1) + result(task(1)) + struct.pack(">H", NEAR)
    yield courier("two nodes that have nothing", [NONE, NONE], (DONE,))
    yield courier("a node that sends nothing and ends", [b"", NONE], (BAD_REPLY,))
    yield courier("a reply that says 4 GiB", [b"\x07\xff\xff\xff\xff" + bytes(1 << 20), NONE], (BAD_REPLY,))
    yield courier("a message of 1 MiB of zeros", [reply(7, bytes(1 << 20)), NONE], (BAD_REPLY,))
    yield courier("a kind that is none", [b"\xff" * (1 << 20), NONE], (BAD_REPLY,))
    yield courier("200,000 messages, and then the end", [reply(7, message) * 200_000, NONE], (BAD_REPLY,))
    yield courier("more than 1,000,000 messages", [reply(7, message) * 1_000_001, reply(1) * 1_000_000 + NONE], (DONE,))
    yield courier("200 messages of 400 KiB", [reply(7, widest()) * 200 + NONE, reply(1) * 200 + NONE], (DONE,))
    yield courier("conflicts of 1 MiB for 100 messages", [reply(7, message) * 100 + NONE, reply(3, bytes(1 << 20)) * 100 + NONE], (DONE,))
    yield courier("a conflict of more than 1 MiB", [reply(7, message) + NONE, reply(3, bytes((1 << 20) + 1)) + NONE], (BAD_REPLY,))
    yield Attack("4,294,967,296 rounds, and no node", ["courier", "4294967296"], SPEC, (9,))


def widest():
    """A call with the widest load."""
    deepest = name(1, DIVE, *[DOWN] * 248, OUT)
    load = [part(name(at, DIVE, *[DOWN] * 248), 1) + made_of(*[part(name(at, DIVE, *[DOWN] * 248), 2 + k) for k in range(8)]) for at in range(64)]
    return struct.pack(">BHB", 2, FAR, 0) + deepest + bytes([1]) + part(name(1, DIVE, *[DOWN] * 248), 1) + bytes([64]) + b"".join(load)


def courier(title, replies, statuses):
    """A courier for one round, or for two where there is nothing to push before."""
    return Attack("courier: " + title, ["courier", "1"], SPEC, (*statuses,), replies=replies)


# Runs.

class Liar:
    """Something at a role's port that replies the same bytes in each session, whatever comes."""

    def __init__(self, role, data):
        self.data, self.told = data, 0
        self.door = socket.socket()
        self.door.setsockopt(socket.SOL_SOCKET, socket.SO_REUSEADDR, 1)
        self.door.bind(("127.0.0.1", nodes.FIRST_PORT + role))
        self.door.listen(8)
        threading.Thread(target=self.serve, daemon=True).start()

    def serve(self):
        while True:
            try:
                peer, _ = self.door.accept()
            except OSError:
                return
            threading.Thread(target=nodes.receive_all, args=(peer, False), daemon=True).start()
            nodes.send_all(peer, self.data)
            self.told += len(self.data)

    def end(self):
        self.door.shutdown(socket.SHUT_RDWR)
        self.door.close()


def run(binary, attack, limit):
    """How the program ended, KiB held, and how many bytes it was given."""
    sessions = attack.sessions() if attack.sessions else []
    words = attack.words + ([str(len(sessions))] if sessions else []) + (["kept"] if attack.journal is not None else [])
    liars = [Liar(role, data) for role, data in enumerate(attack.replies)]
    with tempfile.NamedTemporaryFile("r") as held, tempfile.TemporaryDirectory(dir=nodes.FAST) as folder:
        if attack.journal is not None:
            with open(os.path.join(folder, nodes.JOURNAL), "wb") as file:
                file.write(attack.journal)
        process = nodes.started(["/usr/bin/time", "-q", "-f", "%M", "-o", held.name, binary, *words], attack.text, folder,
                                begin=lambda: resource.setrlimit(resource.RLIMIT_CPU, (limit, limit)))
        read = len(attack.text) + sum(len(word) + 9 for word in words) + len(attack.journal or b"")
        for data in sessions:
            if nodes.session(nodes.FIRST_PORT + (attack.words[1] == "far"), data, process, False) is None:
                break
            read += len(data)
        end = nodes.ended(process, 10 * limit)
        for liar in liars:
            liar.end()
            read += liar.told
        return end, int(held.read() or 0), read


def judged(attack, end, held, read):
    """The row of a run, and whether its end is one that is called for."""
    killed = end.status is None or end.status >= 128 or end.status < 0
    fits = end.status in attack.statuses and (not attack.how or end.written.rstrip().endswith(attack.how))
    times = held * 1024 / max(read, 1)
    slow = " !" if end.seconds > MOST_SECONDS else ""
    large = " !" if times > MOST_TIMES and held * 1024 > 16 * SMALL else ""
    status = "none" if killed else str(end.status)
    shown = " ".join(word.decode("latin-1") if isinstance(word, bytes) else word for word in attack.words[:1])
    return "| %s | `%s` | %.2f | %s%s | %.2f%s | %.1f | %s%s |" % (
        attack.name, shown, read / 2 ** 20, status, "" if fits or killed else " ! not %s" % (attack.how.decode() or attack.statuses),
        end.seconds, slow, held / 1024, "%.0f" % times if read >= SMALL // 16 else "", large), fits or killed


def attacks(binary, scale):
    yield from deep()
    yield from steps()
    yield from couriers()
    yield from forged(scale)
    yield from wide(scale)
    yield from journals(binary)
    yield from bounded()
    yield from lists()
    yield from tokens()


def main():
    parser = argparse.ArgumentParser(description=__doc__, formatter_class=argparse.RawDescriptionHelpFormatter)
    parser.add_argument("binary")
    parser.add_argument("--only", default="", help="the attacks with this word in their name or command")
    parser.add_argument("--limit", type=int, default=60, help="seconds of the processor after which a run is killed")
    parser.add_argument("--scale", type=int, default=1)
    readers.word_of(parser)
    arguments = parser.parse_args()
    if arguments.program_is != "aw":
        sys.exit(0 if readers.hostile_rows(*readers.both(arguments), arguments.limit) else 1)
    binary, good, most = os.path.abspath(arguments.binary), True, (0.0, "")
    print("| Input | Command | MiB given | Status | Processor s | MiB held | Times the input |\n|---|---|---|---|---|---|---|")
    for attack in attacks(binary, arguments.scale):
        if arguments.only not in attack.name + " " + str(attack.words[0]):
            continue
        found = run(binary, attack, arguments.limit)
        row, fits = judged(attack, *found)
        print(row, flush=True)
        good = good and fits
        if found[2] >= SMALL:
            most = max(most, (found[1] * 1024 / found[2], attack.name))
    print("\nThe most memory, of inputs of a MiB and more: %.0f times the input (%s)" % most)
    sys.exit(0 if good else 1)


if __name__ == "__main__":
    nodes.alone()
    readers.guarded(main)
