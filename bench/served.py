"""The part of faults.py that has nodes and couriers: each call of a node, a kept node and a courier fails in turn.

A node whose read or write in a session failed has to tell in its line how many frames it handled, and to have answered as a node does whose
sessions end behind that many. What a kept node answered has to be in its journal when that is opened again, and in each file that a crash may
have left: the bytes of today, those of the last sync, and a mixture.
"""
import os
import random
import struct
import tempfile
from collections import Counter
from dataclasses import dataclass

import inputs
import nodes
import offices
import sessions

READ_FAULT, WRITE_FAULT, NET_FAULT, NO_MEMORY, DISK_FAULT, KILLED = 7, 8, 9, 10, 12, -9
PIECE = 10
TAKEN, NEW = nodes.frame(6, b"taken"), nodes.frame(1, b"")
KEPT_ANSWERS = (nodes.frame(6, b"known"), nodes.frame(6, b"developed"), nodes.frame(2, b""))


def settings_of(shim, counted, settings):
    env = {"LD_PRELOAD": shim, "FAULTY_COUNT": counted}
    env.update({"FAULTY_" + name.upper(): str(value) for name, value in settings.items()})
    return env


def answered(frames, replies):
    """The frames that were answered `taken` or `new`."""
    return [one for one, reply in zip(frames, nodes.split(replies)) if reply in (TAKEN, NEW)]


def are_fronts(replies, wanted):
    """Whether these are the replies up to some moment: those of whole sessions, and a beginning of the last one's. Where a node was killed its
    port may take up sessions a little longer, in which nothing is replied."""
    while replies and replies[-1] == b"":
        replies = replies[:-1]
    return not replies or (replies[:-1] == wanted[:len(replies) - 1] and wanted[len(replies) - 1].startswith(replies[-1]))


class NodeCase:
    """A node that is asked some sessions."""

    def __init__(self, binary, shim, asked, kept=False, journal=None, note=""):
        self.binary, self.shim, self.asked, self.kept, self.journal = binary, shim, asked, kept, journal
        self.name = asked.name + (", kept" if kept else "") + note
        self.sessions = asked.sessions()
        self.references = {}

    def words(self, count):
        return ["node", self.asked.role, str(count)] + ["kept"] * self.kept

    def serve(self, asked, journal, env=None):
        return nodes.serve(self.binary, self.words(len(asked)), self.asked.text, asked, journal, env)

    def run(self, **settings):
        """How it was served under faults, how many calls were counted, and what was last synced."""
        with tempfile.NamedTemporaryFile(dir=nodes.FAST) as counted, tempfile.NamedTemporaryFile(dir=nodes.FAST) as synced:
            if self.kept:
                settings["synced"] = synced.name
                synced.write(self.journal or b"")
                synced.flush()
            served = self.serve(self.sessions, self.journal, settings_of(self.shim, counted.name, settings))
            told = counted.read()
            with open(synced.name, "rb") as file:
                return served, int(told) if told else -1, file.read()

    def reference(self, counts=()):
        """How it is served without faults, where each session ends behind so many frames."""
        if counts not in self.references:
            asked = [b"".join(nodes.split(data)[:count]) for data, count in zip(self.sessions, counts)]
            self.references[counts] = self.serve(asked or self.sessions, self.journal)
        return self.references[counts]

    def whole(self):
        return self.reference()


def same(served, whole):
    return (served.status, served.written, served.replies) == (whole.status, whole.written, whole.replies)


def stopped(served, whole, status):
    """Whether it ended with this status, and nothing else than a front of the replies was written."""
    return (served.status, served.written) == (status, b"") and are_fronts(served.replies, whole.replies)


def broken_off(case, served):
    """Whether each session that broke off was answered as if it had ended behind the frames that its line tells."""
    lines = nodes.log_lines(served.written)
    if served.status != 0 or len(lines) != len(case.sessions) or len(served.replies) != len(lines):
        return False
    whole = nodes.log_lines(case.whole().written)
    counts = tuple(count if how == "fault" else 1 << 30 for count, how in lines)
    wanted = case.whole() if all(count == 1 << 30 for count in counts) else cut_reference(case, lines)
    for (count, how), reply, want, (most, usual), full in zip(lines, served.replies, wanted.replies, whole, case.whole().replies):
        if how == "fault" and not (count <= most and (full if count == most else want).startswith(reply)):
            return False
        if how != "fault" and ((count, how) != (most, usual) or want != reply):
            return False
    return True


def cut_reference(case, lines):
    """The reference of which the sessions that broke off have their frames alone; the others have all their bytes."""
    key = tuple(lines)
    if key not in case.references:
        asked = [b"".join(nodes.split(data)[:count]) if how == "fault" else data for data, (count, how) in zip(case.sessions, lines)]
        case.references[key] = case.serve(asked, case.journal)
    return case.references[key]


def node_good(case, call, at, served):
    """Whether the answer is one that the failed call may cause."""
    whole = case.whole()
    if call == "memory":
        return stopped(served, whole, NO_MEMORY) or same(served, whole)
    if call == "read":
        return stopped(served, whole, READ_FAULT) and served.replies == []
    if call == "write":
        return served.status == WRITE_FAULT and served.written == whole.written[:PIECE * (at - 1)] and served.replies == whole.replies
    if call == "dial":
        return stopped(served, whole, NET_FAULT) or same(served, whole)
    if call == "disk":
        return stopped(served, whole, DISK_FAULT)
    return broken_off(case, served)


# Journals.

def files_left(served, synced, seed):
    """What a crash may leave: all that was written, what was synced alone, and a mixture of both."""
    new = served.journal or b""
    draw = random.Random(seed)
    mixed = bytes(draw.choice(pair) for pair in zip(new, synced))
    longer = max(new, synced, key=len)
    cut = draw.randint(len(mixed), len(longer))
    yield "as written", new
    if synced != new:
        yield "as synced", synced
        yield "mixed", mixed + longer[len(mixed):cut]


def lost(case, served, journal):
    """What is wrong with this journal when it is opened again, or nothing. All that was answered has to be there, in its order, and at most
    the event in hand besides."""
    frames = [answered(nodes.split(data), replies) for data, replies in zip(case.sessions, served.replies)]
    frames = [one for several in frames for one in several]
    before = len(nodes.events(case.journal)[0])
    reopened = case.serve([b"".join(frames)], journal)
    replies = nodes.split(reopened.replies[0]) if reopened.replies else []
    if reopened.status != 0 or len(replies) != len(frames) or any(reply not in KEPT_ANSWERS for reply in replies):
        return "status %s, of %d events %d answered, %d found" % (
            reopened.status, len(frames), len(replies), sum(reply in KEPT_ANSWERS for reply in replies))
    wanted = cut_reference(case, nodes.log_lines(served.written)) if served.status == 0 else case.whole()
    all_events, (found, counted) = nodes.events(wanted.journal)[0], nodes.events(reopened.journal)
    most = len(all_events) if served.status == 0 else before + len(frames) + 1
    least = len(all_events) if served.status == 0 else before + len(frames)
    if found != all_events[:len(found)] or not least <= len(found) <= most:
        return "%d events, and not %d to %d" % (len(found), least, most)
    return None if counted == reopened.journal else "bytes behind the last record"


def node_fails(case, told, call, spread, **settings):
    """Makes each call of a node fail, once alone and once with all behind it."""
    _, total, _ = case.run(call=call, **settings)
    numbers, step = spread(total)
    kinds = Counter()
    for at in numbers:
        for rest in ((0,) if settings.get("kill") else (0, 1)):
            served, _, synced = case.run(call=call, at=at, rest=rest, **settings)
            kinds["unchanged" if same(served, case.whole()) else served.status] += 1
            text = "%s: %s %d%s" % (case.name, call, at, " and all behind it" if rest else "")
            good = (stopped(served, case.whole(), KILLED) if settings.get("kill") else node_good(case, call, at, served))
            told.check(good, "%s: status %s, %r, replies of %s bytes" % (text, served.status, served.written, list(map(len, served.replies))))
            for name, journal in files_left(served, synced, at) if case.kept else ():
                why = lost(case, served, journal)
                told.check(why is None, "%s: the journal %s: %s" % (text, name, why))
    return total, step, kinds


NODE_CALLS = [("memory", {}), ("read", {"piece": 40}), ("write", {"piece": PIECE}), ("dial", {}), ("receive", {}), ("receive", {"piece": 7}),
              ("send", {}), ("send", {"piece": 3})]
DISK_CALLS = [("disk", {}), ("disk", {"piece": 5}), ("disk", {"kill": 1}), ("disk", {"kill": 1, "piece": 5}), ("send", {"kill": 1}),
              ("receive", {"kill": 1})]


def row(name, call, settings, total, step, kinds):
    how = "".join(", %s %s" % (key, value) if key == "piece" else ", the program killed" for key, value in settings.items())
    print("| %s | %s%s | %d | %s | %s |" % (name, call, how, total, step, ", ".join("%s: %d" % pair for pair in sorted(kinds.items(), key=str))),
          flush=True)


def fail_node(case, told, spread):
    for call, settings in NODE_CALLS + DISK_CALLS * case.kept:
        row(case.name, call, settings, *node_fails(case, told, call, spread, **settings))
    for piece in (1, 2):
        served = case.run(piece=piece)[0]
        told.check(same(served, case.whole()) and served.journal == case.whole().journal, "%s: moves of %d bytes" % (case.name, piece))


def node_cases(binary, shim, kept):
    """The three nodes; kept ones also begin with a journal whose last event is torn, and with one whose head is."""
    for asked in sessions.ASKED:
        yield NodeCase(binary, shim, asked, kept)
    if kept:
        whole = NodeCase(binary, shim, sessions.LAB, True).whole().journal
        old = nodes.events(whole)[1]
        yield NodeCase(binary, shim, sessions.FRONT, True, torn_behind(binary, shim, sessions.FRONT), ", a torn record in its journal")
        yield NodeCase(binary, shim, sessions.LAB, True, b"\x00" + old[1:100], ", a torn head in its journal")


def torn_behind(binary, shim, asked):
    """The journal behind the first session, with its last gate open and a piece of a record behind it."""
    first = sessions.Asked(asked.name, asked.text, asked.role, ["start claim 500"])
    journal = NodeCase(binary, shim, first, True).whole().journal
    return journal[:-1] + b"\x01" + struct.pack(">Q", 40) + b"\x01\x00\x00"


# Couriers.

@dataclass
class Carried:
    """A courier, and what its nodes were asked before, by role."""
    name: str
    text: bytes
    rounds: int
    lines: dict


CARRIED = [
    Carried("a courier between clinic and laboratory", sessions.example("clinical-test.aw"), 10,
            {"clinic": 'start visit 1\nchoose visit#1 admit {"Ada", 4711, glucose}', "lab": ""}),
    Carried("a courier between three offices", sessions.example("insurance-claim.aw"), 10,
            {"front": 'start claim 1\nchoose claim#1 open_claim {1, "storm", 9, "DK"}\nstart claim 2\nchoose claim#2 open_claim {2, "fire", 7, "DE"}',
             "assessor": "", "payments": ""}),
    Carried("a courier for one round between four offices", offices.offices(4).encode(), 1,
            {"office0": "start case 1\nchoose case#1 both {7}", "office1": "", "office2": "", "office3": ""}),
]
LOOK = b"".join([nodes.place(nodes.LIST, number) for number in range(6)] + [nodes.place(nodes.PULL, number) for number in range(20)])


class CourierCase:
    def __init__(self, binary, shim, carried):
        self.binary, self.shim, self.carried, self.name = binary, shim, carried, carried.name
        self.names = nodes.Names(carried.text.decode())
        self.first = self.run()

    def run(self, **settings):
        """Status and what was written by a courier under faults, what the nodes tell behind a courier without, and the calls counted."""
        served = []
        try:
            for role in self.names.roles:
                process = nodes.started([self.binary, "node", role, "1000000"], self.carried.text)
                served.append(process)
                nodes.session(nodes.port_of(self.names, role), b"".join(nodes.requests(self.names, self.carried.lines[role])), process)
            with tempfile.NamedTemporaryFile() as counted:
                courier = self.courier(self.carried.rounds, settings_of(self.shim, counted.name, settings))
                number = counted.read()
            after = self.courier(1000)
            looks = [self.look(role, process) for role, process in zip(self.names.roles, served)]
            return (courier.status, courier.written), (after.status, after.written, looks), int(number) if number else -1
        finally:
            for process in served:
                process.kill()
                nodes.ended(process)

    def courier(self, rounds, env=None):
        return nodes.ended(nodes.started([self.binary, "courier", str(rounds)], self.carried.text, env=env))

    def look(self, role, process):
        """The worklist of a node, and its messages in any order."""
        replies = nodes.split(nodes.session(nodes.port_of(self.names, role), LOOK, process))
        return replies[:6], sorted(replies[6:])


def courier_good(call, at, answer, whole):
    if call in ("memory", "dial", "receive", "send"):
        return answer in ((NO_MEMORY if call == "memory" else NET_FAULT, b""), whole)
    if call == "read":
        return answer == (READ_FAULT, b"")
    return answer == (WRITE_FAULT, whole[1][:PIECE * (at - 1)])


COURIER_CALLS = [("memory", {}), ("read", {"piece": 40}), ("write", {"piece": PIECE}), ("dial", {}), ("receive", {}), ("receive", {"piece": 7}),
                 ("send", {}), ("send", {"piece": 3})]


def fail_courier(case, told, spread):
    whole, state, _ = case.first
    told.check(whole[0] == 0 and state[:2] == (0, b"quiet\n"), "%s: %r, %r" % (case.name, whole, state[:2]))
    for call, settings in COURIER_CALLS:
        total = case.run(call=call, **settings)[2]
        numbers, step = spread(total)
        kinds = Counter()
        for at in numbers:
            for rest in (0, 1):
                answer, after, _ = case.run(call=call, at=at, rest=rest, **settings)
                kinds["unchanged" if answer == whole else answer[0]] += 1
                text = "%s: %s %d%s" % (case.name, call, at, " and all behind it" if rest else "")
                told.check(courier_good(call, at, answer, whole), "%s: %r" % (text, answer))
                told.check(after == state, "%s: behind it the nodes tell something else" % text)
        row(case.name, call, settings, total, step, kinds)
    told.check(case.run(piece=1)[:2] == case.first[:2], "%s: one byte at a time" % case.name)
