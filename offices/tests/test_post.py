"""The post: it loses and doubles nothing, an office holds up its own letters alone, and it tells what is refused."""
from __future__ import annotations

import contextlib
import os
import random
import signal
import socket
import subprocess
import threading
import time
from collections.abc import Callable, Iterator

import pytest
from conftest import CLAIM, CLINIC, LONG, OFFICES, System, until

import client
from aw_offices import frames

Make = Callable[[str], System]
KILLS, STEPS = int(os.environ.get("OFFICES_KILLS", "300")), 40


def choose_some(system: System, draw: random.Random, case: int) -> None:
    """Begins a claim, and does one thing that can be done in each office."""
    assert system.choose("start claim %d" % case) == "taken"
    assert system.choose("choose claim#%d open_claim {%d, \"storm\", %d, \"DK50\"}" % (case, case, draw.randrange(1000))) == "taken"
    for role in system.offices.roles[1:]:
        ready = system.ready(role)
        if ready:
            task, rule = draw.choice(ready).split()
            fields = {"grant": " {7}", "deny": " {\"no\"}", "find_repairable": " {5}"}.get(rule, "")
            assert system.choose("choose %s %s%s" % (task, rule, fields)) == "taken"


def test_killed_anywhere_it_loses_and_doubles_nothing(make: Make) -> None:
    system, draw = make(CLAIM), random.Random(64)
    system.start()
    system.start_post()
    for number in range(1, KILLS + 1):
        if number % 5 == 1:
            choose_some(system, draw, number)
        if number % 2:
            until(system.post_works, "the post does not begin")
            time.sleep(draw.random() * 0.06)  # (a moment to kill it at, not a condition)
            system.kill_post()
            system.start_post()
        else:
            node = draw.choice(list(system.nodes.values()))
            node.kill()
            node.start()
    for number in range(1, 11):
        choose_some(system, draw, KILLS + number)
    until(lambda: not system.unsettled(), lambda: "the worklists are not those of the replay: %s" % system.log()[-2000:])
    assert system.replayed().count(": taken\n") == len(system.lines)
    until(system.carried, "not every letter is carried")
    assert set(system.undelivered()) == {frames.AGAIN}
    assert system.joined(), "the journals are not those of the choices"
    assert ": refused, " not in system.log()


def test_killed_at_each_step_it_loses_and_doubles_nothing(make: Make) -> None:
    system = make(CLINIC)
    system.start()
    for number in range(1, STEPS + 1):
        assert system.choose("start visit %d" % number) == "taken"
        assert system.choose("choose visit#%d admit {\"Ada\", 7, glucose}" % number) == "taken"
        words = [str(system.spec), str(system.folder / "places"), "--interval", "0.05"]
        killed = system.run("/usr/bin/python3", str(OFFICES / "tests" / "killed_post.py"), str(number), *words, stderr=subprocess.DEVNULL)
        assert killed.wait(LONG) == 9
    system.start_post()
    until(system.carried, "not every letter is carried")
    assert set(system.undelivered()) == {frames.AGAIN}
    assert not system.unsettled() and ": refused, " not in system.log()


def test_ends_at_once_when_told(make: Make) -> None:
    system = make(CLINIC)
    system.start()
    post = system.start_post()
    system.choose("start visit 1")
    system.choose("choose visit#1 admit {\"Ada\", 7, glucose}")
    until(lambda: "visit#1/admit.1 measure" in system.ready("lab") and system.carried(), "not every letter is carried")
    for sign in (signal.SIGTERM, signal.SIGINT):
        post.send_signal(sign)
        assert post.wait(LONG) == 0
        post = system.start_post()
        until(lambda: system.number("aw_post_office_up") == 2, "the post has not begun")
        assert system.number("aw_post_letters_carried_total") == 0, "what was noted is not carried again"


def test_a_dead_office_holds_up_its_own_letters_alone(make: Make) -> None:
    system = make(CLAIM)
    system.start()
    system.nodes["payments"].kill()
    system.start_post()
    system.choose("start claim 1")
    system.choose("choose claim#1 open_claim {1, \"storm\", 2, \"DK50\"}")
    until(lambda: system.items("assessor"), "the assessor has no task")
    system.choose("choose claim#1/open_claim.1 deny {\"late\"}")
    until(lambda: system.number("aw_post_letters_waiting") > 0, "no letter is told to wait")
    until(lambda: "payments: nobody answers" in system.log(), "nothing is told of the dead office")
    until(lambda: system.number("aw_post_oldest_letter_age_seconds") > 1, "the age of the oldest letter does not grow")
    system.nodes["payments"].start()
    until(lambda: "claim#1/open_claim.2 file_away" in system.ready("payments"), "payments did not get its letters")
    system.choose("choose claim#1/open_claim.2 file_away")
    until(lambda: not system.unsettled(), "the letters did not come")
    until(lambda: system.number("aw_post_letters_waiting") == 0, "letters are told to wait")
    until(lambda: system.number("aw_post_oldest_letter_age_seconds") == 0, "a letter is told to be old")
    until(lambda: "payments: answers again" in system.log(), "nothing is told of the office that answers again")


def test_a_silent_office_holds_up_its_own_letters_alone(make: Make) -> None:
    system = make(CLAIM)
    for role in ("front", "assessor"):
        system.nodes[role].start()
    with socket.create_server(("127.0.0.1", system.nodes["payments"].port)):
        system.start_post("--timeout", "1")
        system.choose("start claim 1")
        system.choose("choose claim#1 open_claim {1, \"storm\", 2, \"DK50\"}")
        until(lambda: system.items("assessor"), "the assessor has no task")
        until(lambda: "payments: no byte within" in system.log(), "nothing is told of silence")
    system.nodes["payments"].start()
    until(lambda: system.items("payments"), "payments did not get its letters")


def test_refused_letters_are_told_and_counted(make: Make) -> None:
    system = make(CLINIC)
    system.start()
    system.choose("start visit 1")
    system.choose("choose visit#1 admit {\"Ada\", 7, glucose}")
    _, forged = client_words(system, "to clinic tell visit#1/admit.1:r1 = 5")
    assert system.ask("clinic", frames.PUSH, forged)[0][0] == frames.NEW
    system.start_post()
    until(lambda: system.items("lab"), "the lab has no task")
    until(lambda: "visit#1/admit.1 measure" in system.ready("lab"), "the lab was not told the order")
    system.choose("choose visit#1/admit.1 measure {42}")
    until(lambda: system.number("aw_post_letters_refused_total") == 1, "the refusal is not counted")
    assert "lab -> clinic: refused, conflict, kept 5 came value(" in system.log()
    assert "tell visit#1/admit.1:r1" in system.log()
    assert "reply=\"conflict\"" in (system.folder / "post.prom").read_text(encoding="utf-8")


@pytest.mark.parametrize("kind", frames.REFUSED)
def test_each_refusal_is_told_counted_and_passed_by(make: Make, kind: int) -> None:
    """An office that refuses its first letter and takes the others: none is carried again."""
    system = make(CLINIC)
    system.nodes["clinic"].start()
    with refusing(system.nodes["lab"].port, kind) as pushed:
        for case in (1, 2):
            system.choose("start visit %d" % case)
            system.choose("choose visit#%d admit {\"Ada\", 7, glucose}" % case)
        system.start_post()
        until(lambda: system.number("aw_post_letters_refused_total") == 1, "the refusal is not counted")
        until(lambda: system.number("aw_post_letters_carried_total") == len(system.all_of("clinic", frames.PULL)) - 1, "not every other letter is carried")
    assert len(pushed) == len(set(pushed)) == len(system.all_of("clinic", frames.PULL))
    name = frames.REFUSED[kind]
    assert system.log().count("clinic -> lab: refused, %s: call visit#1/admit.1" % name) == 1 and pushed[0].hex() in system.log()
    assert "reply=\"%s\"} 1\n" % name.replace(" ", "_") in (system.folder / "post.prom").read_text(encoding="utf-8")


@contextlib.contextmanager
def refusing(port: int, kind: int) -> Iterator[list[bytes]]:
    """A server at a port, with no letters of its own, that refuses the first letter and takes the others; the letters that were pushed to it."""
    pushed: list[bytes] = []

    def reply(request: int, payload: bytes) -> bytes:
        if request == frames.PULL:
            return frames.frame(frames.NONE, bytes(8))
        pushed.append(payload)
        return frames.frame(kind if len(pushed) == 1 else frames.NEW, b"")

    def serve(server: socket.socket) -> None:
        while True:
            try:
                with server.accept()[0] as peer:
                    data = bytearray()
                    while piece := peer.recv(1 << 16):
                        data += piece
                        while (request := frames.split(data)) is not None:
                            peer.sendall(reply(*request))
            except ConnectionError:
                continue
            except OSError:
                return
    with socket.create_server(("127.0.0.1", port)) as server:
        threading.Thread(target=serve, args=(server,), daemon=True).start()
        try:
            yield pushed
        finally:
            server.shutdown(socket.SHUT_RDWR)


def client_words(system: System, text: str) -> tuple[int, bytes]:
    """A message, by its words."""
    role, data = client.Words(system.names, text).message()
    return role, data


def liar(port: int, reply: bytes) -> socket.socket:
    """A server at a port that answers each session with the same bytes."""
    server = socket.create_server(("127.0.0.1", port))

    def serve() -> None:
        while True:
            try:
                peer = server.accept()[0]
            except OSError:
                return
            try:
                peer.recv(1 << 16)
                peer.sendall(reply)
                peer.recv(1 << 16)
            except OSError:
                pass
            peer.close()
    threading.Thread(target=serve, daemon=True).start()
    return server


LIES = {
    "no kind of reply": b"\x63\0\0\0\0",
    "too long": b"\x07\xff\xff\xff\xff",
    "no message": frames.frame(frames.MESSAGE, b"\1\0\0\7"),
    "for no role": frames.frame(frames.MESSAGE, bytes.fromhex("01 0009 01 0000 0000000000000001 00 00 0001 0001")),
    "for itself": frames.frame(frames.MESSAGE, bytes.fromhex("01 0002 01 0000 0000000000000001 00 00 0001 0001")),
    "a reply to a push": frames.frame(frames.NEW, b""),
    "half a reply": b"\x07\0\0\0\x20abc",
}


def test_what_is_no_node_harms_nobody_else(make: Make) -> None:
    system = make(CLAIM)
    for role in ("front", "assessor"):
        system.nodes[role].start()
    system.start_post("--timeout", "1")
    port = system.nodes["payments"].port
    for case, (name, reply) in enumerate(LIES.items(), 1):
        failed = system.number("aw_post_office_failures_total")
        server = liar(port, reply)
        system.choose("start claim %d" % case)
        system.choose("choose claim#%d open_claim {1, \"storm\", 2, \"DK50\"}" % case)
        until(lambda: "claim#%d/open_claim.1" % case in "".join(system.items("assessor")), "%s: the assessor has no task" % name)
        until(lambda: system.number("aw_post_office_failures_total") > failed, "%s: nothing failed" % name)
        server.shutdown(socket.SHUT_RDWR)
        server.close()
    system.nodes["payments"].start()
    until(lambda: len(system.items("payments")) == 2 * len(LIES), "payments did not get its letters")
    assert system.post is not None and system.post.poll() is None
    assert "Traceback" not in system.log()


def test_another_outbox_is_carried_anew(make: Make) -> None:
    system = make(CLINIC)
    system.start()
    system.start_post()
    for case in (1, 2, 3):
        system.choose("start visit %d" % case)
        system.choose("choose visit#%d admit {\"Ada\", 7, glucose}" % case)
    until(lambda: not system.unsettled(), "the letters did not come")
    until(lambda: system.number("aw_post_letters_carried_total") > 3, "nothing is counted")
    until(system.carried, "not every letter is carried")
    for kept in (True, False):
        if not kept:
            system.kill_post()
        for node in system.nodes.values():
            node.kill()
            (node.folder / "workspace.journal").unlink()
        system.lines.clear()
        system.start()
        for case in (11,) if kept else range(21, 25):
            system.choose("start visit %d" % case)
            system.choose("choose visit#%d admit {\"Bob\", 8, haemoglobin}" % case)
        if not kept:
            system.start_post()
        until(lambda: not system.unsettled(), "the letters of the new outbox did not come")
        until(system.carried, "not every letter is carried")
        assert set(system.undelivered()) == {frames.AGAIN}
    assert "its outbox is another one" in system.log()


def test_a_restored_office_gets_its_letters_again(make: Make) -> None:
    system = make(CLINIC)
    system.start()
    system.start_post()
    lab = system.nodes["lab"]
    journal = lab.folder / "workspace.journal"

    def admit(case: int) -> None:
        system.choose("start visit %d" % case)
        system.choose("choose visit#%d admit {\"Ada\", 7, glucose}" % case)
        until(lambda: "visit#%d/admit.1 measure" % case in system.ready("lab"), "the letters did not come")
    admit(1)
    lab.kill()
    backup = journal.read_bytes()
    lab.start()
    admit(2)
    lab.kill()
    journal.write_bytes(backup)
    lab.start()
    assert not any(item.startswith("visit#2") for item in system.ready("lab"))
    system.kill_post()
    (system.folder / "places").unlink()
    system.start_post()
    until(lambda: not system.unsettled(), "the letters did not come again")
    until(system.carried, "not every letter is carried")
    assert set(system.undelivered()) == {frames.AGAIN} and ": refused, " not in system.log()


def test_two_posts_do_not_use_one_file(make: Make) -> None:
    system = make(CLINIC)
    system.start()
    system.start_post()
    until(lambda: system.number("aw_post_office_up") == 2, "the post has not begun")
    second = subprocess.run(["/usr/bin/python3", str(OFFICES / "aw_post"), str(system.spec), str(system.folder / "places")], capture_output=True, timeout=LONG)
    assert second.returncode == 75 and b"Another post uses" in second.stderr


def said(*words: str) -> tuple[int, str]:
    """How the post ends on some words, and what it tells."""
    done = subprocess.run(["/usr/bin/python3", str(OFFICES / "aw_post"), *words], capture_output=True, timeout=LONG, text=True)
    assert "Traceback" not in done.stderr
    return done.returncode, done.stderr


def test_words_that_are_wrong(make: Make) -> None:
    system = make(CLINIC)
    spec, places = str(system.spec), system.folder / "places"
    assert said()[0] == 2
    assert said(spec + "x", str(places))[0] == 66
    assert said(spec, str(places), "--office", "lab")[0] == 2
    assert said(spec, str(places), "--office", "lap=127.0.0.1:1")[0] == 2
    assert said(spec, str(places), "--office", "lab=127.0.0.1")[0] == 2
    assert said(spec, str(places), "--interval", "0")[0] == 2
    assert said(spec, str(system.folder / "none" / "places"))[0] == 73
    assert said(spec, str(places), "--metrics", "/dev/full")[0] == 73
    places.write_text("not places", encoding="utf-8")
    assert said(spec, str(places))[0] == 65
    system.spec.write_text("role a\nrole a\n", encoding="utf-8")
    status, text = said(spec, str(places))
    assert status == 65 and "bad specification line 2" in text
