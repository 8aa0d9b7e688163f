"""The program that reads journals: what it says of the journals of nodes that run, that it changes none, and what it says of files that are none."""
from __future__ import annotations

import hashlib
import os
import re
import shutil
import subprocess
from collections.abc import Callable
from pathlib import Path

import pytest
from conftest import CLAIM, CLINIC, LONG, System, until
from systems import BOOK, begin_visits

from aw_offices import frames

Make = Callable[[str], System]
pytestmark = pytest.mark.skipif(not BOOK.is_file(), reason="not run: there is no aw_book at %s" % BOOK)


def book(*words: str | Path) -> tuple[int, list[str], list[str]]:
    """The status, the lines, and the sentences of a call."""
    ran = subprocess.run([str(BOOK), *map(str, words)], capture_output=True, timeout=LONG, check=False)
    return ran.returncode, ran.stdout.decode(errors="replace").splitlines(), ran.stderr.decode(errors="replace").splitlines()


@pytest.fixture(name="clinic")
def a_clinic(make: Make) -> System:
    """A clinic and its laboratory, three visits, one of them admitted and measured."""
    system = make(CLINIC)
    begin_visits(system)
    assert system.choose("choose visit#1/admit.1 measure {5}") == "taken"
    until(system.carried, "not every letter is carried")
    return system


def journal(system: System, role: str) -> Path:
    """The journal of a role."""
    return system.nodes[role].folder / "workspace.journal"


def test_events_are_the_choices_and_the_letters(clinic: System) -> None:
    """Line N is event N; of the choices there are just those that were taken, as they were sent."""
    for role in clinic.offices.roles:
        status, lines, sentences = book("events", journal(clinic, role))
        assert (status, sentences) == (0, [])
        chosen = [line for line in lines if not line.startswith("got ")]
        assert set(chosen) <= set(clinic.lines) and all(line.split()[1] in ("call", "ask", "tell") for line in lines if line.startswith("got "))
        assert len(chosen) == len(clinic.kept(role))
    all_chosen = [line for role in clinic.offices.roles for line in book("events", journal(clinic, role))[1] if not line.startswith("got ")]
    assert sorted(all_chosen) == sorted(clinic.lines)


def test_check_counts_and_digests_and_changes_nothing(clinic: System) -> None:
    """While the nodes run, and after one was killed."""
    for role in clinic.offices.roles:
        file = journal(clinic, role)
        before = file.read_bytes()
        status, lines, sentences = book("check", "--digest", file)
        word, name, _, events, _, size, _, behind, _, digest, *path = lines[0].split(" ")
        assert (status, sentences, name, " ".join(path)) == (0, [], role, str(file))
        assert word == "sound" and behind == "0"
        assert digest == hashlib.sha256(before[:int(size)]).hexdigest()
        assert int(events) == len(book("events", file)[1])
        assert file.read_bytes() == before


def test_the_specification_is_the_one_that_was_served(clinic: System) -> None:
    """What it writes is accepted, and is the text in the head."""
    file = journal(clinic, "lab")
    status, lines, _ = book("spec", file)
    data = file.read_bytes()
    assert status == 0
    assert "\n".join(lines) + "\n" == data[11:11 + int.from_bytes(data[3:11], "big")].decode()


def test_what_is_no_whole_journal_is_said_so(clinic: System, tmp_path: Path) -> None:
    """Cut, damaged, empty, headless; a folder, a pipe and a file that is not there. A fault stops no other file."""
    data = journal(clinic, "clinic").read_bytes()
    first_gate = 11 + int.from_bytes(data[3:11], "big")
    files = {"sound": data, "cut": data[:-1] + bytes([1, 0, 0]), "empty": b"", "headless": b"no journal", "damaged": data[:first_gate] + b"\0" + data[first_gate + 1:]}
    for word, content in files.items():
        (tmp_path / word).write_bytes(content)
    os.mkfifo(tmp_path / "pipe")
    status, lines, sentences = book("check", *(tmp_path / word for word in files), tmp_path, tmp_path / "pipe", tmp_path / "nobody")
    assert [line.split()[0] for line in lines[:5]] == list(files)
    assert status == 3 and len([line for line in sentences if str(tmp_path) in line]) >= 3
    assert all((tmp_path / word).read_bytes() == content for word, content in files.items())
    assert book("check", tmp_path / "sound", tmp_path / "cut", tmp_path / "empty")[0] == 0
    assert book("check", tmp_path / "damaged")[0] == book("check", tmp_path / "headless")[0] == 1


def records(data: bytes) -> list[bytes]:
    """The head of a journal with its gate, and each record that counts, as docs/JOURNAL.md has the file."""
    at = 11 + int.from_bytes(data[3:11], "big")
    parts = [data[:at]]
    while data[at] == 1:
        end = at + 9 + int.from_bytes(data[at + 1:at + 9], "big")
        parts.append(data[at:end])
        at = end
    return parts


def test_tasks_are_those_of_the_undivided_run(clinic: System) -> None:
    """All tasks, those of one case, the open ones, and the items of these alone."""
    assert clinic.joined()
    for role in clinic.offices.roles:
        file = journal(clinic, role)
        status, lines, sentences = book("tasks", file)
        assert (status, sentences) == (0, [])
        open_lines = book("tasks", "--open", file)[1]
        assert open_lines == [line for line in lines if line.startswith("item ") or line.split()[1] == "open"]
        cases = sorted({re.split("[/ ]", line.removeprefix("item "))[0] for line in lines})
        parts = [book("tasks", "--case", case, file)[1] for case in cases]
        assert sorted(line for part in parts for line in part) == sorted(lines) and len(cases) > 0
        assert all(re.split("[/ ]", line.removeprefix("item "))[0] == case for case, part in zip(cases, parts, strict=True) for line in part)
        items = {" ".join(line.split()[1:3]) for line in lines if line.startswith("item ")}
        assert {item.split()[0] for item in items} == {line.split()[0] for line in lines if not line.startswith("item ") and line.split()[1] == "open"}
    assert book("tasks", "--case", "visit", journal(clinic, "lab"))[0] == 2
    assert book("tasks", "--case", "visit#9", journal(clinic, "lab")) == (0, [], [])
    status, lines, sentences = book("tasks", "--case", "nothing#1", journal(clinic, "lab"))
    assert status == 1 and not lines and len(sentences) == 1


def test_tasks_are_followed(clinic: System, tmp_path: Path) -> None:
    """Each line is answered by what stands there then; a file that got shorter ends it."""
    file = tmp_path / "clinic.journal"
    file.write_bytes(journal(clinic, "clinic").read_bytes())
    with subprocess.Popen([str(BOOK), "tasks", "--follow", str(file)], stdin=subprocess.PIPE, stdout=subprocess.PIPE, stderr=subprocess.PIPE) as child:
        assert child.stdin and child.stdout and child.stderr

        def answer() -> list[str]:
            lines = list(iter(lambda: child.stdout.readline().decode().rstrip("\n"), ""))
            return lines
        first = answer()
        assert first == book("tasks", file)[1]
        assert clinic.choose("choose visit#2 admit {\"Ben\", 8, glucose}") == "taken"
        file.write_bytes(journal(clinic, "clinic").read_bytes())
        child.stdin.write(b"again\n")
        child.stdin.flush()
        second = answer()
        assert second == book("tasks", file)[1] != first
        file.write_bytes(file.read_bytes()[:40])
        child.stdin.write(b"\n")
        child.stdin.flush()
        assert answer() == [] and child.wait(LONG) == 3 and len(child.stderr.read().splitlines()) == 1


def test_an_event_that_is_none_is_named(clinic: System, tmp_path: Path) -> None:
    """A journal without its first event: the first one that needs it does not fit, and a node would not start."""
    data = journal(clinic, "clinic").read_bytes()
    parts = records(data)
    (tmp_path / "whole").write_bytes(data)
    (tmp_path / "broken").write_bytes(parts[0] + b"".join(parts[2:]) + data[len(b"".join(parts)):])
    assert book("check", "--redo", tmp_path / "whole")[0] == 0
    assert book("check", tmp_path / "broken")[0] == 0
    status, lines, sentences = book("check", "--redo", tmp_path / "broken")
    assert status == 1 and len(lines) == len(sentences) == 1 and lines[0].startswith("sound clinic events %d " % (len(parts) - 2))
    number = int(re.findall(r" event (\d+) ", sentences[0])[0])
    named = book("events", tmp_path / "broken")[1][number - 1]
    assert "visit#1" in named and not any("visit#1" in line for line in book("events", tmp_path / "broken")[1][:number - 1])
    status, lines, sentences = book("tasks", tmp_path / "broken")
    assert status == 1 and not lines and len(sentences) == 1 and " event %d " % number in sentences[0]


def test_a_journal_goes_on_from_an_older_copy(clinic: System, tmp_path: Path) -> None:
    """It does from what it was; not from what it becomes, and not from that of another office."""
    file = journal(clinic, "clinic")
    old, new = tmp_path / "old", tmp_path / "new"
    old.write_bytes(file.read_bytes())
    assert clinic.choose("choose visit#2 admit {\"Ben\", 8, glucose}") == "taken"
    new.write_bytes(file.read_bytes())
    (tmp_path / "set_back").write_bytes(old.read_bytes())
    (tmp_path / "cut").write_bytes(new.read_bytes()[:-1])
    (tmp_path / "head").write_bytes(records(new.read_bytes())[0] + b"\0")
    (tmp_path / "none").write_bytes(b"no journal")
    for older, newer, status in ((old, new, 0), (old, old, 0), (tmp_path / "head", new, 0), (new, old, 1), (old, tmp_path / "cut", 0), (new, tmp_path / "cut", 1),
                                 (journal(clinic, "lab"), new, 1), (tmp_path / "none", new, 1), (tmp_path / "nobody", new, 3), (tmp_path, new, 3)):
        got = book("check", "--begins-with", older, newer)
        assert (got[0], len(got[2])) == (status, 1 if status else 0), (older.name, newer.name, got)
    # Many files, each against the one copy.
    got = book("check", "--begins-with", old, new, tmp_path / "none", tmp_path / "set_back")
    assert got[0] == 1 and len(got[1]) == 3 and len(got[2]) == 1


def test_joined_journals_are_one_run(clinic: System) -> None:
    """While the nodes run: the joined text is replayed with nothing refused, and its end is what `cases` writes; of one case too."""
    files = [journal(clinic, role) for role in clinic.offices.roles]
    status, lines, sentences = book("join", "--settled", *files)
    assert (status, sentences) == (0, [])
    replayed = subprocess.run([os.environ["AW"], "replay"], input="".join(line + "\n" for line in lines).encode(), capture_output=True, timeout=LONG, check=True)
    told = replayed.stdout.decode().splitlines()
    answers = {line.rsplit(": ", 1)[1] for line in told if line.startswith(("start ", "choose ", "deliver "))}
    assert answers == {"taken", "new"}
    rows = told[next(at for at, line in enumerate(told) if line.startswith("artifacts ")) + 1:]
    assert book("cases", *files) == (0, rows, [])
    assert book("cases", "--open", *files)[1] == [row for row in rows if row.split(" ")[1] == "open"]
    assert book("cases", "--case", "visit#1", *files)[1] == [row for row in rows if row.split(" ")[0].split("/")[0] == "visit#1"]
    assert book("cases", "--case", "visit#9", *files) == (0, [], [])
    assert re.findall(r"^(?:start visit \d+|choose .*)$", "\n".join(book("join", "--case", "visit#2", *files)[1]), re.M) == ["start visit 2"]


def test_journals_of_all_roles_have_to_be_there_once(clinic: System, tmp_path: Path) -> None:
    """One that is missing, twice there, of another specification, or no journal at all; a role and a case that nobody declared."""
    first, lab = journal(clinic, "clinic"), journal(clinic, "lab")
    for words, said in (((first,), "no journal of lab is given"), ((first, lab, first), "it is a journal of clinic"), (("--without", "lab", first, lab), "which --without names"),
                        (("--without", "lab", first), "of which no journal is given"), (("--without", "nobody", first, lab), "no role nobody"),
                        (("--case", "nothing#1", first, lab), "no sort nothing")):
        status, lines, sentences = book("cases", *words)
        assert status == 1 and not lines and said in sentences[0], words
    assert book("join", "--case", "visit", first, lab)[0] == 2
    assert book("join", first, tmp_path)[0] == 3 and book("join", tmp_path / "none", lab)[0] == 3
    other = tmp_path / "other.journal"
    text = first.read_bytes()
    other.write_bytes(text[:1] + bytes([0, 1]) + text[3:])  # (the clinic's events, said to be the laboratory's)
    status, lines, sentences = book("join", first, other)
    assert status == 1 and not lines and sentences


def test_a_journal_that_was_set_back_is_named(clinic: System, tmp_path: Path) -> None:
    """By its copies too, which go on from their older copies where they were not."""
    files = {role: journal(clinic, role) for role in clinic.offices.roles}
    old = {role: tmp_path / (role + ".old") for role in files}
    for role, file in files.items():
        shutil.copyfile(file, old[role])
    assert clinic.choose("choose visit#2 admit {\"Bob\", 8, glucose}") == "taken"
    until(clinic.carried, "not every letter is carried")
    assert book("join", "--first", *old.values(), "--", *files.values())[0] == 0
    status, lines, sentences = book("join", old["clinic"], files["lab"])
    assert status == 1 and not lines and "came from clinic, and no event of %s sends it" % old["clinic"] in sentences[0]
    status, lines, _ = book("join", "--reach", old["clinic"], files["lab"])
    assert status == 1 and "choose visit#1/admit.1 measure {5}" in lines
    status, lines, sentences = book("join", "--first", *files.values(), "--", old["clinic"], files["lab"])
    assert status == 1 and not lines and sentences == ["aw_book: %s: it does not go on from the older copy" % old["clinic"]]


def test_a_copy_that_is_put_back_fits_again_where_the_same_is_chosen(clinic: System) -> None:
    """What the laboratory chose is gone with its journal, and the clinic has its letter; chosen once more, the journals fit."""
    system, file = clinic, journal(clinic, "lab")
    files = [journal(system, role) for role in system.offices.roles]
    data, line = file.read_bytes(), "choose visit#1/admit.1 measure {5}"
    front = b"".join(records(data)[:1 + book("events", file)[1].index(line)]) + b"\0"
    system.kill_post()
    system.nodes["lab"].kill()
    file.write_bytes(front)
    system.nodes["lab"].start()
    status, lines, sentences = book("join", *files)
    assert (status, lines) == (1, []) and "came from lab, and no event of %s sends it: it was forged, or that journal was set back" % file in sentences[0]
    assert book("join", "--reach", *files)[1]
    assert system.ask("lab", frames.CHOOSE, system.asked(line)[1])[0][1] == b"taken"
    assert book("join", *files)[::2] == (0, [])


def test_output_that_nobody_reads_is_told(clinic: System) -> None:
    """A closed pipe, and a full device."""
    for command in (["events"], ["tasks"], ["check"], ["spec"], ["join", str(journal(clinic, "lab"))], ["cases", str(journal(clinic, "lab"))]):
        words = [str(BOOK), *command, str(journal(clinic, "clinic"))]
        with open("/dev/full", "wb") as full:
            ran = subprocess.run(words, stdout=full, stderr=subprocess.PIPE, timeout=LONG, check=False)
        assert ran.returncode == 4 and len(ran.stderr.splitlines()) == 1, command
        left, right = os.pipe()
        os.close(left)
        ran = subprocess.run(words, stdout=right, stderr=subprocess.PIPE, timeout=LONG, check=False)
        os.close(right)
        assert ran.returncode == 4 and len(ran.stderr.splitlines()) == 1, command


def test_words_that_are_no_command() -> None:
    """A sentence and status 2; `--help` and `--version` are answered."""
    for words in ((), ("nothing",), ("check",), ("join",), ("events", "--digest", "x"), ("cases", "--settled", "x")):
        status, lines, sentences = book(*words)
        assert status == 2 and not lines and sentences
    assert book("--help")[0] == 0 and book("--version")[1] == ["aw_book " + (Path(__file__).parents[2] / "VERSION").read_text(encoding="utf-8").strip()]


def carry(system: System) -> None:
    """Carries all letters, in the same order each time."""
    subprocess.run([os.environ["AW"], "courier", "1000"], input=system.text.encode(), capture_output=True, timeout=LONG, check=True)


def test_the_page_shows_what_is_written(make: Make, tmp_path: Path) -> None:
    """Each box of the page, over the journals of the tutorial's offices: the front desk's once it took in a claim, and all three once that was denied."""
    system = make(CLAIM)
    system.start()
    assert system.choose("start claim 502") == "taken"
    for folder in ("front", "bin", "old", "copies"):
        (tmp_path / folder).mkdir()
    shutil.copyfile(journal(system, "front"), tmp_path / "front" / "workspace.journal")
    assert system.choose('choose claim#502 open_claim {88012, "scratched door", 300, "DK50 0040"}') == "taken"
    carry(system)
    shutil.copyfile(journal(system, "assessor"), tmp_path / "old" / "assessor.journal")
    for line in ('choose claim#502/open_claim.1 deny {"below the excess"}', "choose claim#502/open_claim.2 file_away"):
        assert system.choose(line) == "taken"
        carry(system)
    for role in system.offices.roles:
        shutil.copyfile(journal(system, role), tmp_path / "copies" / (role + ".journal"))
    for name, program in (("aw", os.environ["AW"]), ("aw_book", BOOK)):
        (tmp_path / "bin" / name).symlink_to(program)
    page = (Path(__file__).parents[2] / "docs" / "BOOK.md").read_text(encoding="utf-8")
    boxes = [box for box in re.findall(r"(?ms)^```\n(.*?)^```$", page) if box.startswith("$ ")]
    commands = [part.split("\n", 1) for box in boxes for part in box[2:].split("\n$ ")]
    assert len(commands) >= 7
    for command, said in commands:
        ran = subprocess.run(["sh", "-c", command], cwd=tmp_path, capture_output=True, timeout=LONG, check=False, env={"PATH": "%s:/usr/bin:/bin" % (tmp_path / "bin")})
        shown, written = said.rstrip("\n").split("\n"), (ran.stdout + ran.stderr).decode().rstrip("\n").split("\n")
        assert shown == written, command
