"""Where aw_explain shows faults: each file of examples/faults at its place, and mistakes that people make in the examples."""
from __future__ import annotations

import re

import pytest

from conftest import EXAMPLES, tool

FAULTS = sorted(path for path in (EXAMPLES / "faults").rglob("*.aw") if ".mended." not in path.name)
PLACES = {
    "schedule/arity-no_parts": "10 memo", "schedule/arity": "10 memo(1, 2)", "schedule/form-empty_braces": "10 }", "schedule/form-no_braces": '10 "back"',
    "schedule/form-no_rule": "10 ", "schedule/form-number_behind_settle": "9 3", "schedule/form-start_of_a_node": "9 task#1", "schedule/form": "9 ",
    "schedule/limit": "10 9", "schedule/name-no_start_sort": "9 call", "schedule/name-not_declared": "9 visit", "schedule/name-position_2": "10 2",
    "schedule/name": "11 ring", "schedule/notstart": "9 call", "schedule/token-leading_zero": "9 01", "schedule/token-position_0": "10 note.0",
    "schedule/token": "10 '", "schedule/type-constructor_for_a_text": '11 memo("7")', "schedule/type": "11 7", "schedule/unknown-role": "9 lab",
    "schedule/unknown-rule": "10 call", "schedule/unknown-sort": "9 visit", "schedule/unknown": "10 back",
    "specification/arity-arguments_of_a_child": "4 call", "specification/arity-dependence_counted_from_0": "5 0",
    "specification/arity-dependence_of_a_second_value": "5 2", "specification/arity-names_of_results": "4 call", "specification/arity-no_parts": "4 memo",
    "specification/arity-patterns": "3 task", "specification/arity-results": "3 task", "specification/arity-types_of_inherited_values": "6 call",
    "specification/arity-types_of_parts": "6 memo", "specification/arity": "4 memo(a, b)", "specification/circular-two_children": "5 b",
    "specification/circular": "6 y", "specification/clash-result_of_a_child": "5 ok", "specification/clash": "4 ok", "specification/double-carry": "6 task",
    "specification/double-dependence": "6 depends call 1 1", "specification/double-shape": "7 memo", "specification/double-start": "4 start task",
    "specification/double-type_num": "1 num", "specification/double-use": "5 use clinic test", "specification/double": "2 desk",
    "specification/form-carry_without_results": "6 ", "specification/form-comma_at_the_end": "3 )", "specification/form-dependence_with_one_number": "5 ",
    "specification/form-empty_braces": "3 }", "specification/form-no_angles": "3 ", "specification/form-no_child": "3 ",
    "specification/form-number_for_a_name": "1 7", "specification/form-shape_without_its_type": "6 ", "specification/form-unknown_first_word": "1 roles",
    "specification/form-word_too_many": "1 now", "specification/form": "1 ", "specification/inherits": "3 task", "specification/limit-nine_fields": "3 i",
    "specification/limit-nine_results": "2 9", "specification/limit": "1 9", "specification/never-argument_of_a_child": "4 x",
    "specification/never-misspelt_constructor": "4 okay", "specification/never": "3 x", "specification/notoffered": "6 test",
    "specification/notused-nor_offered": "5 test", "specification/notused": "6 test", "specification/order-carry_behind_a_dependence": "5 carry",
    "specification/order-shape_behind_a_carry": "7 shape", "specification/order-start_behind_a_use": "7 start",
    "specification/order-type_behind_a_shape": "6 type", "specification/order": "2 role", "specification/token-comment_behind_a_line": "1 % front",
    "specification/token-hyphen_in_a_name": "1 front-desk", "specification/token-leading_zero": "1 01", "specification/token-minus": "1 -1",
    "specification/token-text_not_closed": '3 "', "specification/token": "1 Desk", "specification/twice-field": "3 x", "specification/twice": "3 x",
    "specification/types-no_carry": "2 task", "specification/types-number_for_a_text": "7 7", "specification/types": "3 ok",
    "specification/unknown-before_twice": "2 call", "specification/unknown-child": "3 call", "specification/unknown-constructor": "3 memo",
    "specification/unknown-constructor_of_a_shape": "6 note", "specification/unknown-offer": "1 test", "specification/unknown-sort_of_a_carry": "5 letter",
    "specification/unknown-sort_of_a_dependence": "5 letter", "specification/unknown-start": "1 task", "specification/unknown-type_of_a_shape": "6 string",
    "specification/unknown-use": "3 lab", "specification/unknown": "1 desk",
}

# A mistake in an example: what is replaced by what, the kind that is told, what the caret is under, and a word of the help or of the words.
CLAIM, REVIEW, CLINIC = "insurance-claim-typed.aw", "editorial-review.aw", "clinical-test.aw"
MISTAKES = [
    (CLAIM, "role assessor", "role Assessor", "token", "Assessor", "`assessor`"),
    (CLAIM, "con granted 1", "con granted 1 % an amount", "token", "% an amount", "above this line"),
    (CLAIM, '"storm, roof"', "“storm, roof”", "token", "“", "plain quotation marks"),
    (CLAIM, "<granted(amount)>\n\n% Nothing is paid", "<grantd(amount)>\n\n% Nothing is paid", "unknown", "grantd", "did you mean `granted`"),
    (CLAIM, "rule grant {amount} :", "rule grant :", "never", "amount", "{amount}"),
    (CLAIM, "use front payment\n", "", "notused", "payment", "`use front payment`"),
    (CLAIM, "offer payment\n", "", "notoffered", "payment", "`offer payment`"),
    (CLAIM, "<letter(v, p)> =", "<letter(p, v)> =", "bad types rule open_claim at 0.out1", "p", "expected a `verdict`"),
    (CLAIM, "12000,", '"12000",', "type", '"12000"', "`12000` without"),
    (CLAIM, "(damage(policy, what, asked))<v> ;", "(damage(policy, what, asked)) ;", "form", ";", "`<`"),
    (CLAIM, "shape denied (text) verdict\n", "", "bad types con denied", "denied", "shape denied (TYPE) TYPE"),
    (CLAIM, "payment(account(iban), denied(why))<unpaid>", "payment(account(iban), denid(why))<unpaid>", "unknown", "denid", "did you mean `denied`"),
    (CLAIM, "payment(account(iban), v)<p>", "payment(account(iban, v)<p>", "form", "<", "is a `)` missing"),
    (CLAIM, "decision(asked, found)<v>", "decision(found)<v>", "arity", "decision", "given 2 values"),
    (CLAIM, "carry payment (account, verdict)<payment>", "carry payment (account)<payment>", "arity", "payment", "given 2 values"),
    (CLAIM, "start claim\n", "start payment\n", "inherits", "payment", "`claim`"),
    (CLAIM, "{7400}", "{74.00}", "token", "74.00", "cents"),
    (CLAIM, "{7400}", "{-7400}", "token", "-7400", "negative"),
    (CLAIM, "{7400}", "{2026-11-20}", "token", "2026-11-20", '`"2026-11-20"`'),
    (CLAIM, "start claim 501", "start claim 0501", "token", "0501", "`501`"),
    (CLAIM, "open_claim.2 pay\n", "open_claim.3 pay\n", "name", "3", "2 subtasks"),
    (CLAIM, "open_claim.1/inspect.1 find", "open_claim.1/grant.1 find", "name", "1", "no subtasks"),
    (CLAIM, "open_claim.1/inspect.1 find", "open_claim.2/inspect.1 find", "name", "inspect", "`payment`"),
    (CLAIM, "schedule\n", "", "form", "501", "`schedule` is missing"),
    (REVIEW, "<judgement(sound, remark)>\nrule first_doubts", "<judgement(sound, remark>\nrule first_doubts", "form", ">", "is a `)` missing"),
    (REVIEW, "decision(p, judgement(x, a), judgement(y, b))", "decision(p, judgement(x, a), judgement(x, b))", "twice", "x", "the other one"),
    (REVIEW, "rule turn_away {why}", "rule turn_away {rejected}", "clash", "rejected", "constructor"),
    (REVIEW, "con sound 0\n", "", "never", "sound", "nothing says"),
    (REVIEW, "start submission\n", "start submission\ncon late 0\n", "order", "con", "above line"),
    (REVIEW, "paper(title, text))<judgement(sound", "paper(title))<judgement(sound", "arity", "paper(title)", "has 2 parts"),
    (REVIEW, "revision(p, remarks(a, b))<q> ; handling(q)<d>", "revision(q, remarks(a, b))<q> ; handling(q)<d>", "circular ask_revision at 1.in1", "q", "needs itself"),
    (CLINIC, "con no_test 0", "con no-test 0", "token", "no-test", "`no_test`"),
    (CLINIC, "con no_test 0", "con no_test", "form", "", "`con no_test 0`"),
    (CLINIC, "rule send_home", "rule admit", "double", "admit", "first declared here"),
    (CLINIC, "sort sample clinic 1 1", "sort sample klinic 1 1", "unknown", "klinic", "did you mean `clinic`"),
    (CLINIC, "sample(redraw(what, why))<t> ;", "sample(redraw(what, why))<t> ,", "form", ",", "separated by `;`"),
    (CLINIC, "<r> = sample(", "<u> = sample(", "never", "u", "nothing says"),
    (CLINIC, "rule send_home {who}", "rule send_home {}", "form", "}", "leave the braces away"),
    (CLINIC, "rule admit {who, label, what}", "rule admit {who, label, what,}", "form", "}", "take the comma away"),
    (CLINIC, "rule reject {why} : test(x)<refused(why)>", "rule reject {why} : test(x)refused(why)", "form", "refused", "`<`"),
    (CLINIC, "rule reject {why} :", "rule reject why :", "form", "why", "`{why}`"),
    (CLINIC, '"Ada", 4711', "Ada, 4711", "token", "Ada", '`"Ada"`'),
    (CLINIC, "settle\n\n% Ada's", "setle\n\n% Ada's", "form", "setle", "did you mean `settle`"),
    (CLINIC, "list lab", "list lob", "unknown", "lob", "did you mean `lab`"),
]


def name_of(path) -> str:
    """How a file is called in the table."""
    return "%s/%s" % (path.parent.name, path.name[:-3])


def test_each_file_is_in_the_table() -> None:
    """A new file of faults is given its place here, too."""
    assert sorted(PLACES) == sorted(map(name_of, FAULTS))


def place_in(text: str, words: str) -> tuple[int, str, str]:
    """The line, what is under the caret, and the whole of a shown fault."""
    found = re.search(r"^ *--> \S+:(\d+):(\d+)$", words, re.MULTILINE)
    assert found, words
    number, column = int(found[1]), int(found[2])
    line = text.split("\n")[number - 1].rstrip("\r")
    carets = re.search(r"\^+", words)
    assert carets, words
    return number, line[column - 1:column - 1 + len(carets[0])], words


@pytest.mark.parametrize("path", FAULTS, ids=name_of)
def test_each_fault_has_its_place(path) -> None:
    """The program's line first, then the place of the table, and what to do."""
    done = tool("aw_explain", str(path))
    stored = next(path.with_suffix(end) for end in (".check", ".replay") if path.with_suffix(end).exists()).read_text().split("\n")[0]
    number, under, words = place_in(path.read_text(), done.stdout)
    assert done.stdout.startswith(stored + "\n") and done.returncode in (3, 4, 5, 15) and done.stderr == ""
    assert "%d %s" % (number, under) == PLACES[name_of(path)], words


@pytest.mark.parametrize("path", FAULTS, ids=name_of)
def test_editors_get_one_line(path) -> None:
    """FILE:LINE:COLUMN: kind: words"""
    done = tool("aw_explain", "--format=line", str(path))
    assert re.fullmatch(r"\S+\.aw:\d+:\d+: [a-z][a-z0-9_ .]*: .+\n", done.stdout), done.stdout


@pytest.mark.parametrize("mistake", MISTAKES, ids=lambda mistake: "%s-%s" % (mistake[0].split(".")[0], re.sub(r"\W+", "_", mistake[2] or mistake[1])[:40]))
def test_mistakes_that_people_make(mistake, tmp_path) -> None:
    """Kind, place and mend of a mistake in an example."""
    name, before, after, kind, under, said = mistake
    text = (EXAMPLES / name).read_text()
    assert before in text
    path = tmp_path / "form.aw"
    path.write_text(text.replace(before, after, 1))
    done = tool("aw_explain", str(path))
    first = done.stdout.split("\n")[0]
    _, shown, words = place_in(path.read_text(), done.stdout)
    assert first == kind or first.endswith(" " + kind), words
    assert shown == under and said in words, words


def test_an_accepted_text_is_passed() -> None:
    """Nothing to say, status 0; with a command the program's own words."""
    path = str(EXAMPLES / "task-note.aw")
    assert (tool("aw_explain", path).stdout, tool("aw_explain", path).returncode) == ("%s: the program finds no fault\n" % path, 0)
    assert tool("aw_explain", "replay", path).stdout.endswith("\n") and "artifacts" in tool("aw_explain", "replay", path).stdout
    assert tool("aw_explain", "--format=line", path).stdout == ""


def test_what_check_warns_of_is_shown() -> None:
    """A ring of waiting, and a role that exceeds what it declared."""
    ring = tool("aw_explain", str(EXAMPLES / "tutorial" / "waiting.aw"))
    assert "wait circle open_claim at 1.in1" in ring.stdout and "the way round has 4 steps" in ring.stdout and ring.returncode == 0
    text = (EXAMPLES / "tutorial" / "apart.aw").read_text().replace("depends payment 1 1\n", "depends assessment 1 1\n")
    apart = tool("aw_explain", "check", "-", data=text.encode())
    assert "role payments exceeds payment 1 1" in apart.stdout and "add the line `depends payment 1 1`" in apart.stdout


def test_all_goes_on() -> None:
    """Further faulty lines are shown, each at its place, as the companion's own."""
    text = (EXAMPLES / CLAIM).read_text()
    for before, after in (("con account 1", "con account"), ("{7400}", "{74.00}"), ("denied(why))<unpaid>", "denid(why))<unpaid>")):
        text = text.replace(before, after)
    done = tool("aw_explain", "--all", "--format=line", "-", data=text.encode())
    assert [re.sub(r".*?:(\d+):(\d+): (\w+):.*", r"\3", line) for line in done.stdout.split("\n")[:-1]][0] == "form"
    assert "74.00" in tool("aw_explain", "--all", "-", data=text.encode()).stdout and "denid" in done.stdout
    assert "found by aw_explain alone" in tool("aw_explain", "--all", "-", data=text.encode()).stdout
