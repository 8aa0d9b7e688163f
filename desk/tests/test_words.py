"""The words of the command `aw_desk`, and its statuses."""
from __future__ import annotations

import subprocess
from collections.abc import Callable
from pathlib import Path

from conftest import CLAIM_TEXT, TOP, TYPED, Company
from systems import LONG

Make = Callable[[str], Company]


def test_words_that_are_wrong(company: Make, tmp_path: Path) -> None:
    made = company(TYPED)
    desk, state = str(TOP / "desk" / "aw_desk"), str(tmp_path / "state")

    def said(*words: str) -> tuple[int, str]:
        done = subprocess.run(["/usr/bin/python3", desk, *words], capture_output=True, timeout=LONG, text=True)
        assert "Traceback" not in done.stderr and done.stderr.count("\n") == 1, done.stderr
        return done.returncode, done.stderr
    spec, journal = str(made.system.spec), made.journal("front")
    assert said()[0] == 2 and said(spec)[0] == 2 and said(spec, journal, state, "--listen", "x")[0] == 2
    assert said(spec + "x", journal, state)[0] == 66
    assert said(spec, journal + "x", state)[0] == 65
    assert said(spec, spec, state)[0] == 65
    assert said(spec, journal, "/proc/none/state")[0] == 73
    assert said(spec, journal, state, "--listen", "0.0.0.0:8499")[0] == 2, "nobody unknown from outside"
    assert said(spec, journal, state, "--logins", str(tmp_path / "none"))[0] == 66
    (tmp_path / "logins").write_text("ada:password\n", encoding="utf-8")
    assert said(spec, journal, state, "--logins", str(tmp_path / "logins"))[0] == 65
    made.open_desk("front")
    assert said(spec, journal, state, "--listen", "127.0.0.1:%d" % made.port("front"))[0] == 69
    other = tmp_path / "other.aw"
    other.write_text(CLAIM_TEXT.replace("rule deny", "rule refuse"), encoding="utf-8")
    assert said(str(other), journal, state)[0] == 65
