"""What the tests share."""
from __future__ import annotations

import importlib
import io
import os
import subprocess
import sys
from pathlib import Path

import pytest

TOP = Path(__file__).resolve().parent.parent.parent
FORMS = TOP / "forms"
EXAMPLES = TOP / "examples"
LONG = 120.0 * float(os.environ.get("PATIENCE", "1"))
sys.dont_write_bytecode = True
sys.path.insert(0, str(FORMS))

from aw_forms import command  # noqa: E402
from aw_forms.program import Sorry, found  # noqa: E402


def pytest_configure(config: pytest.Config) -> None:
    """Without the program nothing can be compared: says so and ends."""
    try:
        os.environ["AW"] = str(found())
    except Sorry as sorry:
        pytest.exit("not run: %s" % sorry, 1)


def tool(name: str, *words: str, data: bytes = b"") -> subprocess.CompletedProcess[str]:
    """Runs one of the commands in this process, as it is run by itself, and takes what it writes."""
    module = importlib.import_module("aw_forms." + name.removeprefix("aw_"))
    kept = sys.argv, sys.stdin, sys.stdout, sys.stderr
    out, err = (io.TextIOWrapper(io.BytesIO(), encoding="utf-8", errors="surrogateescape", write_through=True) for _ in range(2))
    try:
        sys.argv, sys.stdin, sys.stdout, sys.stderr = [name, *words], io.TextIOWrapper(io.BytesIO(data)), out, err
        with pytest.raises(SystemExit) as end:
            command.run(name, module.main)
    finally:
        sys.argv, sys.stdin, sys.stdout, sys.stderr = kept
    read = [stream.buffer.getvalue().decode("utf-8", "surrogateescape") for stream in (out, err)]
    return subprocess.CompletedProcess(words, end.value.code, *read)


def spawned(name: str, *words: str, data: bytes = b"", **more: str) -> subprocess.CompletedProcess[str]:
    """Runs one of the commands as a user does."""
    done = subprocess.run([str(FORMS / name), *words], input=data, capture_output=True, timeout=LONG, check=False, env={**os.environ, **more})
    read = done.stdout.decode("utf-8", "surrogateescape"), done.stderr.decode("utf-8", "surrogateescape")
    assert "Traceback" not in read[1], read[1]
    return subprocess.CompletedProcess(words, done.returncode, *read)
