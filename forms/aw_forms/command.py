"""What the commands share: their words, files, sentences for errors, and the version."""
from __future__ import annotations

import argparse
import contextlib
import os
import signal
import sys
from collections.abc import Callable
from pathlib import Path
from typing import NoReturn

from .program import TOP, Sorry

NO_FILE, NOT_WRITTEN = 66, 73
LONGEST = 16_777_216


class Words(argparse.ArgumentParser):
    """A parser of words that tells what is wrong in a sentence."""

    def error(self, message: str) -> NoReturn:
        """Ends with status 2."""
        tell("%s: %s; `%s --help` shows the words." % (self.prog, message, self.prog))
        raise SystemExit(2)


def version() -> str:
    """The version of the repository, where it tells one."""
    try:
        return (TOP / "VERSION").read_text(encoding="utf-8").strip() or "unknown"
    except OSError:
        return "unknown (there is no file VERSION)"


def parser(name: str, what: str, behind: str) -> Words:
    """A parser with what each command has."""
    words = Words(prog=name, description=what, epilog=behind, formatter_class=argparse.RawDescriptionHelpFormatter)
    words.add_argument("--version", action="version", version="%s %s" % (name, version()))
    return words


def read_file(name: str, most: int = LONGEST + 1) -> bytes:
    """The bytes of a file, or of the standard input where the name is `-`: all of them, or so many that no program takes them."""
    try:
        if name == "-":
            return sys.stdin.buffer.read(most)
        with open(name, "rb") as file:
            return file.read(most)
    except OSError as error:
        shown = "The standard input" if name == "-" else name
        raise Sorry("%s can't be read: %s." % (shown, (error.strerror or str(error)).lower()), NO_FILE) from None
    except ValueError as error:
        raise Sorry("%r can't be read: %s." % (name, error), NO_FILE) from None


def write_file(name: str, data: bytes) -> None:
    """Writes a file whole, or leaves it as it was; a link stays one. What is no plain file, as a pipe, is written as it is."""
    path = Path(os.path.realpath(name))
    beside = path.with_name(path.name + ".new-%d" % os.getpid())
    try:
        if os.path.exists(name) and not os.path.isfile(name):
            Path(name).write_bytes(data)
            return
        beside.write_bytes(data)
        beside.chmod(path.stat().st_mode & 0o7777 if path.exists() else 0o644)
        beside.replace(path)
    except OSError as error:
        with contextlib.suppress(OSError):
            beside.unlink(missing_ok=True)
        raise Sorry("%s can't be written: %s." % (name, (error.strerror or str(error)).lower()), NOT_WRITTEN) from None


def say(text: str) -> None:
    """Writes characters on the standard output as the bytes that were read."""
    sys.stdout.flush()
    sys.stdout.buffer.write(text.encode("utf-8", "surrogateescape"))
    sys.stdout.buffer.flush()


def run(name: str, work: Callable[[list[str]], int]) -> NoReturn:
    """Runs a command; whatever happens is told in a sentence."""
    open_streams()
    status = ended_with(name, lambda: worked(work))
    status = ended_with(name, lambda: written(status))
    raise SystemExit(status)


def worked(work: Callable[[list[str]], int]) -> int:
    """The work; from here on a signal ends it, and is told as all else is."""
    on_signals(signal.default_int_handler, signal.SIGINT)
    on_signals(ended, signal.SIGTERM, signal.SIGHUP)
    return work(sys.argv[1:])


def open_streams() -> None:
    """A standard stream that is closed is there and fails, so that no file takes its number."""
    for number, name in enumerate(("stdin", "stdout", "stderr")):
        if getattr(sys, name) is None:
            os.dup2(os.open(os.devnull, os.O_WRONLY if number != 1 else os.O_RDONLY), number)
            setattr(sys, name, open(number, "w" if number else "r", encoding="utf-8", errors="surrogateescape", closefd=False))


def on_signals(work: Callable[[int, object], object], *signs: signal.Signals) -> None:
    """What is done when a signal comes, but for those that whoever started the program has it pass over, as `nohup` does."""
    for sign in signs:
        if signal.getsignal(sign) is not signal.SIG_IGN:
            signal.signal(sign, work)


def ended(sign: int, _: object) -> NoReturn:
    """Ends as a signal says; what is open is closed, and what was begun beside is taken away."""
    raise SystemExit(128 + sign)


def written(status: int) -> int:
    """The status, once all that was said is written."""
    sys.stdout.flush()
    return status


def ended_with(name: str, work: Callable[[], int]) -> int:
    """The status of some work, whatever happens."""
    try:
        return work()
    except Sorry as sorry:
        tell("%s: %s" % (name, sorry))
        return sorry.status
    except SystemExit as end:
        return end.code if isinstance(end.code, int) else 0
    except BrokenPipeError:
        os.dup2(os.open(os.devnull, os.O_WRONLY), 1)
        return 0
    except KeyboardInterrupt:
        return 128 + signal.SIGINT
    except (RecursionError, MemoryError):
        tell("%s: The text is too large for this companion; the program itself can read it." % name)
        return 70
    except OSError as error:
        os.dup2(os.open(os.devnull, os.O_WRONLY), 1)
        tell("%s: %s can't be written: %s." % (name, error.filename or "The standard output", (error.strerror or str(error)).lower()))
        return NOT_WRITTEN


def tell(text: str) -> None:
    """A line on the standard error, where it can be written."""
    with contextlib.suppress(OSError):
        print(text, file=sys.stderr, flush=True)
