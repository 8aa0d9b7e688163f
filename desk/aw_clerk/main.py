"""The command `aw_desk`: pages for the case workers of one office."""
from __future__ import annotations

import argparse
import getpass
import logging
import signal
import sys
from pathlib import Path
from typing import NoReturn

from aw_forms import command
from aw_forms.program import Sorry
from aw_offices.addresses import Address, address
from aw_offices.spread import spread

from .desk import Desk
from .logins import Logins, line_of
from .pages import Pages
from .routes import application, secret_of
from .whole import Journals

NAME = "aw_desk"
THREADS, FIRST_PORT = 8, 8400
SYSTEMS = "where cases lie that are spread by their number: a line of FILE is FIRST LAST WHERE, and WHERE is `here` or the address of another system's desk"
TEMPLATES = Path(__file__).resolve().parent / "templates"
BEHIND = """
  aw_desk SPECIFICATION JOURNAL STATE    serves the pages of the office whose node keeps the journal
  aw_desk login NAME                     asks for a password, and writes a line for the file of --logins

The desk shows what `aw_book` says of the journal and sends choices to the office's node; it writes nothing but its own notes, in the
folder STATE: who decided what and when. SPECIFICATION is the file with which the node was started; comments above its lines are shown as help.

statuses
  0   ended by SIGTERM or SIGINT
  2   the words are none of these
  65  the specification, the journal or the file of logins is not what it should be
  66  a file can't be read
  69  aw_book is not there, or the address is taken
  73  the desk's notes can't be written
"""


def words_of(given: list[str]) -> argparse.Namespace:
    """The words of the command."""
    parser = command.parser(NAME, "Pages for the case workers of one office.", BEHIND)
    parser.add_argument("specification", help="the specification that the node was started with")
    parser.add_argument("journal", help="the journal that the office's node keeps")
    parser.add_argument("state", help="a folder for the desk's own notes")
    parser.add_argument("--listen", metavar="HOST:PORT", help="where the pages are (127.0.0.1, and the port 8400 and the number of the role)")
    parser.add_argument("--node", metavar="ADDRESS", help="where the node is, HOST:PORT or the path of a socket (127.0.0.1 and the port of its role)")
    parser.add_argument("--logins", metavar="FILE", help="who may sit at the desk: lines that `aw_desk login NAME` writes")
    parser.add_argument("--systems", metavar="FILE", help=SYSTEMS)
    parser.add_argument("--journals", nargs="+", default=[], metavar="FILE", help="the journals of all offices, for a desk that may show whole cases")
    parser.add_argument("--without", action="append", default=[], metavar="ROLE", help="behind --journals: an office that has no journal, since it never served")
    return parser.parse_args(given)


def terminal_words(name: str, given: list[str], behind: str) -> argparse.Namespace:
    """The words of the desk in a terminal."""
    parser = command.parser(name, "The desk of one office in a terminal.", behind)
    parser.add_argument("specification", help="the specification that the node was started with")
    parser.add_argument("journal", help="the journal that the office's node keeps")
    parser.add_argument("state", help="a folder for the desk's own notes")
    parser.add_argument("--node", metavar="ADDRESS", help="where the node is, HOST:PORT or the path of a socket (127.0.0.1 and the port of its role)")
    parser.add_argument("--systems", metavar="FILE", help=SYSTEMS)
    parser.add_argument("--clerk", default=getpass.getuser(), metavar="NAME", help="whose decisions these are (%(default)s)")
    return parser.parse_args(given)


def opened(words: argparse.Namespace, journals: Journals) -> Desk:
    """The desk that some words name."""
    state = Path(words.state)
    try:
        state.mkdir(mode=0o700, parents=True, exist_ok=True)
    except OSError as error:
        raise Sorry("The folder %s for the desk's notes can't be made: %s." % (state, (error.strerror or str(error)).lower()), 73) from None
    return Desk(words.specification, words.journal, state, address(words.node) if words.node else None, journals, spread(words.systems))


def login(given: list[str]) -> int:
    """Writes the line of a clerk."""
    if len(given) != 1:
        raise Sorry("Write `aw_desk login NAME`.")
    if sys.stdin.isatty():
        first, second = getpass.getpass("Password: "), getpass.getpass("Once more: ")
        if first != second:
            raise Sorry("The two are not the same; nothing was written.", 1)
    else:
        first = sys.stdin.readline().rstrip("\n")
    print(line_of(given[0], first))
    return 0


def ended(*_: object) -> NoReturn:
    """Ends where the system says so."""
    raise SystemExit(0)


def main(given: list[str]) -> int:
    """Serves the pages."""
    if given[:1] == ["login"]:
        return login(given[1:])
    words = words_of(given)
    where = address(words.listen) if words.listen else Address("127.0.0.1", FIRST_PORT)
    if where.path:
        raise Sorry("A desk listens at HOST:PORT.")
    logins = Logins(Path(words.logins)) if words.logins else None
    if logins is not None:
        logins.read()
    elif where.host not in ("127.0.0.1", "::1", "localhost"):
        raise Sorry("A desk that others can reach needs --logins FILE; `aw_desk login NAME` writes its lines.")
    desk = opened(words, Journals(words.journals, words.without))
    port = where.port if words.listen else FIRST_PORT + list(desk.wording.spec.roles).index(desk.role)
    signal.signal(signal.SIGTERM, ended)
    signal.signal(signal.SIGINT, ended)
    logging.basicConfig(stream=sys.stderr, level=logging.WARNING, format=NAME + ": %(message)s")
    try:
        return serve(Pages(desk, logins, TEMPLATES), secret_of(Path(words.state) / "secret"), where.host, port)
    finally:
        desk.close()


def serve(pages: Pages, secret: bytes, host: str, port: int) -> int:
    """Serves until the system says that it is enough."""
    try:
        from waitress import create_server  # type: ignore[import]
    except ImportError:
        raise Sorry("The library waitress is missing: apt-get install python3-waitress.", 69) from None
    try:
        server = create_server(application(pages, secret), host=host, port=port, threads=THREADS, ident=None, channel_timeout=60, connection_limit=200,
                               max_request_body_size=1 << 18)
    except OSError as error:
        raise Sorry("The desk can't listen at %s:%d: %s." % (host, port, (error.strerror or str(error)).lower()), 69) from None
    print("%s: the desk of %s is at http://%s:%d/" % (NAME, pages.desk.role, host, port), file=sys.stderr, flush=True)
    server.run()
    return 0
