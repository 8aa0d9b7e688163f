"""Who may sit at the desk: a file with a line NAME:scrypt$N$R$P$SALT$HASH for each clerk."""
from __future__ import annotations

import base64
import hashlib
import hmac
import logging
import re
import secrets
from dataclasses import dataclass, field
from pathlib import Path

from aw_forms.program import Sorry

LOG = logging.getLogger("aw_desk")
NAME = re.compile(r"[^\s:\x00-\x1f]{1,64}")
KEPT = re.compile(r"scrypt(\$[0-9]{1,9}){3}\$[A-Za-z0-9+/=]*\$[A-Za-z0-9+/=]+")
COST, BLOCK, LANES, MOST_MEMORY = 1 << 15, 8, 1, 1 << 26
SHORTEST = 10


def hashed(password: str, salt: bytes, cost: int = COST, block: int = BLOCK, lanes: int = LANES) -> bytes:
    """What is kept of a password."""
    return hashlib.scrypt(password.encode("utf-8", "surrogateescape"), salt=salt, n=cost, r=block, p=lanes, maxmem=MOST_MEMORY, dklen=32)


def line_of(name: str, password: str) -> str:
    """The line of a clerk."""
    if not NAME.fullmatch(name):
        raise Sorry("%r can't be a clerk's name: 1 to 64 signs, none of them a blank or a colon." % name)
    if len(password) < SHORTEST:
        raise Sorry("The password has %d signs; take at least %d." % (len(password), SHORTEST))
    salt = secrets.token_bytes(16)
    return "%s:scrypt$%d$%d$%d$%s$%s" % (name, COST, BLOCK, LANES, base64.b64encode(salt).decode(), base64.b64encode(hashed(password, salt)).decode())


@dataclass(slots=True)
class Logins:
    """The clerks of a file, which is read again where it changed."""

    path: Path
    stamp: tuple[int, int] = (0, 0)
    lines: dict[str, str] = field(default_factory=dict)

    def read(self) -> None:
        """Reads the file where it changed."""
        try:
            now = self.path.stat()
            if (now.st_mtime_ns, now.st_size) == self.stamp:
                return
            found = {}
            for number, line in enumerate(self.path.read_text(encoding="utf-8").splitlines(), 1):
                if line.strip() and not line.startswith("#"):
                    name, colon, rest = line.partition(":")
                    if not colon or not KEPT.fullmatch(rest):
                        raise Sorry("%s: line %d is no line of a clerk; `aw_desk login NAME` writes one." % (self.path, number), 65)
                    found[name] = rest
            self.lines, self.stamp = found, (now.st_mtime_ns, now.st_size)
        except (OSError, UnicodeDecodeError) as error:
            raise Sorry("%s, which says who may sit at the desk, can't be read: %s." % (self.path, error), 66) from None

    def read_again(self) -> None:
        """Reads the file where it changed; while it can't be read nobody is let in."""
        try:
            self.read()
        except Sorry as sorry:
            LOG.error("%s", sorry)
            self.lines, self.stamp = {}, (0, 0)

    def fits(self, name: str, password: str) -> bool:
        """Whether this is the password of a clerk. It takes the same time where there is no such clerk."""
        self.read_again()
        kept = self.lines.get(name, "scrypt$%d$%d$%d$%s$" % (COST, BLOCK, LANES, base64.b64encode(bytes(16)).decode()))
        try:
            _, cost, block, lanes, salt, sum_ = kept.split("$")
            made = hashed(password, base64.b64decode(salt), int(cost), int(block), int(lanes))
            return hmac.compare_digest(made, base64.b64decode(sum_)) and name in self.lines
        except ValueError:
            return False

    def has(self, name: str) -> bool:
        """Whether a clerk is still in the file."""
        self.read_again()
        return name in self.lines
