"""Where offices are reached: HOST:PORT, or the path of a socket."""
from __future__ import annotations

import os
import socket
from dataclasses import dataclass

from aw_forms.program import Sorry

from .specification import FIRST_PORT, Offices


@dataclass(frozen=True, slots=True)
class Address:
    """A host with a port, or, with no host, a path."""

    host: str
    port: int
    path: str = ""

    def __str__(self) -> str:
        return self.path or ("[%s]:%d" if ":" in self.host else "%s:%d") % (self.host, self.port)

    def dial(self, wait: float) -> socket.socket:
        """A connection, within some seconds."""
        if not self.path:
            return socket.create_connection((self.host, self.port), timeout=wait)
        peer = socket.socket(socket.AF_UNIX)
        try:
            peer.settimeout(wait)
            peer.connect(self.path)
        except OSError:
            peer.close()
            raise
        return peer

    def listen(self) -> socket.socket:
        """A listening socket; one of the file system is for its owner and group, and takes the place of one that nobody serves."""
        if not self.path:
            family = socket.AF_INET6 if ":" in self.host else socket.AF_INET
            return socket.create_server((self.host, self.port), family=family, backlog=64)
        server = socket.socket(socket.AF_UNIX)
        try:
            self.clear()
            before = os.umask(0o117)
            try:
                server.bind(self.path)
            finally:
                os.umask(before)
            server.listen(64)
        except OSError:
            server.close()
            raise
        return server

    def clear(self) -> None:
        """Takes away a socket that a program left which ended."""
        try:
            self.dial(1).close()
        except ConnectionRefusedError:
            os.unlink(self.path)
        except FileNotFoundError:
            return
        else:
            raise OSError(98, "another program listens there")


def address(text: str) -> Address:
    """The address that a text spells."""
    if "/" in text:
        return Address("", 0, text)
    host, _, port = text.rpartition(":")
    if not host or not port.isdigit() or not 0 < int(port) < 65536:
        raise Sorry("\"%s\" is no address; write HOST:PORT, as 127.0.0.1:7400, or the path of a socket with a `/` in it." % text)
    return Address(host.strip("[]"), int(port))


def standard(role: int) -> Address:
    """Where a node of a role listens."""
    return Address("127.0.0.1", FIRST_PORT + role)


def addresses(offices: Offices, given: list[str], pattern: str | None = None) -> list[Address]:
    """The address of each office: what words ROLE=ADDRESS say, else a pattern with its name, else where its node listens."""
    found = [address(pattern.replace("ROLE", name)) if pattern else standard(role) for role, name in enumerate(offices.roles)]
    for word in given:
        name, equals, where = word.partition("=")
        if not equals:
            raise Sorry("\"%s\" names no office and its address; write ROLE=ADDRESS." % word)
        found[offices.role(name)] = address(where)
    return found
