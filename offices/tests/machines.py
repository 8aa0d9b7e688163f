"""Machines of their own: network namespaces that are joined by cables."""
from __future__ import annotations

import contextlib
import ctypes
import os
import signal
import subprocess
from collections.abc import Iterator
from pathlib import Path

from systems import LONG, until

LIBC = ctypes.CDLL(None, use_errno=True)
NETWORK = 0x40000000


class Machine:
    """A network of its own, as long as its first process lives. All but the network is shared."""

    def __init__(self, name: str) -> None:
        self.name = name
        self.init = subprocess.Popen(["unshare", "-n", "sleep", "infinity"])
        until(lambda: self.network() != os.readlink("/proc/self/ns/net"), "%s has no network" % name)
        self.own = self.network()
        self.running: list[subprocess.Popen[bytes]] = []
        self.do("ip", "link", "set", "lo", "up")

    def network(self) -> str:
        """The network of its first process."""
        return os.readlink("/proc/%d/ns/net" % self.init.pid)

    def words(self, *words: str) -> list[str]:
        """A command in this network."""
        return ["nsenter", "-t", str(self.init.pid), "-n", *words]

    def do(self, *words: str, check: bool = True, **more: object) -> subprocess.CompletedProcess[str]:
        """Runs a command to its end."""
        return subprocess.run(self.words(*words), capture_output=True, text=True, timeout=LONG, check=check, **more)  # type: ignore[call-overload,no-any-return]

    def run(self, *words: str, **more: object) -> subprocess.Popen[bytes]:
        """Runs a program that ends with the machine."""
        process = subprocess.Popen(self.words(*words), **more)  # type: ignore[call-overload]
        self.running.append(process)
        return process

    def listens(self, port: int) -> bool:
        """Whether somebody listens at a port, at whatever address."""
        lines = Path("/proc/%d/net/tcp" % self.init.pid).read_text(encoding="ascii").splitlines()[1:]
        return any(line.split()[3] == "0A" and int(line.split()[1].split(":")[1], 16) == port for line in lines)

    @contextlib.contextmanager
    def inside(self) -> Iterator[None]:
        """Sockets that this process opens in here are this machine's."""
        with open("/proc/self/ns/net", "rb") as own, open("/proc/%d/ns/net" % self.init.pid, "rb") as other:
            assert LIBC.setns(other.fileno(), NETWORK) == 0
            try:
                yield
            finally:
                assert LIBC.setns(own.fileno(), NETWORK) == 0

    def killed(self) -> int:
        """Kills every process that is here; how many there were."""
        count = 0
        for entry in Path("/proc").glob("[0-9]*"):
            with contextlib.suppress(OSError):
                if os.readlink(entry / "ns" / "net") == self.own:
                    os.kill(int(entry.name), signal.SIGKILL)
                    count += 1
        return count

    def end(self) -> None:
        """Ends all that runs here, also what goes on behind a command that ended, and what such a process begins meanwhile."""
        until(lambda: not self.killed(), "processes of %s do not end" % self.name)
        for process in [*self.running, self.init]:
            process.kill()
            process.wait()


def join(one: Machine, other: Machine, net: int) -> None:
    """A cable between two machines, with the addresses 10.77.NET.1 and 10.77.NET.2."""
    names = ["awv%d" % net, "aww%d" % net]
    subprocess.run(["ip", "link", "add", names[0], "netns", str(one.init.pid), "type", "veth", "peer", "name", names[1], "netns", str(other.init.pid)], check=True)
    for number, (machine, name) in enumerate(zip((one, other), names, strict=True), 1):
        machine.do("ip", "addr", "add", "10.77.%d.%d/24" % (net, number), "dev", name)
        machine.do("ip", "link", "set", name, "up")
