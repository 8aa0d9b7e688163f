"""Tunnels between three machines with the real programs: a case goes through all offices, and a stranger is refused."""
from __future__ import annotations

import os
import secrets
import shutil
import socket
import subprocess
from collections.abc import Callable, Iterator
from pathlib import Path

import pytest
from conftest import CLAIM, LONG, OFFICES, System, until
from machines import Machine, join

import client
from aw_offices import frames

Make = Callable[[str], System]
TUNNELS = OFFICES / "tunnels"
NEEDS = {"ssh": ["/usr/sbin/sshd", "ssh", "ssh-keygen"], "stunnel": ["stunnel4", "openssl"], "wireguard": ["wireguard-go", "wg", "wg-quick"]}
ENDS = {**os.environ, "PATH": "/usr/sbin:/usr/bin:/sbin:/bin"}
AFAR = {"assessor": 1, "payments": 2}


def filled(name: str, into: Path, **values: object) -> Path:
    """A recipe with its blanks filled in, in a file for its owner alone."""
    text = (TUNNELS / name).read_text(encoding="utf-8")
    for blank, value in values.items():
        text = text.replace("@%s@" % blank, str(value))
    assert "@" not in text.replace("root@", ""), text
    into.write_text(text, encoding="utf-8")
    into.chmod(0o700)
    return into


class Company:
    """Three machines: the front office with the post, and two offices afar, each behind a door for the front office's post."""

    def __init__(self, system: System) -> None:
        self.system, self.folder = system, system.folder
        self.machines = {role: Machine(role) for role in system.offices.roles}
        self.home = self.machines["front"]
        self.inner = {"front": "127.0.0.1", **{role: "127.0.0.1" for role in AFAR}}
        for role, net in AFAR.items():
            join(self.home, self.machines[role], net)
        system.machines = self.machines
        system.start()

    def door(self, role: str) -> int:
        """The port of the door of an office."""
        return 8400 + self.system.offices.roles.index(role)

    def open_door(self, role: str, address: str) -> None:
        """The door of an office, at an address of its machine."""
        with (self.folder / "guard.log").open("ab") as log:
            self.machines[role].run("/usr/bin/python3", str(OFFICES / "aw_guard"), str(self.system.spec), role, "post=%s:%d" % (address, self.door(role)),
                                    "--idle", str(LONG), stderr=log)
        until(lambda: self.machines[role].listens(self.door(role)), "the door of %s is not open" % role)

    def post(self, addresses: dict[str, str]) -> None:
        """The post, at the front office's machine; it is to tell soon where a tunnel carries nothing."""
        words = [word for role, address in addresses.items() for word in ("--office", "%s=%s" % (role, address))]
        self.system.start_post(*words, "--timeout", "10", before=self.home.words())

    def case(self, number: int) -> None:
        """A claim through all three offices."""
        system = self.system
        assert system.choose("start claim %d" % number) == "taken"
        assert system.choose("choose claim#%d open_claim {1, \"storm\", 12000, \"DK50\"}" % number) == "taken"
        for task, rule, fields in (("claim#%d/open_claim.1", "inspect", ""), ("claim#%d/open_claim.1/inspect.1", "find_repairable", " {7400}"),
                                   ("claim#%d/open_claim.1/inspect.2", "pay_repair", ""), ("claim#%d/open_claim.2", "pay", "")):
            role = "payments" if rule == "pay" else "assessor"
            until(lambda: "%s %s" % (task % number, rule) in system.ready(role), lambda: "%s cannot be chosen: %s" % (rule, system.log()[-2000:]))
            assert system.choose("choose %s %s%s" % (task % number, rule, fields)) == "taken"
        until(lambda: not system.unsettled() and system.carried(), lambda: "not every letter is carried: %s" % system.log()[-2000:])

    def journals(self) -> list[bytes]:
        """What the offices afar have kept."""
        return [(self.system.nodes[role].folder / "workspace.journal").read_bytes() for role in AFAR]

    def asked(self, address: tuple[str, int], data: bytes, wait: float = LONG) -> bytes:
        """The first reply at an address of the front office's machine, or nothing."""
        with self.home.inside():
            peer = socket.socket()
        with peer:
            peer.settimeout(wait)
            got = b""
            try:
                peer.connect(address)
                peer.sendall(data)
                while not (len(got) >= 5 and len(got) >= 5 + int.from_bytes(got[1:5], "big")) and (piece := peer.recv(1 << 16)):
                    got += piece
            except OSError:
                pass
            return got

    def end(self) -> None:
        """Ends the machines."""
        for machine in self.machines.values():
            machine.end()


@pytest.fixture
def company(make: Make, request: pytest.FixtureRequest) -> Iterator[Company]:
    if os.geteuid() != 0:
        pytest.skip("not run: networks that are joined need root")
    missing = [part for part in NEEDS[request.function.__name__.split("_")[1]] if shutil.which(part, path=ENDS["PATH"]) is None]
    assert not missing, "not run: %s is missing; `ci/setup offices` installs it" % ", ".join(missing)
    made = Company(make(CLAIM))
    try:
        yield made
    finally:
        made.end()


def keys(folder: Path, *names: str) -> dict[str, Path]:
    """Keys of ssh."""
    for name in names:
        subprocess.run(["ssh-keygen", "-q", "-t", "ed25519", "-N", "", "-C", name, "-f", str(folder / name)], check=True, timeout=LONG)
    return {name: folder / name for name in names}


def test_ssh(company: Company) -> None:
    folder, port = company.folder, 2222
    made = keys(folder, "host", "post", "stranger")
    Path("/run/sshd").mkdir(exist_ok=True)
    host = (folder / "host.pub").read_text(encoding="utf-8").split()[:2]
    known = folder / "known"
    known.write_text("".join("[10.77.%d.2]:%d %s\n" % (net, port, " ".join(host)) for net in AFAR.values()), encoding="utf-8")

    def tunnel(role: str, key: Path, known: Path) -> Path:
        return filled("ssh/tunnel", folder / ("tunnel-%s-%s" % (role, key.name)), DOOR=company.door(role), KNOWN_HOSTS=known, KEY=key, PORT=port, USER="root",
                      ADDRESS="10.77.%d.2" % AFAR[role])
    for role, net in AFAR.items():
        company.open_door(role, "127.0.0.1")
        allowed = filled("ssh/authorized_keys", folder / ("authorized-" + role), DOOR=company.door(role), PUBLIC_KEY=(folder / "post.pub").read_text(encoding="utf-8").strip())
        config = filled("ssh/sshd_config", folder / ("sshd-" + role), PORT=port, ADDRESS="10.77.%d.2" % net, HOST_KEY=made["host"], AUTHORIZED_KEYS=allowed, USER="root")
        company.machines[role].run("/usr/sbin/sshd", "-D", "-f", str(config), "-o", "StrictModes=no", "-o", "PermitRootLogin=prohibit-password", stderr=subprocess.DEVNULL)
        until(lambda: company.machines[role].listens(port), "no sshd at %s" % role)
        again = ("sh", "-c", "while :; do \"$0\"; sleep 0.2; done")  # (as systemd does where it ends)
        company.home.run(*again, str(tunnel(role, made["post"], known)), env=ENDS, stderr=subprocess.DEVNULL)
        until(lambda: company.home.listens(company.door(role)), "no tunnel to %s" % role)
    company.post({role: "127.0.0.1:%d" % company.door(role) for role in AFAR})
    company.case(1)
    before = company.journals()
    stranger = company.home.do(str(tunnel("assessor", made["stranger"], known)), check=False, env=ENDS)
    assert stranger.returncode == 255 and "Permission denied" in stranger.stderr
    false_host = folder / "false"
    false_host.write_text(known.read_text(encoding="utf-8").replace(host[1], (folder / "stranger.pub").read_text(encoding="utf-8").split()[1]), encoding="utf-8")
    other = company.home.do(str(tunnel("assessor", made["post"], false_host)), check=False, env=ENDS)
    assert other.returncode == 255 and "Host key verification failed" in other.stderr
    straight = tunnel("assessor", made["post"], known).read_text(encoding="utf-8")
    past = folder / "past-the-door"
    past.write_text(straight.replace(":127.0.0.1:8401", ":127.0.0.1:7401").replace("127.0.0.1:8401:", "127.0.0.1:8409:"), encoding="utf-8")
    past.chmod(0o700)
    company.home.run(str(past), env=ENDS, stderr=subprocess.DEVNULL)
    until(lambda: company.home.listens(8409), "the stranger has no tunnel")
    assert company.asked(("127.0.0.1", 8409), frames.place(frames.LIST, 0)) == b"", "the post's key leads to the door alone"
    refused_letters(company, ("127.0.0.1", company.door("assessor")))
    assert company.journals() == before


def refused_letters(company: Company, address: tuple[str, int]) -> None:
    """Behind the tunnel stands a door: the post can neither choose nor send in the office's own name."""
    names = company.system.names
    assert company.asked(address, frames.place(frames.LIST, 0)) == frames.frame(frames.BAD_FRAME, b"")
    _, own = client.Words(names, "to assessor tell claim#9/open_claim.1:r1 = denied(claim#9:p1)").message()
    assert company.asked(address, frames.frame(frames.PUSH, own)) == frames.frame(frames.BAD_FRAME, b"")


def certificates(folder: Path, *names: str) -> None:
    """Keys with certificates that they sign themselves."""
    for name in names:
        words = ["openssl", "req", "-x509", "-newkey", "ec", "-pkeyopt", "ec_paramgen_curve:prime256v1", "-nodes", "-days", "3650", "-subj", "/CN=" + name,
                 "-keyout", str(folder / (name + ".key")), "-out", str(folder / (name + ".pem"))]
        subprocess.run(words, check=True, capture_output=True, timeout=LONG)
        (folder / (name + ".key")).chmod(0o600)


def test_stunnel(company: Company) -> None:
    folder, port = company.folder, 9443
    certificates(folder, "assessor", "payments", "post", "stranger")

    def post_end(role: str, door: int, own: str, office: str) -> None:
        config = filled("stunnel/post.conf", folder / ("post-%d.conf" % door), DOOR=door, ADDRESS="10.77.%d.2" % AFAR[role], PORT=port,
                        POST_CERTIFICATE=folder / (own + ".pem"), POST_KEY=folder / (own + ".key"), OFFICE_CERTIFICATE=folder / (office + ".pem"))
        company.home.run("stunnel4", str(config), env=ENDS, stdout=subprocess.DEVNULL, stderr=subprocess.DEVNULL)
        until(lambda: company.home.listens(door), "no tunnel to %s" % role)
    for role, net in AFAR.items():
        company.open_door(role, "127.0.0.1")
        config = filled("stunnel/office.conf", folder / (role + ".conf"), ADDRESS="10.77.%d.2" % net, PORT=port, DOOR=company.door(role),
                        OFFICE_CERTIFICATE=folder / (role + ".pem"), OFFICE_KEY=folder / (role + ".key"), POST_CERTIFICATE=folder / "post.pem")
        company.machines[role].run("stunnel4", str(config), env=ENDS, stdout=subprocess.DEVNULL, stderr=subprocess.DEVNULL)
        until(lambda: company.machines[role].listens(port), "no stunnel at %s" % role)
        post_end(role, company.door(role), "post", role)
    company.post({role: "127.0.0.1:%d" % company.door(role) for role in AFAR})
    company.case(1)
    before = company.journals()
    pull = frames.place(frames.PULL, 0)
    assert company.asked(("127.0.0.1", company.door("assessor")), pull)[0] in (frames.MESSAGE, frames.NONE)
    post_end("assessor", 8408, "stranger", "assessor")
    assert company.asked(("127.0.0.1", 8408), pull) == b"", "a stranger's certificate is refused"
    post_end("assessor", 8409, "post", "stranger")
    assert company.asked(("127.0.0.1", 8409), pull) == b"", "an office that shows another certificate is refused"
    assert company.asked(("10.77.1.2", port), pull)[:1] not in (bytes([frames.MESSAGE]), bytes([frames.NONE])), "without a certificate nothing is said"
    refused_letters(company, ("127.0.0.1", company.door("assessor")))
    assert company.journals() == before


def wireguard_keys(*names: str) -> dict[str, str]:
    """Private keys by name, and public ones by the name with a `+` behind."""
    made = {}
    for name in names:
        made[name] = subprocess.run(["wg", "genkey"], check=True, capture_output=True, text=True, timeout=LONG).stdout.strip()
        made[name + "+"] = subprocess.run(["wg", "pubkey"], input=made[name], check=True, capture_output=True, text=True, timeout=LONG).stdout.strip()
    return made


def test_wireguard(company: Company, request: pytest.FixtureRequest) -> None:
    folder, port, name = company.folder, 51820, "aw" + secrets.token_hex(4)
    request.addfinalizer(lambda: [path.unlink() for path in Path("/var/run/wireguard").glob(name + "*.sock")])  # (they are the machine's)
    made = wireguard_keys("assessor", "payments", "post", "stranger")
    quick = {**ENDS, "WG_QUICK_USERSPACE_IMPLEMENTATION": "wireguard-go", "LOG_LEVEL": "error"}

    def up(machine: Machine, config: Path) -> None:
        with (folder / "wg.log").open("ab") as log:  # (what it starts goes on, and keeps what it was given)
            done = machine.run("wg-quick", "up", str(config), env=quick, stdout=log, stderr=log).wait(LONG)
        assert done == 0, (folder / "wg.log").read_text(encoding="utf-8")
    post = filled("wireguard/post.conf", folder / (name + "p.conf"), POST_KEY=made["post"], POST_INNER="10.78.0.100")
    for role, net in AFAR.items():
        config = filled("wireguard/office.conf", folder / ("%s%d.conf" % (name, net)), OFFICE_KEY=made[role], INNER="10.78.0.%d" % net, PORT=port,
                        POST_PUBLIC=made["post+"], POST_INNER="10.78.0.100")
        up(company.machines[role], config)
        company.open_door(role, "10.78.0.%d" % net)
        peer = filled("wireguard/post-peer.conf", folder / "peer.conf", OFFICE_PUBLIC=made[role + "+"], INNER="10.78.0.%d" % net, ADDRESS="10.77.%d.2" % net, PORT=port)
        with post.open("a", encoding="utf-8") as file:
            file.write(peer.read_text(encoding="utf-8"))
    up(company.home, post)
    company.post({role: "10.78.0.%d:%d" % (net, company.door(role)) for role, net in AFAR.items()})
    company.case(1)
    before = company.journals()
    address = ("10.78.0.%d" % AFAR["assessor"], company.door("assessor"))
    refused_letters(company, address)
    stranger = folder / "stranger.key"
    stranger.write_text(made["stranger"], encoding="utf-8")
    company.home.do("wg", "set", name + "p", "private-key", str(stranger))
    until(lambda: "assessor: nobody answers" in company.system.log() or "assessor: no byte" in company.system.log(), "the stranger's silence is not told")
    assert company.asked(address, frames.place(frames.PULL, 0), 3) == b"", "a stranger's key is answered by silence"
    assert company.asked(("10.77.1.2", company.door("assessor")), frames.place(frames.PULL, 0), 3) == b"", "the door is open within the tunnel alone"
    assert company.journals() == before
    stranger.write_text(made["post"], encoding="utf-8")
    company.home.do("wg", "set", name + "p", "private-key", str(stranger))
    company.case(2)
