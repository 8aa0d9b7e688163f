"""heads.py PROGRAM: for each pair of texts on the standard input, whether a kept node of each writes the same head into its journal.

Runs in a network of its own: a node listens at a port. The input is a list of [role, text, text] in JSON, the texts as characters for bytes.
"""
from __future__ import annotations

import json
import os
import socket
import struct
import subprocess
import sys
import tempfile
import time
from pathlib import Path

PORT = 7400
LONG = 30 * float(os.environ.get("PATIENCE", "1"))


def head(program: str, role: tuple[int, str], text: bytes) -> bytes:
    """The head of the journal of a node that was given a text."""
    with tempfile.TemporaryDirectory() as folder:
        node = subprocess.Popen([program, "node", role[1], "1", "kept"], cwd=folder, stdin=subprocess.PIPE, stdout=subprocess.PIPE)
        assert node.stdin is not None
        node.stdin.write(text)
        node.stdin.close()
        end = time.monotonic() + LONG
        while node.poll() is None and time.monotonic() < end:
            try:
                socket.create_connection(("127.0.0.1", PORT + role[0]), 5).close()
                break
            except OSError:
                time.sleep(0.005)
        node.wait(LONG)
        data = (Path(folder) / "workspace.journal").read_bytes()
    return data[:11 + struct.unpack_from(">Q", data, 3)[0]]


def main() -> None:
    """Writes the differing ones."""
    differing = []
    for number, (role, before, after) in enumerate(json.load(sys.stdin)):
        first, second = (head(sys.argv[1], tuple(role), text.encode("latin-1")) for text in (before, after))
        if first != second or not first:
            differing.append(number)
    print(json.dumps(differing))


if __name__ == "__main__":
    main()
