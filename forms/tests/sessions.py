"""sessions.py PROGRAM: one session with a fresh node, in the words of examples/client.py; the replies as words.

Runs in a network of its own. The input is [role, specification, lines] in JSON.
"""
from __future__ import annotations

import json
import sys
from pathlib import Path

sys.dont_write_bytecode = True
sys.path.insert(0, str(Path(__file__).resolve().parent.parent.parent / "bench"))

import nodes  # noqa: E402

WORDS = {1: "new", 2: "again", 3: "conflict", 4: "not mine", 5: "bad name", 8: "too long", 9: "bad frame"}


def main() -> None:
    """Writes the replies, a line each."""
    role, text, lines = json.load(sys.stdin)
    names = nodes.Names(text)
    served = nodes.serve(sys.argv[1], ["node", role, "1"], text.encode(), [b"".join(nodes.request(names, line) for line in lines)])
    for reply in nodes.split(served.replies[0]):
        kind, payload = reply[0], reply[5:].decode("utf-8", "replace")
        print(" ".join(word for word in (WORDS.get(kind, ""), payload) if word))


if __name__ == "__main__":
    main()
