"""Three nodes with what is asked of them in some sessions, for faults.py and cuts.py."""
import os
from dataclasses import dataclass

import inputs
import nodes


@dataclass
class Asked:
    """A node of a role, the lines of its sessions (see nodes.request), and bytes behind the last session's frames."""
    name: str
    text: bytes
    role: str
    lines: list
    behind: bytes = b""

    def sessions(self):
        names = nodes.Names(self.text.decode())
        found = [b"".join(nodes.requests(names, lines)) for lines in self.lines]
        return found[:-1] + [found[-1] + self.behind]


def example(name):
    with open(os.path.join(nodes.HERE, "..", "examples", name), "rb") as file:
        return file.read()


LAB = Asked("a laboratory is asked for a test", inputs.text(inputs.CLINIC), "lab", ["""
    push to lab call visit#1/admit.1 (visit#1:p2)
    pull 0
    list 0
    push to lab ask visit#1/admit.1:r1 from clinic
    push to lab tell visit#1:p2 = blood(visit#1:p1) with visit#1:p1 = "Ada"
    choose visit#1/admit.1 analyse {7}
    pull 1
    list 0
""", """
    choose visit#1/admit.1 skip
    push to lab call visit#1/admit.1 (visit#1:p2)
    push to lab tell visit#1:p1 = "Eve"
    push to clinic ask visit#1:r1 from lab
    push to lab call visit#2/admit.1 (visit#2:p2)
    choose visit#2/admit.1 skip
    pull 9
"""])

FRONT = Asked("a front desk with types", example("insurance-claim-typed.aw"), "front", ["""
    start claim 501
    list 0
    choose claim#501 open_claim {88012, "storm, roof", 12000, "DK50 0040"}
    start claim 501
    pull 0
""", """
    choose claim#502 open_claim {1, "a", 2, "b"}
    start claim 502
    choose claim#502 open_claim {unpaid, "a", 2, "b"}
    choose claim#502 open_claim {1, "scratched door", 300, "DK50 0040"}
    push to front tell claim#501/open_claim.1:r1 = granted(claim#501/open_claim.1:p1) with claim#501/open_claim.1:p1 = 9000
    push to front tell claim#501/open_claim.1:r1 = granted(claim#501/open_claim.1:p1)
    push to front ask claim#501:p1 from payments
    pull 1
    pull 8
"""], b"\x07")

PAYMENTS = Asked("payments wait, and are sent forged messages", example("insurance-claim.aw"), "payments", ["""
    push to payments call claim#1/open_claim.2 (claim#1:p5, claim#1/open_claim.1:r1)
    list 0
    push to payments call claim#2/open_claim.2 (claim#2:p5, claim#2/open_claim.1:r1)
    push to payments tell claim#1/open_claim.1:r1 = claim#1/open_claim.1:r1
    push to payments tell claim#1:p5 = account(claim#1:p4)
    list 0
""", """
    push to payments tell claim#2:p5 = account(claim#2:p5)
    push to payments tell claim#2/open_claim.1:r1 = claim#2/open_claim.1/inspect.2:r1
    list 2
    push to payments tell claim#2/open_claim.1/inspect.2:r1 = granted(claim#2/open_claim.1/inspect.2:r1)
    list 2
    choose claim#2/open_claim.2 pay
""", """
    choose claim#1/open_claim.2 pay
    push to payments ask claim#2/open_claim.2:r1 from front
    pull 3
    pull 4
    list 5
"""], b"\x03\x00\x00")

ASKED = [LAB, FRONT, PAYMENTS]
