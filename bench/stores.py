#!/usr/bin/env python3
"""What the table of calls on two stores has to write: reads the part `stores` of crates/table_equations/stdin on standard input,
and knows nothing of the program. A store is a dict here; the answers that are counted are those of the dict."""

import re
import sys

sys.dont_write_bytecode = True
from draws import Draws



class Store:
    """A dict from references to bodies, and a set of names."""

    def __init__(self):
        self.bodies = {}
        self.names = set()
        self.calls = self.new = self.same = self.conflicts = self.circles = 0

    def name(self, refs):
        self.names.update(refs)

    def add(self, left, body, refs):
        if body[0] == "con" and len(refs) > 8:
            return
        if left not in self.bodies:
            self.name([left, *refs])
            self.bodies[left] = body
            self.new += 1
        elif self.bodies[left] == body:
            self.same += 1
        else:
            self.conflicts += 1

    def reserve(self, equations):
        if all(body[0] != "con" or len(refs) <= 8 for _, body, refs in equations):
            for left, _, refs in equations:
                self.name([left, *refs])

    def chase(self, at):
        if at not in self.names:
            return
        seen = set()
        while at in self.bodies and self.bodies[at][0] == "same":
            if at in seen:
                self.circles += 1
                return
            seen.add(at)
            at = self.bodies[at][1]

    def told(self):
        return (
            f"calls {self.calls}, answers alike; new {self.new}, same {self.same}, "
            f"conflicts {self.conflicts}, circles {self.circles}"
        )


class DrawnCalls(Draws):
    """The calls that are drawn from a seed."""

    def reference(self):
        start, case = self.draw(2), self.draw(20)
        steps = (self.draw(2),) if self.draw(2) else ()
        return start, case, steps, self.draw(4)

    def equation(self):
        left = self.reference()
        which = self.draw(8)
        if which < 5:
            to = self.reference()
            return left, ("same", to), [to]
        if which == 5:
            con = self.draw(3)
            parts = [self.reference() for _ in range(self.draw(4))]
            return left, ("con", con, tuple(parts)), parts
        return left, ("num" if which == 6 else "text", self.draw(3)), []

    def call(self, store):
        store.calls += 1
        which = self.draw(8)
        if which == 2:
            store.reserve([self.equation() for _ in range(self.draw(4))])
        elif 3 <= which <= 5:
            store.add(*self.equation())
        else:
            r = self.reference()
            if which == 0:
                store.name([r])
            elif which == 7:
                store.chase(r)


def equation_of(text):
    left, body = text.split(" = ", 1)
    if body.startswith('"'):
        return left, ("text", body), []
    if body.isdigit():
        return left, ("num", body), []
    if "(" in body:
        con, parts = re.fullmatch(r"(\w+)\((.*)\)", body).groups()
        parts = parts.split(", ")
        return left, ("con", con, tuple(parts)), parts
    if ":" in body:
        return left, ("same", body), [body]
    return left, ("con", body, ()), []


def run(store, line):
    verb, _, rest = line.partition(" ")
    if verb == "draw":
        count, seed = map(int, rest.split())
        draws = DrawnCalls(seed)
        for _ in range(count):
            draws.call(store)
        return
    store.calls += 1
    if verb == "name":
        store.name([rest])
    elif verb == "reserve":
        store.reserve([equation_of(part) for part in rest.split(" & ")])
    elif verb == "add":
        store.add(*equation_of(rest))
    elif verb == "chase":
        store.chase(rest)
    else:
        assert verb in ("slot", "read", "count"), line


def main():
    store = None
    part = sys.stdin.read().partition("+++ stores\n")[2].partition("+++ ")[0]
    for line in part.splitlines():
        if line.startswith("=== "):
            if store:
                print(store.told())
            print(line)
            store = Store()
        else:
            run(store, line)
    print(store.told())


main()
