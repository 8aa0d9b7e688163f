"""Clerks who see cases through the offices of a world: each choice is asked where it is for, in its turn, and again where it has to wait."""
from __future__ import annotations

import time
from collections import deque
from concurrent.futures import ThreadPoolExecutor

import living
from living import Step, World

AT_ONCE, PAUSE = 64, 0.3


class Clerks:
    """Cases on their way: what is due at each office, and what has to wait a little."""

    def __init__(self, world: World, at_once: int = AT_ONCE, beside: int = 1) -> None:
        self.world, self.at_once = world, at_once
        self.pool = ThreadPoolExecutor(beside) if beside > 1 else None
        self.queue: dict[str, deque[Step]] = {role: deque() for role in world.names.roles}
        self.later: deque[tuple[float, Step]] = deque()
        self.plans: dict[int, deque[str]] = {}
        self.begun = self.open = 0

    def lines_of(self, case: int) -> list[str]:
        """The choices of a case that is begun, in their order."""
        raise NotImplementedError

    def closed(self, case: int) -> None:
        """A case has no further choices."""

    def choose(self, role: str, steps: list[Step]) -> tuple[list[Step], list[Step], list[Step]]:
        """Asks for choices: those that are done, that have to wait, and that got no reply."""
        return self.world.choose(role, steps)

    def done(self, step: Step) -> None:
        """A choice was taken."""
        self.next(step.case)

    def begin(self, lines: list[str] | None = None) -> int:
        """Begins a case with these choices, or with those that are drawn."""
        self.begun += 1
        self.open += 1
        self.plans[self.begun] = deque(lines if lines is not None else self.lines_of(self.begun))
        self.next(self.begun)
        return self.begun

    def next(self, case: int) -> None:
        """Hands the next choice of a case to its office."""
        if not self.plans[case]:
            del self.plans[case]
            self.open -= 1
            self.closed(case)
            return
        self.due(living.step(self.world.text, self.world.names, case, self.plans[case].popleft()))

    def due(self, step: Step) -> None:
        """A choice is to be asked."""
        self.queue[step.role].append(step)

    def busy(self) -> bool:
        """Whether anything is still to be asked."""
        return bool(self.open or self.later or any(self.queue.values()))

    def work(self) -> bool:
        """Asks each office for some of what is due there, some offices beside each other; whether anything was asked."""
        now = time.monotonic()
        while self.later and self.later[0][0] <= now:
            step = self.later.popleft()[1]
            self.queue[step.role].append(step)
        due = [(role, [queue.popleft() for _ in range(min(self.at_once, len(queue)))]) for role, queue in self.queue.items() if queue]
        asked = (self.pool.map if self.pool else map)(lambda one: self.choose(*one), due)
        for (role, _), (done, late, rest) in zip(due, asked):
            self.queue[role].extendleft(reversed(rest))
            self.later.extend((time.monotonic() + PAUSE, step) for step in late)
            for step in done:
                self.done(step)
        return bool(due)
