"""A core that issues its loads out of order, over a `dramsim.Memory`; it goes from event to event.

A program is a list of instructions, each the address that it loads, or None, and the instruction before it that it waits for, or None.
"""

from __future__ import annotations

import heapq
from typing import NamedTuple

import dramsim


class Instruction(NamedTuple):
    address: int | None = None
    after: int | None = None


class Core:
    """`window` instructions are in flight at most and retire in order; one load is sent in a cycle, with a credit for each."""

    def __init__(self, program: list[Instruction], *, window: int, link: int, credits: int) -> None:
        self.program, self.window, self.link, self.credits = program, window, link, credits
        self.done: dict[int, int] = {}
        self.tags: list[int] = []
        self.coming: list[tuple[int, int]] = []
        self.retired = 0

    def may_go(self, index: int, now: int) -> bool:
        after = self.program[index].after
        return index not in self.done and index not in self.tags and (after is None or self.done.get(after, now + 1) <= now)

    def step(self, memory: dramsim.Memory, now: int) -> bool:
        """A cycle: what has come, what retires, and what is issued. Whether a load was sent."""
        while self.coming and self.coming[0][0] <= now:
            arrival, tag = heapq.heappop(self.coming)
            if tag < 0:
                self.credits += 1
            else:
                self.done[self.tags[tag]] = arrival
        while self.retired < len(self.program) and self.done.get(self.retired, now + 1) <= now:
            self.retired += 1
        sent = False
        for index in range(self.retired, min(self.retired + self.window, len(self.program))):
            address = self.program[index].address
            if not self.may_go(index, now):
                continue
            if address is None:
                self.done[index] = now + 1
            elif not sent and self.credits > 0:
                # Loads are named by the order in which they are sent.
                memory.send(address, arrival=now + self.link, entry=len(self.tags))
                self.tags.append(index)
                self.credits -= 1
                sent = True
        return sent

    def next_event(self, memory: dramsim.Memory, now: int) -> int:
        """The next cycle that may change something: a load may go, something comes, a value is there, or the memory has acted before it."""
        events = [time for time in self.done.values() if time > now] + [time for time, _ in self.coming[:1]]
        act = memory.next_act()
        if act is not None:
            events.append(act + 1)
        if any(self.may_go(index, now + 1) for index in range(self.retired, min(self.retired + self.window, len(self.program)))):
            events.append(now + 1)
        return min(events)

    def run(self, memory: dramsim.Memory) -> int:
        """The cycle in which the last instruction retires."""
        now = 0
        while True:
            self.step(memory, now)
            if self.retired == len(self.program):
                return now
            now = self.next_event(memory, now)
            memory.run(now)
            for _, reply in memory.replies():
                heapq.heappush(self.coming, (reply.arrival, reply.entry if reply.kind == dramsim.ReplyKind.DATA else -1))
