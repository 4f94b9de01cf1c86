#!/usr/bin/env python3
"""A scheduler that keeps messages back as long as it can.

While a core can do an instruction no message moves. Once none can, the newest message goes on, so that the oldest waits longest. Which message there is
to move follows from what was answered: a sent message stands in the answer of the event that sent it. When all cores have ended the nodes
take a checkpoint, and its messages are kept back in the same way. In the end it prints which messages waited longest, and has the committed
trace judged. With --rules it asks instead what `run` would do in each worker's turn, for comparison.

    PYTHONPATH=python python3 python/examples/scheduler.py --nodes 3
"""
from __future__ import annotations

import random
import sys
from typing import List, Optional, Set

from safetynet import Answer, Event, Machine, SafetyNetError, assemble, check

from schedules import InFlight, address, parser

ADDITIONS = """
        lui     s0, 524289          # 80001000
        addi    t0, zero, 1
        amoadd.w t1, t0, (s0)
        addi    a7, zero, 93
        ecall                       # end with the core's number
"""


class Schedule:
    """A schedule that is found as the machine answers."""

    def __init__(self, machine: Machine, most: int, seed: int) -> None:
        self.machine = machine
        self.flight = InFlight()
        self.drawn = random.Random(seed)
        self.most = most
        self.waited: List["tuple[int, str]"] = []

    def apply(self, event: "Event | str") -> Answer:
        """Apply an event, and note what it sends and what it takes."""
        answer = self.machine.apply(event)
        if answer.name == "delivered":
            id = int(answer.event.operands()[0])
            self.waited.append((answer.place - self.flight.since[id], str(self.flight.messages[id]).strip()))
        self.flight.note(answer)
        return answer

    def is_over(self) -> bool:
        """Whether the events are used up."""
        return self.machine.mark() >= self.most

    def finish(self) -> None:
        """Have every instruction done, and then a checkpoint validated."""
        raise NotImplementedError


class Adversary(Schedule):
    """Keeps messages back."""

    def __init__(self, machine: Machine, most: int, seed: int) -> None:
        super().__init__(machine, most, seed)
        self.stuck: Set[int] = set()

    def step(self) -> bool:
        """Let a core do an instruction, if one can."""
        waiting = [node for node in range(self.machine.nodes) if node not in self.stuck]
        self.drawn.shuffle(waiting)
        for node in waiting:
            if self.apply(f"step {node}").name in ("retired", "missed"):
                return True
            self.stuck.add(node)
        return False

    def release(self) -> bool:
        """Let the newest message that can move go on, and whether one could."""
        for id in sorted(self.flight.messages, reverse=True):
            name = self.apply(f"deliver {id}").name
            if name == "notarrived":
                name = self.apply(f"hop {id}").name
            if name in ("delivered", "hopped"):
                self.stuck.clear()
                return True
        return False

    def finish(self) -> None:
        while not self.is_over() and (self.step() or self.release()):
            pass
        for node in range(self.machine.nodes):
            self.apply(f"edge {node}")
        for node in range(self.machine.nodes):
            self.apply(f"report {node}")
        while not self.is_over() and self.release():
            pass
        self.apply("validate")


class Rules(Schedule):
    """Does what `run` would do, its workers by turns."""

    def finish(self) -> None:
        worker = 0
        while not self.is_over():
            event = self.machine.due(worker, self.drawn.getrandbits(32))
            if event is None:
                return
            self.apply(event)
            worker = (worker + 1) % self.machine.nodes


def main() -> Optional[int]:
    words = parser("Keeps messages back as long as it can, and says which waited longest.")
    words.add_argument("program", nargs="?", help="a program, in place of one in which each node adds to a word")
    words.add_argument("--events", type=int, default=120, help="after how many events it stops")
    words.add_argument("--watch", type=address, default=0x80001000, help="the word, as eight hexadecimal digits")
    words.add_argument("--rules", action="store_true", help="do what run would do, and keep nothing back")
    chosen = words.parse_args()
    program = chosen.program or assemble(ADDITIONS)
    with Machine(program, nodes=chosen.nodes) as machine:
        schedule = (Rules if chosen.rules else Adversary)(machine, chosen.events, chosen.seed)
        schedule.finish()
        for events, message in sorted(schedule.waited, key=lambda it: -it[0])[:8]:
            print(f"{events:5} events: {message}")
        print(f"still in flight: {len(schedule.flight.messages)}")
        word, trace = machine.watch(chosen.watch), machine.committed()
        summary = machine.summary()
        verdict = check(program, trace, nodes=chosen.nodes)
    print(f"{summary.events} events, recovery point {summary.point}, {len(trace)} instructions committed")
    print(f"{chosen.watch:08x} holds {word:08x}; the committed trace is {'legal' if verdict else 'refused'}")
    return None if verdict else 1


if __name__ == "__main__":
    try:
        sys.exit(main())
    except (SafetyNetError, OSError, ValueError) as error:
        sys.exit(f"scheduler: {error}")
