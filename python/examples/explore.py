#!/usr/bin/env python3
"""Walks every interleaving of a small program to a depth, and prints what came out as a litmus log.

The program is a litmus test; without one it is store buffering: each of two threads stores to a word of its own, and then reads the other's. On one memory they
can't both read 0, since one of the stores is first.

At each point of the walk each core may do its next instruction, and each message may go on or be taken; one machine goes there and back again. What is
left after the depth is done in an order that the seed draws. With --losses each message in flight at each point is lost too, and all go back to the last
checkpoint: what comes out then is a log of its own.

    PYTHONPATH=python python3 python/examples/explore.py --losses
"""
from __future__ import annotations

import argparse
import random
import sys
import time
from dataclasses import replace
from typing import List, Optional

from safetynet import Deliver, Event, Hop, Lose, Machine, Recover, SafetyNetError, Step
from safetynet.litmus import LitmusError, Runner, Tally, TrapError, log_text, parse_litmus, read_litmus

STORE_BUFFERING = """RISCV SB
{ 0:x6=x; 0:x8=y; 1:x6=y; 1:x8=x; }
 P0          | P1          ;
 li x5,1     | li x5,1     ;
 sw x5,0(x6) | sw x5,0(x6) ;
 lw x7,0(x8) | lw x7,0(x8) ;
exists (0:x7=0 /\\ 1:x7=0)
"""


class Walk:
    """A walk over the interleavings of a test, up to a time of the monotonic clock."""

    def __init__(self, runner: Runner, seed: int, ends: float) -> None:
        self.runner = runner
        self.machine: Machine = runner.start()
        self.drawn = random.Random(seed)
        self.ends = ends
        self.is_whole = True
        self.outcomes = Tally(runner.test)
        self.after_loss = Tally(replace(runner.test, name=f"{runner.test.name}+losses"))

    def is_late(self) -> bool:
        """Whether the seconds are over; then the walk isn't whole."""
        if time.monotonic() > self.ends:
            self.is_whole = False
        return not self.is_whole

    def choices(self) -> List[Event]:
        """What can happen next, as far as it changes the machine."""
        events: List[Event] = [Step(node) for node in range(self.machine.nodes)]
        events += [(Deliver if flight.has_arrived else Hop)(flight.message.id) for flight in self.machine.flights()]
        return [event for event in events if self.machine.foresee(event).name in ("retired", "missed", "delivered", "hopped")]

    def walk(self, depth: int, losses: bool) -> None:
        """Count the outcomes of all that can follow; the machine stays."""
        mark = self.machine.mark()
        if losses:
            self.lose_each(mark)
        choices = self.choices() if depth > 0 and not self.is_late() else []
        if not choices:
            self.count(self.outcomes, mark)
        for event in choices:
            self.machine.apply(event)
            self.walk(depth - 1, losses)
            self.machine.back(mark)

    def lose_each(self, mark: int) -> None:
        """Lose each message in flight, one at a time, go back to the recovery point, and count what comes out then."""
        for flight in self.machine.flights():
            if not self.is_late():
                self.machine.apply_all([Lose(flight.message.id), Recover()])
                self.count(self.after_loss, mark)

    def count(self, tally: Tally, mark: int) -> None:
        """Count the final state, once all threads have ended, and come back."""
        if not self.is_late():
            state = self.runner.finish(self.machine, self.drawn)
            if state is None:
                tally.unfinished += 1
            else:
                tally.states[state] += 1
        self.machine.back(mark)


def parser() -> argparse.ArgumentParser:
    found = argparse.ArgumentParser(
        description="Walks every interleaving of a litmus test to a depth, and prints what came out as a litmus log.",
        formatter_class=argparse.ArgumentDefaultsHelpFormatter,
    )
    found.add_argument("test", nargs="?", help="a litmus test, in place of store buffering")
    found.add_argument("--seed", type=int, default=1, help="of the order in which a run is finished")
    found.add_argument("--depth", type=int, default=5, help="events that are walked in every order")
    found.add_argument("--losses", action="store_true", help="at each point lose each message in flight, and recover")
    found.add_argument("--seconds", type=float, default=12, help="after which the walk stops")
    return found


def main() -> Optional[int]:
    chosen = parser().parse_args()
    begun = time.monotonic()
    test = read_litmus(chosen.test) if chosen.test else parse_litmus(STORE_BUFFERING)
    walk = Walk(Runner(test, chosen.test or "explore.py"), chosen.seed, begun + chosen.seconds)
    walk.walk(chosen.depth, chosen.losses)
    for tally in [walk.outcomes, *([walk.after_loss] if chosen.losses else [])]:
        tally.seconds = time.monotonic() - begun
        print(log_text(tally), end="")
        if tally.unfinished:
            print(f"{tally.test.name}: {tally.unfinished} runs aren't finished", file=sys.stderr)
    if not walk.is_whole:
        print(f"stopped after {chosen.seconds:g} seconds; there are more interleavings", file=sys.stderr)
    return None


if __name__ == "__main__":
    try:
        sys.exit(main())
    except (LitmusError, TrapError, SafetyNetError, OSError) as error:
        sys.exit(f"explore: {error}")
