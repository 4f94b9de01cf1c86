#!/usr/bin/env python3
"""A stateful test: any events on a machine leave a consistent recovery point, or Hypothesis shows the shortest list of events that doesn't.

Each core adds 1 to a word for ever. Hypothesis draws bursts of events, checkpoints and recoveries. After each recovery and at the end the committed
trace is judged by `check`, and the watched word is compared with a flat memory written in ten lines.

    PYTHONPATH=python python3 python/examples/fuzz.py --examples 50
"""
from __future__ import annotations

import sys
import time
from collections import Counter
from typing import Any, List, Optional, Tuple

from safetynet import Deliver, Edge, Event, Evict, Hop, Lose, Machine, Recover, SafetyNetError, Step, Trace, assemble, check

from schedules import InFlight, checkpoint, moves, parser

try:
    from hypothesis import HealthCheck, seed, settings, strategies
    from hypothesis.stateful import RuleBasedStateMachine, precondition, rule, run_state_machine_as_test
except ImportError:
    sys.exit("fuzz: this needs Hypothesis: python3 -m pip install hypothesis")

ADDITIONS = """
        lui     s0, 524289          # 80001000
        addi    t0, zero, 1
add:
        amoadd.w t1, t0, (s0)
        jal     zero, add
"""
WORD = 0x80001000
BLOCK = 64


def flat(trace: Trace) -> int:
    """The word after a trace, on one memory: of each core the third instruction and every second after it adds 1."""
    word, done = 0, Counter[int]()
    for record in trace:
        done[record.core] += 1
        if done[record.core] > 2 and done[record.core] % 2 == 1:
            assert record.seen == word, f"core {record.core} saw {record.seen}, and the word is {word}"
            word += 1
    return word


# A drawn event: what it is, and a number for a node or for a message, counted from the oldest in flight on.
Drawn = Tuple[str, int]
DRAWN = strategies.tuples(
    strategies.sampled_from(["step", "step", "step", "deliver", "deliver", "hop", "hop", "edge", "evict", "lose"]),
    strategies.integers(0, 7),
)


def event_of(drawn: Drawn, nodes: int, ids: List[int]) -> Event:
    """The event that was drawn, on so many nodes and among these messages."""
    name, number = drawn
    node, id = number % nodes, ids[number % len(ids)]
    events = {"step": Step(node), "edge": Edge(node), "evict": Evict(node, BLOCK), "hop": Hop(id), "deliver": Deliver(id), "lose": Lose(id)}
    return events[name]


class Limit:
    """When the search ends: at a time of the monotonic clock, unless something was found, which is shown again and made short."""

    def __init__(self, seconds: float) -> None:
        self.ends = time.monotonic() + seconds
        self.has_found = False
        self.was_late = False

    def is_late(self) -> bool:
        """Whether the search is to end now."""
        self.was_late = not self.has_found and time.monotonic() > self.ends
        return self.was_late


def judge(machine: Machine, program: List[int], limit: Limit) -> None:
    """What is committed is an execution, and the word is the one that it leaves."""
    word, trace = machine.watch(WORD), machine.committed()
    had_found, limit.has_found = limit.has_found, True
    assert check(program, trace, nodes=machine.nodes), f"the committed trace is refused:\n{trace}"
    assert word == flat(trace), f"{WORD:08x} holds {word}, and a flat memory {flat(trace)}"
    limit.has_found = had_found


class Fuzzed(RuleBasedStateMachine):
    """The stateful test of a program on so many nodes: a machine, and the rules by which it is driven; none once the time is over."""

    def __init__(self, program: List[int], nodes: int, limit: Limit) -> None:
        super().__init__()
        self.program, self.nodes, self.limit = program, nodes, limit
        self.is_idle = limit.is_late()
        if not self.is_idle:
            self.machine = Machine(program, nodes=nodes)

    @precondition(lambda self: not self.is_idle)
    @rule(drawn=strategies.lists(DRAWN, min_size=1, max_size=24))
    def burst(self, drawn: List[Drawn]) -> None:
        flight = InFlight.of(self.machine)
        ids = sorted(flight.messages) + [flight.last + 1, flight.last + 2]
        self.machine.apply_all([event_of(one, self.nodes, ids) for one in drawn])

    @precondition(lambda self: not self.is_idle)
    @rule(number=strategies.integers(0, 3))
    def settle(self, number: int) -> None:
        steps = [Step(node) for node in range(self.nodes)] * number
        self.machine.apply_all([*steps, *moves(InFlight.of(self.machine), 4)])

    @precondition(lambda self: not self.is_idle)
    @rule()
    def validate(self) -> None:
        checkpoint(self.machine)

    @precondition(lambda self: not self.is_idle and self.machine.mark() > 0)
    @rule()
    def recover(self) -> None:
        self.machine.apply(Recover())
        judge(self.machine, self.program, self.limit)

    @precondition(lambda self: self.is_idle)
    @rule()
    def rest(self) -> None:
        """The one rule that is left once the time is over."""

    def teardown(self) -> None:
        if not self.is_idle:
            judge(self.machine, self.program, self.limit)
            self.machine.close()


def main(words: Any = None) -> Optional[int]:
    options = parser("Draws events, and holds each recovery point against a flat memory.")
    options.add_argument("--examples", type=int, default=10, help="how many lists of events")
    options.add_argument("--steps", type=int, default=8, help="how many bursts, checkpoints and recoveries each at most")
    options.add_argument("--seconds", type=float, default=12, help="after which no new list is begun")
    chosen = options.parse_args(words)
    limit = Limit(chosen.seconds)
    drawn = settings(
        max_examples=chosen.examples,
        stateful_step_count=chosen.steps,
        deadline=None,
        database=None,
        suppress_health_check=list(HealthCheck),
    )
    program = assemble(ADDITIONS)

    @seed(chosen.seed)
    def made() -> Fuzzed:
        return Fuzzed(program, chosen.nodes, limit)

    run_state_machine_as_test(made, settings=drawn)
    most = f"at most {chosen.examples}" if limit.was_late else str(chosen.examples)
    print(f"{most} lists of events on {chosen.nodes} nodes: every recovery point is a consistent cut")
    return None


if __name__ == "__main__":
    try:
        sys.exit(main())
    except (SafetyNetError, OSError) as error:
        sys.exit(f"fuzz: {error}")
