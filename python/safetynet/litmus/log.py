"""litmus7's log of a test: its histogram, whether the condition is validated, and the observation."""
from __future__ import annotations

from collections import Counter
from dataclasses import dataclass, field
from typing import List

from .model import State, Test

_KINDS = {"exists": "Allowed", "~exists": "Forbidden", "forall": "Required"}


@dataclass
class Tally:
    """What the runs of a test gave.

    Attributes
    ----------
    test : Test
        The test.
    states : Counter of State
        How often each final state came out.
    unfinished : int
        Runs that weren't finished within their limits; they are in no count.
    seconds : float
        How long the runs took.
    """

    test: Test
    states: "Counter[State]" = field(default_factory=Counter)
    unfinished: int = 0
    seconds: float = 0.0

    @property
    def positive(self) -> int:
        """Runs whose final state makes the formula true."""
        return sum(count for state, count in self.states.items() if self.test.holds(state))

    @property
    def negative(self) -> int:
        """Runs whose final state makes it false."""
        return sum(self.states.values()) - self.positive

    @property
    def is_validated(self) -> bool:
        """Whether the condition holds of the states that came out."""
        quantifier = self.test.condition.quantifier
        if quantifier == "exists":
            return self.positive > 0
        return (self.positive if quantifier == "~exists" else self.negative) == 0

    @property
    def observation(self) -> str:
        """``"Never"``, ``"Sometimes"`` or ``"Always"``: how often the formula was true."""
        return "Never" if self.positive == 0 else "Always" if self.negative == 0 else "Sometimes"


def log_text(tally: Tally) -> str:
    """The log of a test, as litmus7 has it.

    A state that makes the formula true has ``*>`` before it, any other ``:>``. What is positive agrees with the condition: of ``~exists`` it is
    a state that makes the formula false. The observation counts the formula itself.
    """
    test, count = tally.test, len(tally.states)
    condition = test.condition
    lines: List[str] = [f"Test {test.name} {_KINDS[condition.quantifier]}", f"Histogram ({count} states)"]
    for state in sorted(tally.states):
        lines.append(f"{tally.states[state]:<6}{'*' if test.holds(state) else ':'}>{test.state_text(state)}")
    agreeing, others = tally.positive, tally.negative
    if condition.quantifier == "~exists":
        agreeing, others = others, agreeing
    lines += [
        "Ok" if tally.is_validated else "No",
        "",
        "Witnesses",
        f"Positive: {agreeing}, Negative: {others}",
        f"Condition {condition} is {'' if tally.is_validated else 'NOT '}validated",
        f"Observation {test.name} {tally.observation} {tally.positive} {tally.negative}",
        f"Time {test.name} {tally.seconds:.2f}",
    ]
    return "\n".join(lines) + "\n\n"
