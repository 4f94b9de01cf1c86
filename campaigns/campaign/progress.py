"""How far a campaign is, as lines for whoever waits."""
from __future__ import annotations

import sys
import time
from typing import Dict, Optional

from .plan import Batch, Plan


def _rows_in_part(plan: Plan, batch: Batch) -> int:
    try:
        return plan.part(batch).read_bytes().count(b"\n")
    except FileNotFoundError:
        return batch.last - batch.first + 1 if plan.file(batch).exists() else 0


class Progress:
    """Counts the rows that there are, and says how many when that has changed.

    On a terminal the line is written over; else there is one at most each ten seconds.

    Attributes
    ----------
    total : int
        How many runs the campaign has.
    before : int
        How many were there at the start, of an earlier call.
    """

    def __init__(self, plan: Plan) -> None:
        self.plan = plan
        self.total = len(plan.campaign)
        self.open: Dict[str, Batch] = {batch.name: batch for batch in plan.batches}
        self.whole = 0
        self.before = self.count()
        self.began = time.monotonic()
        self.said_at: Optional[float] = None
        self.said = ""

    def count(self) -> int:
        """How many rows there are."""
        for batch in list(self.open.values()):
            if self.plan.file(batch).exists():
                self.whole += batch.last - batch.first + 1
                del self.open[batch.name]
        return self.whole + sum(_rows_in_part(self.plan, batch) for batch in self.open.values())

    def text(self, count: int) -> str:
        """What is said of so many rows."""
        spent = time.monotonic() - self.began
        share = 100 * count // self.total
        text = f"campaign: {count:,} of {self.total:,} runs ({share} %)"
        if self.before:
            text += f", {self.before:,} of them from before"
        if spent > 5 and count > self.before:
            rate = (count - self.before) / spent
            text += f", {rate:.1f} a second, about {(self.total - count) / rate:.0f} s left"
        return text

    def show(self, is_last: bool = False) -> None:
        """Says how far it is, where that is due."""
        is_terminal = sys.stderr.isatty()
        due = self.said_at is None or time.monotonic() - self.said_at >= (1 if is_terminal else 10)
        if not (due or is_last):
            return
        text = self.text(self.count())
        if text != self.said or is_last:
            end = "\n" if is_last or not is_terminal else ""
            print(f"\r{text:<{len(self.said)}}" if is_terminal else text, end=end, file=sys.stderr, flush=True)
        self.said, self.said_at = text, time.monotonic()
