#!/usr/bin/env python3
"""Times runs for a range of seeds on one to four processors, and what counting costs a run.

    bench/seeds.py PROGRAM

PROGRAM is the built program. A range of 16 seeds, of runs in drawn turns on four nodes with every 97th message lost, is had on one processor, on two and on
four, to which the process is bound; each time the report is the same. Then one run of 1,000,000 turns by each order, without `--statistics` and with it.
The calls take turns, five times each; of each the least time is told, by the clock, and of counting also the least of the processors, and how many times as
long it takes by both.

A run on processors that are otherwise idle is the one that counts; beside other work the processors' time tells more of a run in an order than the clock.
"""
import os
import subprocess
import sys
import tempfile
import time
from pathlib import Path
from typing import Dict, List, NamedTuple, Sequence, Set

# Each core adds to one word for ever.
WORDS = "800012b7 00100313 0062a3af ff9ff06f"
TIMES = 5
RULES = ["--nodes", "4", "--interval", "100", "--wait", "5000", "--lose-every", "97"]


class Took(NamedTuple):
    """Seconds of a call."""

    clock: float
    processors: float

    def least(self, other: "Took") -> "Took":
        """The lesser of each."""
        return Took(min(self.clock, other.clock), min(self.processors, other.processors))


# Longer than any call.
NEVER = Took(1e9, 1e9)


def took(program: str, words: Sequence[str], file: Path, processors: Set[int]) -> Took:
    """A call bound to these processors; its report goes to `report` beside the program's file."""
    report = file.parent / "report"
    with report.open("wb") as out:
        begun = time.monotonic()
        call = subprocess.Popen([program, *words, str(file)], stdout=subprocess.DEVNULL, stderr=out, preexec_fn=lambda: os.sched_setaffinity(0, processors))
        _, status, used = os.wait4(call.pid, 0)
        call.returncode = os.waitstatus_to_exitcode(status)
        return Took(time.monotonic() - begun, used.ru_utime + used.ru_stime)


def seeds(program: str, file: Path) -> None:
    """A range of seeds on one processor, two and four."""
    all_of_them = sorted(os.sched_getaffinity(0))
    counts = [it for it in (1, 2, 4) if it <= len(all_of_them)]
    least: Dict[int, float] = {}
    reports: Set[bytes] = set()
    for _ in range(TIMES):
        for count in counts:
            words = ["run", "--order", "drawn", "--seeds", "1-16", "--budget", "200000", *RULES]
            least[count] = min(least.get(count, 1e9), took(program, words, file, set(all_of_them[:count])).clock)
            reports.add((file.parent / "report").read_bytes())
    if len(reports) != 1:
        sys.exit("the reports differ")
    for count in counts:
        print(f"16 seeds, {count} of {len(all_of_them)} processors: {least[count]:.2f} s, {least[1] / least[count]:.2f} times as fast as one")


def counting(program: str, file: Path) -> None:
    """A run by each order, counted and not."""
    for order in ("threads", "round", "drawn"):
        least: List[Took] = [NEVER, NEVER]
        for _ in range(TIMES):
            for counted in (0, 1):
                words = ["run", "--order", order, "--budget", "1000000", *RULES, *["--statistics"] * counted]
                least[counted] = least[counted].least(took(program, words, file, os.sched_getaffinity(0)))
        plain, with_counts = least
        print(f"1,000,000 turns by {order}: {plain.clock:.2f} s, counted {with_counts.clock:.2f} s, {with_counts.clock / plain.clock:.2f} times as long; "
              f"of the processors {plain.processors:.2f} s and {with_counts.processors:.2f} s, {with_counts.processors / plain.processors:.2f} times")


def main() -> int:
    if len(sys.argv) != 2:
        print(__doc__)
        return 2
    program = str(Path(sys.argv[1]).resolve())
    with tempfile.TemporaryDirectory() as name:
        file = Path(name, "adds.hex")
        file.write_text(WORDS.replace(" ", "\n") + "\n")
        seeds(program, file)
        counting(program, file)
    return 0


if __name__ == "__main__":
    sys.exit(main())
