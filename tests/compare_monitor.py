#!/usr/bin/env python3
"""Runs programs under a watcher, and compares what is reported with a reference simulator.

    tests/compare_monitor.py PROGRAM SIMULATOR [COUNT] [SEED]

PROGRAM is the built program, or the script `safetynet` at the top of the repository. Each of COUNT runs (100) is of a random
program on 1 to 16 nodes with random seeds, losses and dying switches. Status, console and summary must be the simulator's, and so
must the last `seen` line, which both end in; those before it must be among all that the simulator publishes, with growing points.
"""
import random
import sys
from functools import partial
from pathlib import Path
from typing import List, Sequence, Tuple

from compare_replay import hexadecimal_image, program
from compare_runs import ENDS, Verdict, call, compared, rules, sizes


def parts(report: List[str]) -> Tuple[List[str], List[str]]:
    """The lines of what was seen, and those after them."""
    seen = [line for line in report if line.startswith("seen ")]
    return seen, report[len(seen):]


def grow(seen: List[str]) -> bool:
    """Whether each line's point is greater than that of the line before it."""
    points = [int(line.split()[1]) for line in seen]
    return all(a < b for a, b in zip(points, points[1:]))


def differences(command: Sequence[str], simulator: Sequence[str], choose: random.Random, folder: str) -> Verdict:
    """What is wrong with one run, and how it ended."""
    nodes = choose.choice([1, 2, 2, 3, 4, 4, 6, 8, 16, choose.randrange(1, 17)])
    Path(folder, "program").write_bytes(hexadecimal_image(choose, program(choose)))
    words = ["monitor", *sizes(choose, nodes), *rules(choose, nodes), "program"]
    words += ["--watch", "80000000"] if choose.random() < 0.3 else []
    status, console, report = call(command, words, folder)
    wanted, released, told = call(simulator, [*words, "--probe", "--main"], folder)
    if status not in ENDS:
        return [f"{words}: status {status}"], "other"
    wrong = []
    if (status, console) != (wanted, released):
        wrong.append(f"{words}: status {status}, and the simulator's is {wanted}, or another console")
    seen, summary = parts(report)
    all_seen, told_summary = parts(told)
    if summary != told_summary:
        wrong.append(f"{words}: another summary than the simulator's")
    if seen[-1:] != all_seen[-1:]:
        wrong.append(f"{words}: the last that was seen is {seen[-1:]}, and the simulator's is {all_seen[-1:]}")
    if not grow(seen) or not set(seen) <= set(all_seen):
        wrong.append(f"{words}: what was seen doesn't grow, or wasn't published: {seen}")
    return wrong, ENDS[status]


def main() -> int:
    if len(sys.argv) < 3:
        print(__doc__)
        return 2
    command, simulator = ([str(Path(name).resolve())] for name in sys.argv[1:3])
    count = int(sys.argv[3]) if len(sys.argv) > 3 else 100
    seed = sys.argv[4] if len(sys.argv) > 4 else "1"
    return compared(partial(differences, command, simulator), count, seed)


if __name__ == "__main__":
    sys.exit(main())
