#!/usr/bin/env python3
"""Runs programs by node threads, and replays the journals that the runs report.

    tests/compare_runs.py PROGRAM [COUNT] [SEED] [SIMULATOR]

PROGRAM is the built program, or the script `safetynet` at the top of the repository. Each of COUNT runs (100) is of a random
program on 1 to 16 nodes with random seeds, losses and dying switches, and ends as it does: by its budget, cut off, with a trap or
with all exits. The journal that it reports, given to `replay` as a script, must give the same console and the same summary, and
so must a run's trace be legal by `check`. On one node the same words must give the same run again. SIMULATOR is a reference
simulator, whose `judge` says of a journal whether each of its events was the one that was due.
"""
import random
import subprocess
import sys
import tempfile
from functools import partial
from pathlib import Path
from typing import Callable, Dict, List, Optional, Sequence, Tuple, Union

from compare_replay import hexadecimal_image, program
from outcomes import called, without_reason

# What is wrong with a run, and how it ended.
Verdict = Tuple[List[str], str]

# Status 0, and those of a budget that is spent, of nodes that are cut off and of a trap.
ENDS = {0: "exited", 6: "budget", 8: "cut off", 10: "trapped"}


def call(command: Sequence[str], words: Sequence[str], folder: Union[str, Path]) -> Tuple[int, bytes, List[str]]:
    """Status, console and the report's lines of a call, without the line that says why."""
    status, console, report = without_reason(called([*command, *words], folder))
    return status, console, report.decode().splitlines()


def sizes(choose: random.Random, nodes: int) -> List[str]:
    """The options of a machine."""
    words: List[Union[int, str]] = ["--nodes", nodes]
    for name, value in [("sets", choose.choice([1, 4, 16])), ("ways", choose.choice([1, 2, 4])), ("log", choose.choice([4, 16, 256]))]:
        words += [f"--{name}", value] if choose.random() < 0.3 else []
    return [str(word) for word in words]


def rules(choose: random.Random, nodes: int) -> List[str]:
    """The options of a run."""
    words: List[Union[int, str]] = ["--seed", choose.randrange(2**64), "--budget", choose.randrange(1, 5000), "--interval", choose.choice([1, 3, 10, 40]),
             "--wait", choose.choice([100, 400, 2000]), "--lose-every", choose.choice([0, 0, 13, 60])]
    if choose.random() < 0.3:
        words += ["--kill", f"{choose.choice('ab')}{choose.randrange(nodes)}@{choose.randrange(300)}"]
    return [str(word) for word in words]


def summary(lines: Sequence[str]) -> List[str]:
    """The lines after the groups of a replay's report, without the line that names the status."""
    start = next(place for place, line in enumerate(lines) if line.startswith("events "))
    return [line for line in lines[start:] if not line.startswith("# safetynet: ")]


def replay_differences(
    command: Sequence[str], size: Sequence[str], console: bytes, report: Sequence[str], folder: Union[str, Path]
) -> List[str]:
    """What a replay of a run's journal, which its report is, gives otherwise than the run did: console or summary. The program's file stands in the folder."""
    script = [line for line in report if not line.startswith("# safetynet: ")]
    Path(folder, "journal").write_text("".join(line + "\n" for line in script))
    again, released, replayed = call(command, ["replay", *size, "program", "journal"], folder)
    marked = [line[2:] for line in script if line.startswith("# ") and not line.startswith("# worker ")]
    if again != 0 or released != console:
        return [f"the replay has status {again}, or another console"]
    return [] if summary(replayed) == marked else ["the replay has another summary"]


def differences(command: Sequence[str], simulator: Optional[str], choose: random.Random, folder: str) -> Verdict:
    """What is wrong with one run, and how it ended."""
    nodes = choose.choice([1, 2, 2, 3, 4, 4, 6, 8, 16, choose.randrange(1, 17)])
    Path(folder, "program").write_bytes(hexadecimal_image(choose, program(choose)))
    size, rule = sizes(choose, nodes), rules(choose, nodes)
    # the simulator that judges the journal knows no orders, and each of them gives a run like another
    order: List[str] = choose.choice([[], [], ["--order", "round"], ["--order", "drawn"]])
    words = ["run", *size, *rule, *order]
    status, console, report = call(command, [*words, "--journal", "program"], folder)
    if status not in ENDS:
        return [f"{size + rule}: status {status}"], "other"
    wrong = [f"{size + rule}: {text}" for text in replay_differences(command, size, console, report, folder)]
    if (nodes == 1 or order) and call(command, [*words, "--journal", "program"], folder) != (status, console, report):
        wrong.append(f"{words}: the run on one node or in an order is another one the second time")
    workers = [line for line in report if line.startswith("# worker ")]
    if order[1:] == ["round"] and workers != [f"# worker {place % nodes}" for place in range(len(workers))]:
        wrong.append(f"{words}: the turns don't come in rounds")
    _, _, trace = call(command, [*words, "--trace", "program"], folder)
    Path(folder, "trace").write_text("".join(line + "\n" for line in trace))
    judged, _, verdict = call(command, ["check", "--nodes", str(nodes), "program", "trace"], folder)
    if judged != 0:
        wrong.append(f"{size + rule}: the trace is {verdict}")
    if simulator:
        found = subprocess.run([simulator, "judge", *size, *rule, "program", "journal"], cwd=folder, capture_output=True)
        if found.returncode != 0:
            wrong.append(f"{size + rule}: the simulator says {(found.stdout + found.stderr).decode().strip()[-200:]}")
    return wrong, ENDS[status]


def compared(verdict: Callable[[random.Random, str], Verdict], count: int, seed: str) -> int:
    """Compares so many runs, each drawn from the seed and its number; says what differs and how they ended, and gives the status."""
    failed = 0
    ends: Dict[str, int] = {}
    with tempfile.TemporaryDirectory() as folder:
        for case in range(count):
            wrong, end = verdict(random.Random(f"{seed} {case}"), folder)
            ends[end] = ends.get(end, 0) + 1
            failed += bool(wrong)
            for line in wrong:
                print(f"run {case}: {line}")
    print(f"{count} runs, {failed} of them wrong; " + ", ".join(f"{number} {end}" for end, number in sorted(ends.items())))
    return 1 if failed else 0


def main() -> int:
    if len(sys.argv) < 2:
        print(__doc__)
        return 2
    command = [str(Path(sys.argv[1]).resolve())]
    count = int(sys.argv[2]) if len(sys.argv) > 2 else 100
    seed = sys.argv[3] if len(sys.argv) > 3 else "1"
    simulator = str(Path(sys.argv[4]).resolve()) if len(sys.argv) > 4 else None
    return compared(partial(differences, command, simulator), count, seed)


if __name__ == "__main__":
    sys.exit(main())
