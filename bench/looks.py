#!/usr/bin/env python3
"""Times what a watcher of a monitored run costs: its looks, and the turns beside which it looks.

    bench/looks.py [TURNS [PAIRS]]

One small program over `sn_monitor` is made in a folder of its own, over copies of the crates that it stands on, where it is proved and built
by `rt run`, as the repository is; libraries that were built here already are taken over. It makes TURNS (1,000,000; at least 100,000, so that
each machine comes to edges) turns on the calling thread while watchers look, each in a thread of its own. On one node the program is a jump to
itself, on four nodes all cores add to one word for ever; the sizes and the rules are `run`'s defaults. Four things are told:

- the nanoseconds of a look, mean over all looks of all watchers, with 1 watcher and with 3 beside the turns;
- how long the turns take with a watcher beside them, over turns without one, in PAIRS pairs of runs (3; 1 to 100), of which the one without is the
  first: by a watcher that looks without a pause, and by one that yields after each look, as the command `monitor` does. Told are the least of the
  times over each other, each time, and the medians; docs/MEASURES.md has the medians of 15 pairs, which `bench/looks.py 1000000 15` measures;
- the peak memory of a run whose watcher looks 10,000 times, and of one whose watcher looks 10,000,000 times;
- that a run whose watcher never looks, and one without a validation, end as they should. The bench stops at any run that doesn't.

A monitored machine has one watcher: `Monitored::new` gives it, and the board has a place for one. So three watchers are those of three
machines, whose turns the calling thread does in rounds, TURNS in all. They share processors and memory, but no board.

Times of looks and turns are processor time of their threads, so that other work on the machine counts as little as can be; the turns are told
by the clock too. The time of a look has the loop's: a load of the flag that the turns have ended, and the comparison with the last point.
"""
import os
import shutil
import subprocess
import sys
import tempfile
from dataclasses import dataclass
from pathlib import Path
from statistics import median

from looks_program import PROGRAM
from small_repository import ROOT, below, listed, needs_of, write_program

TURNS = 1_000_000
LEAST_TURNS = 100_000
MOST_TURNS = 2_000_000
TIMES = 3
PAIRS = 3
MOST_PAIRS = 100
INTERVAL = 100
NO_EDGE = 4_000_000_000
UNTIL_THE_END = 4_294_967_295
NAMES = "sn_base sn_model sn_machine sn_driver sn_monitor elf_load"


def link_or_copy(one: str, other: str) -> None:
    """A second name of a file, or a copy where that can't be."""
    try:
        os.link(one, other)
    except OSError:
        shutil.copy2(one, other)


def copy_crates(folder: Path, names: list[str]) -> None:
    """Copies these crates' sources, and takes over their libraries where they are built here: `rt` uses those only over the same text."""
    for name in names:
        for part in ("src", "specs", "proofs"):
            if (ROOT / "crates" / name / part).is_dir():
                shutil.copytree(ROOT / "crates" / name / part, folder / "crates" / name / part)
        if (ROOT / "crates" / name / "out" / "rlib").is_dir():
            shutil.copytree(ROOT / "crates" / name / "out" / "rlib", folder / "crates" / name / "out" / "rlib", copy_function=link_or_copy)


def write_looks(folder: Path) -> Path:
    """Writes the program's crate beside the crates that it stands on, and returns its folder."""
    needs = needs_of(listed())
    lower = below(NAMES.split(), needs)
    copy_crates(folder, lower)
    timed = write_program(folder, "timed", NAMES, {"src/main.rt": PROGRAM}, lower, needs)
    (folder / "HANDLES").write_text((ROOT / "HANDLES").read_text())
    return timed


def build(folder: Path) -> Path:
    """The program, proved and built in this folder."""
    timed = write_looks(folder)
    done = subprocess.run(["rt", "run"], cwd=timed, capture_output=True, text=True)
    program = timed / "out" / "timed"
    if not program.exists():
        sys.exit(f"nothing was built: {done.stdout[-2000:]}{done.stderr[-3000:]}")
    return program


@dataclass
class Asked:
    """A run: on so many nodes, so many instructions between two checkpoints, so many turns of 1 or 3 machines, and so many looks of each watcher."""
    nodes: int
    turns: int
    machines: int = 1
    looks: int = UNTIL_THE_END
    yields: bool = False
    interval: int = INTERVAL

    def words(self) -> list[str]:
        return [str(int(it)) for it in (self.nodes, self.interval, self.turns, self.machines, self.looks, self.yields)]


@dataclass
class Looked:
    """A watcher: its looks, the last point, how often one fell, the nanoseconds of all; and once all turns are had the receipt's point, that of one
    look more, and the machine's point."""
    looks: int
    point: int
    falls: int
    nanoseconds: int
    told: int
    seen: int
    cut: int


@dataclass
class Told:
    """What a run told: its turns, how many published and how many lacked memory for it, the nanoseconds of all by the thread's processor time and by
    the clock, its watchers, and the most memory of the process in KiB."""
    turns: int
    published: int
    lacking: int
    processor: int
    clock: int
    watchers: list[Looked]
    memory: int


def run(program: Path, asked: Asked) -> Told:
    """A run, which has to end as it should."""
    process = subprocess.Popen([str(program), *asked.words()], stdout=subprocess.PIPE, text=True)
    lines = process.stdout.read().splitlines() if process.stdout else []
    _, status, usage = os.wait4(process.pid, 0)
    process.returncode = os.waitstatus_to_exitcode(status)
    rows = [[int(word) for word in line.split()[1:]] for line in lines]
    if process.returncode or [len(row) for row in rows] != [5] + [7] * asked.machines:
        sys.exit(f"{asked} ended with {process.returncode} and told {lines}")
    turns, published, lacking, processor, clock = rows[0]
    told = Told(turns, published, lacking, processor, clock, [Looked(*row) for row in rows[1:]], usage.ru_maxrss)
    wrong = faults(asked, told)
    if wrong:
        sys.exit(f"{asked}: {', '.join(wrong)}: {told}")
    return told


def faults(asked: Asked, told: Told) -> list[str]:
    """What isn't as it should be."""
    wanted = {
        "each turn does an event": told.turns == asked.turns // asked.machines * asked.machines,
        "no memory is lacking": told.lacking == 0,
        "cuts are published just where nodes come to an edge": (told.published > 0) == (asked.interval == INTERVAL),
        "there is time": told.processor > 0 and told.clock > 0,
    }
    for watcher in told.watchers:
        wanted.update(wants_of(asked, watcher))
    return [what for what, holds in wanted.items() if not holds]


def wants_of(asked: Asked, watcher: Looked) -> dict[str, bool]:
    """What a watcher should have seen."""
    is_counted = asked.looks != UNTIL_THE_END
    return {
        "so many looks": watcher.looks == asked.looks if is_counted else watcher.looks > 0,
        "no point falls": watcher.falls == 0,
        "no point is above the last": watcher.point <= watcher.told,
        "the last published cut is the machine's": watcher.told == watcher.cut,
        "once all turns are had the last published is seen": watcher.seen == watcher.told,
        "points come with edges": (watcher.told > 0) == (asked.interval == INTERVAL),
    }


def time_looks(program: Path, turns: int) -> None:
    """The nanoseconds of a look, with one watcher and with three."""
    for nodes in (1, 4):
        for machines in (1, 3):
            tried = [run(program, Asked(nodes, turns, machines)) for _ in range(TIMES)]
            means = [sum(it.nanoseconds for it in told.watchers) / sum(it.looks for it in told.watchers) for told in tried]
            looks, published = sum(it.looks for it in tried[0].watchers), tried[0].published
            every = ", ".join(f"{mean:.1f}" for mean in means)
            print(f"look    {nodes} nodes, {machines} watchers: {min(means):.1f} ns ({every}); first run {looks} looks, {published} published")


def ratio(one: list[int], other: list[int]) -> str:
    return f"{min(one) / min(other):.3f}"


def time_turns(program: Path, turns: int, pairs: int) -> None:
    """The turns with a watcher beside them, over turns without, in so many pairs of runs."""
    for nodes in (1, 4):
        for yields in (False, True):
            alone, beside = [], []
            for _ in range(pairs):
                alone.append(run(program, Asked(nodes, turns, looks=0)))
                beside.append(run(program, Asked(nodes, turns, yields=yields)))
            processor = ratio([it.processor for it in beside], [it.processor for it in alone])
            clock = ratio([it.clock for it in beside], [it.clock for it in alone])
            each = [", ".join(f"{it.processor / 1e6:.0f}" for it in tried) for tried in (alone, beside)]
            middles = [median(it.processor for it in tried) for tried in (alone, beside)]
            rates = [turns / min(it.processor for it in tried) * 1e9 for tried in (alone, beside)]
            print(f"turns   {nodes} nodes, a watcher that {'yields' if yields else 'never pauses'}: {processor} times as long, {clock} by the clock;"
                  f" alone {each[0]} ms, beside {each[1]} ms; {rates[0]:.0f} and {rates[1]:.0f} turns a second;"
                  f" medians {middles[0] / 1e6:.0f} and {middles[1] / 1e6:.0f} ms, {middles[1] / middles[0]:.2f} times as long")


def weigh_looks(program: Path, turns: int) -> None:
    """The peak memory of runs with few looks and with many."""
    for nodes in (1, 4):
        for looks in (10_000, 10_000_000):
            told = run(program, Asked(nodes, turns, looks=looks))
            print(f"memory  {nodes} nodes, {looks} looks: {told.memory / 1024:.1f} MiB at most")


def try_ends(program: Path, turns: int) -> None:
    """Runs at the limits: a watcher that never looks, and no validation."""
    for nodes in (1, 4):
        never = run(program, Asked(nodes, turns, looks=0))
        none = run(program, Asked(nodes, turns, interval=NO_EDGE))
        print(f"ends    {nodes} nodes: never looked, {never.published} published; no validation, {none.watchers[0].looks} looks at point 0")


def main() -> None:
    asked = sys.argv[1:]
    if len(asked) > 2 or not all(it.isdecimal() for it in asked):
        sys.exit(__doc__)
    turns = int(asked[0]) if asked else TURNS
    pairs = int(asked[1]) if len(asked) == 2 else PAIRS
    if not LEAST_TURNS <= turns <= MOST_TURNS:
        sys.exit(f"TURNS is {LEAST_TURNS} to {MOST_TURNS}")
    if not 1 <= pairs <= MOST_PAIRS:
        sys.exit(f"PAIRS is 1 to {MOST_PAIRS}")
    with tempfile.TemporaryDirectory() as folder:
        program = build(Path(folder))
        try_ends(program, turns)
        time_looks(program, turns)
        time_turns(program, turns, pairs)
        weigh_looks(program, turns)


if __name__ == "__main__":
    main()
