#!/usr/bin/env python3
"""Times a run by node threads beside a reference simulator's run on one thread.

    bench/run.py PROGRAM SIMULATOR [TURNS]

PROGRAM is the built `safetynet`, SIMULATOR the simulator's program with the same words. Cores count in one word for ever, so a
run ends by its budget of TURNS (1,000,000): on 1, 4 and 16 nodes, without losses and with every 97th message lost. The least
of five times is told, in milliseconds, and the program's peak memory in bytes a turn, above that of a run of 1,000 turns.
"""
import sys
import tempfile
from pathlib import Path
from typing import List

from judge import taken

WORDS = "800012b7 00100313 0062a3af 03f3f513 03050513 00100893 00000073 fedff06f"


def least(words: List[str]) -> float:
    """The least of five times of a command, in milliseconds."""
    return min(taken(words, may_fail=True)[0] for _ in range(5)) * 1000


def main() -> int:
    if len(sys.argv) < 3:
        print(__doc__)
        return 2
    program, simulator = sys.argv[1:3]
    turns = int(sys.argv[3]) if len(sys.argv) > 3 else 1_000_000
    print("nodes  losses  program ms  simulator ms  ratio  bytes a turn")
    with tempfile.TemporaryDirectory() as room:
        text = Path(room) / "count.hex"
        text.write_text("".join(f"{word}\n" for word in WORDS.split()))
        for nodes in (1, 4, 16):
            for losses in (0, 97):
                words = ["run", str(text), "--nodes", str(nodes), "--lose-every", str(losses), "--budget"]
                here, there = (least([it, *words, str(turns)]) for it in (program, simulator))
                most, few = (taken([program, *words, str(it)], may_fail=True)[1] for it in (turns, 1000))
                share = (most - few) / (turns - 1000)
                print(f"{nodes:5}  {losses:6}  {here:10.0f}  {there:12.0f}  {here / there:5.2f}  {share:12.1f}")
    return 0


if __name__ == "__main__":
    sys.exit(main())
