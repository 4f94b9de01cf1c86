"""``python -m safetynet litmus``: reads tests, runs each under many schedules, and prints litmus7's log of each."""
from __future__ import annotations

import argparse
import random
import sys
import time
from typing import List, Optional, Tuple

from ..errors import SafetyNetError
from .log import Tally, log_text
from .model import LitmusError, State, Test
from .reading import read_litmus
from .schedules import Runner, TrapError

DONE, REFUSED, UNFINISHED = 0, 1, 3


def parser() -> argparse.ArgumentParser:
    """The options of the command."""
    found = argparse.ArgumentParser(
        prog="python -m safetynet litmus",
        description="Runs RISC-V litmus tests in herd's form on a machine with a node for each thread, under many schedules, and prints litmus7's log.",
        epilog="exit status: 0 done, 1 a test is refused or can't be run, 2 usage, 3 a run or a test isn't finished within its limit",
        formatter_class=argparse.ArgumentDefaultsHelpFormatter,
    )
    found.add_argument("files", nargs="+", metavar="FILE", help="a test; none is run where one is refused")
    found.add_argument("--runs", type=_positive, default=100, metavar="N", help="how many runs of each test")
    found.add_argument("--seed", type=int, default=1, metavar="S", help="decides the schedules")
    found.add_argument("--workers", type=_count, default=0, metavar="N", help="how many more runs by the workers of safetynet run, in drawn turns")
    found.add_argument("--losses", action="store_true", help="lose messages in each run, and go back to the recovery point")
    found.add_argument("--limit", type=_seconds, default=300.0, metavar="SECONDS", help="for each test; what isn't finished then isn't counted")
    return found


def _count(text: str) -> int:
    number = int(text)
    if not 0 <= number <= 10**6:
        raise argparse.ArgumentTypeError(f"{text} isn't from 0 to 1000000")
    return number


def _positive(text: str) -> int:
    number = int(text)
    if number < 1:
        raise argparse.ArgumentTypeError(f"{text} is below 1")
    return number


def _seconds(text: str) -> float:
    seconds = float(text)
    if not 0 <= seconds <= 1e9:
        raise argparse.ArgumentTypeError(f"{text} isn't from 0 to 1e9")
    return seconds


def run_test(runner: Runner, runs: int, seed: int, losses: bool = False, limit: float = float("inf"), workers: int = 0) -> Tally:
    """Run a test so many times, or until its seconds are over; each run's schedule follows from the seed, the test's name and its number.

    Before these come so many runs by workers, whose seeds begin with this one.

    Raises
    ------
    SafetyNetError, TrapError
        As `Runner.run`.
    """
    tally = Tally(runner.test)
    begun = time.monotonic()
    for state in runner.by_workers(range(seed % 2**32, seed % 2**32 + workers), losses) if workers else ():
        _count_state(tally, state)
    for number in range(runs):
        if time.monotonic() - begun >= limit:
            tally.unfinished += runs - number
            break
        _count_state(tally, runner.run(random.Random(f"{seed} {runner.test.name} {number}"), losses, begun + limit))
    tally.seconds = time.monotonic() - begun
    return tally


def _count_state(tally: Tally, state: Optional[State]) -> None:
    if state is None:
        tally.unfinished += 1
    else:
        tally.states[state] += 1


def read_all(files: List[str]) -> Tuple[List[Tuple[str, Test]], List[str]]:
    """The tests, and a line for each that is refused."""
    tests, refusals = [], []
    for file in files:
        try:
            tests.append((file, read_litmus(file)))
        except LitmusError as error:
            refusals.append(str(error))
    return tests, refusals


def main(words: Optional[List[str]] = None) -> int:
    """Does the command; its exit status."""
    chosen = parser().parse_args(words)
    tests, refusals = read_all(chosen.files)
    runners: List[Runner] = []
    try:
        if not refusals:
            runners = [Runner(test, file) for file, test in tests]
    except (LitmusError, SafetyNetError) as error:
        refusals.append(str(error))
    for refusal in refusals:
        print(f"litmus: {refusal}", file=sys.stderr)
    if refusals:
        return REFUSED
    status = DONE
    for runner in runners:
        try:
            tally = run_test(runner, chosen.runs, chosen.seed, chosen.losses, chosen.limit, chosen.workers)
        except (SafetyNetError, TrapError) as error:
            print(f"litmus: {error}", file=sys.stderr)
            return REFUSED
        print(log_text(tally), end="", flush=True)
        if tally.unfinished:
            print(f"litmus: {runner.test.name}: {tally.unfinished} of {chosen.runs + chosen.workers} runs aren't finished", file=sys.stderr)
            status = UNFINISHED
    return status
