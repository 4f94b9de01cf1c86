#!/usr/bin/env python3
"""Refuses each call for memory of the crates' own tests in turn, and looks at how the test ends.

    tests/refuse_tests.py CRATES [MOST] [NAME..]

CRATES is the folder of the crates, whose tests are built (`rt test` or the gate leaves them as NAME/out/NAME_tests); a crate without such
a file is named and left out. Each test of each crate, or of those named, is run once with all memory, which counts its calls of the
allocator, and then for each of these calls once with that one refused and once with that one and all after it refused. It must pass, or
end with an error that is want of memory. A failed assertion is a wrong answer; a signal, a run without end and any other error are wrong
too. Only a test that asks whether threads were at work at once may fail by saying that one waited in vain, where fewer threads began than
with all memory: nothing answers that a thread can't be had, and its work is done by another. Such runs are counted by themselves. MOST is
the greatest number of calls of a test that are refused, evenly spread; without it, or with 0, all are.
"""
import re
import subprocess
import sys
import tempfile
from collections import Counter
from pathlib import Path
from typing import List, NamedTuple, Optional, Tuple

sys.path.insert(0, str(Path(__file__).resolve().parent))
from refuse_memory import built_library, environment, read_count  # noqa: E402

# The longest that a test may take, in seconds.
LONGEST = 120

PASSED, WANT, ALONE, WRONG = "passed", "want of memory", "waited in vain", "wrong"

# How a test ends whose result is an error that is want of memory: its status, and the line that shows the error.
FAILED_STATUS = 101
MEMORY_ERROR = re.compile(rb"[Ee]rror: .*\b(Memory|AllocError|AllocFailed|OutOfMemory)\b")

# What a test says whose threads weren't at work at once.
IN_VAIN = b"waited in vain"


def tests_of(program: Path) -> List[str]:
    """The names of the tests."""
    listed = subprocess.run([program, "--list"], capture_output=True, text=True, check=True).stdout
    return [line.removesuffix(": test") for line in listed.splitlines() if line.endswith(": test")]


def kind_of(status: int, said: bytes, lacks_thread: bool) -> str:
    """How a test ended, by its status and what it said."""
    if status == 0:
        return PASSED
    first = said.strip().splitlines()[0] if said.strip() else b""
    if status == FAILED_STATUS and MEMORY_ERROR.match(first):
        return WANT
    return ALONE if lacks_thread and IN_VAIN in said else WRONG


class Ended(NamedTuple):
    """How a test ended, what it said, how often memory was asked for, unless that isn't known, and how many threads began."""

    kind: str
    said: bytes
    made: Optional[int]
    threads: int


def run(program: Path, test: str, folder: str, library: Path, call: int = 0, all_after: bool = False, most_threads: int = 0) -> Ended:
    """A test whose call for memory of this number is refused, or none; with all memory so many threads begin."""
    threads = Path(folder, "threads")
    threads.write_bytes(b"")
    given = {**environment(folder, library, call, all_after), "REFUSE_THREADS": str(threads)}
    try:
        done = subprocess.run([program, test], cwd=folder, stdin=subprocess.DEVNULL, capture_output=True, env=given, timeout=LONGEST)
    except subprocess.TimeoutExpired:
        return Ended(WRONG, b"it had not ended", None, 0)
    begun = threads.stat().st_size
    kind = kind_of(done.returncode, done.stderr, begun < most_threads)
    return Ended(kind, b"status %d: " % done.returncode + done.stderr, read_count(folder), begun)


def refuse(program: Path, test: str, folder: str, library: Path, most: int) -> Tuple[int, Counter[str]]:
    """The number of a test's calls for memory, and how its runs ended; what is wrong is said."""
    kind, said, made, threads = run(program, test, folder, library)
    if kind != PASSED or made is None:
        print(f"{test}, with all memory: {said.decode(errors='replace')}")
        return made or 0, Counter({WRONG: 1})
    ended: Counter[str] = Counter()
    step = max(1, -(-made // most)) if most else 1
    for call in range(1, made + 1, step):
        for all_after in (False, True):
            kind, said, _, _ = run(program, test, folder, library, call, all_after, threads)
            ended[kind] += 1
            if kind == WRONG:
                print(f"{test}, call {call} of {made}{' and all after' if all_after else ''}: {said.decode(errors='replace')}")
    return made, ended


def told(ended: Counter[str]) -> str:
    """How many runs ended in each way."""
    return ", ".join(f"{kind} {ended[kind]}" for kind in (WANT, PASSED, ALONE, WRONG))


def main() -> int:
    if len(sys.argv) < 2:
        print(__doc__)
        return 2
    crates = Path(sys.argv[1]).resolve()
    most = int(sys.argv[2]) if len(sys.argv) > 2 else 0
    names = sys.argv[3:] or sorted(it.name for it in crates.iterdir() if list(it.glob("src/**/*.rt")))
    whole: Counter[str] = Counter()
    with tempfile.TemporaryDirectory() as folder:
        library = built_library(folder)
        for name in names:
            program = crates / name / "out" / f"{name}_tests"
            if not program.exists():
                print(f"{name}: no built tests")
                continue
            ended: Counter[str] = Counter()
            tests, calls = tests_of(program), 0
            for test in tests:
                made, found = refuse(program, test, folder, library, most)
                calls += made
                ended += found
            whole += ended
            print(f"{name}: {len(tests)} tests, {calls} calls for memory; {told(ended)}", flush=True)
    print(f"in all {sum(whole.values())} runs: {told(whole)}")
    return 1 if whole[WRONG] else 0


if __name__ == "__main__":
    sys.exit(main())
