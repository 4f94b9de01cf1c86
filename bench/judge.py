#!/usr/bin/env python3
"""Times `safetynet judge` on a list of accesses, with the reading of the file.

    bench/judge.py PROGRAM [ACCESSES]

PROGRAM is the built `safetynet`. Sixteen cores in turn read, write, or do an atomic operation in 4,096 words, by a generator with a fixed
seed; the list is legal and has ACCESSES (1,000,000) of them. The least of five times is told, in milliseconds, and the program's peak
memory beyond the file's bytes, in bytes an access.
"""
import os
import random
import subprocess
import sys
import tempfile
import time
from pathlib import Path
from typing import Dict, List, Tuple

START = 0x80001000
WORDS = 4096
CORES = 16


def line_of(core: int, memory: Dict[int, int], draw: random.Random) -> str:
    """An access of a core that is legal now; memory is as after it then."""
    address = START + 4 * draw.randrange(WORDS)
    found, new = memory.get(address, 0), draw.getrandbits(32)
    kind = draw.choice(("r", "r", "w", "amo"))
    if kind == "r":
        return f"{core} r {address:08x} 4 {found:08x}"
    memory[address] = new
    return f"{core} w {address:08x} 4 {new:08x}" if kind == "w" else f"{core} amo {address:08x} 4 {new:08x} {found:08x}"


def accesses(count: int) -> List[str]:
    memory: Dict[int, int] = {}
    draw = random.Random(1)
    return [line_of(place % CORES, memory, draw) for place in range(count)]


def taken(words: List[str], may_fail: bool = False) -> Tuple[float, int]:
    """The seconds that a command took, and its peak memory in bytes. It has to end in status 0, unless it may fail."""
    begin = time.monotonic()
    child = subprocess.Popen(words, stdout=subprocess.DEVNULL, stderr=subprocess.DEVNULL)
    _, status, used = os.wait4(child.pid, 0)
    child.returncode = os.waitstatus_to_exitcode(status)
    if child.returncode and not may_fail:
        sys.exit(f"status {child.returncode}: {' '.join(words)}")
    return time.monotonic() - begin, used.ru_maxrss * 1024


def main() -> int:
    if len(sys.argv) < 2:
        print(__doc__)
        return 2
    program = sys.argv[1]
    count = int(sys.argv[2]) if len(sys.argv) > 2 else 1_000_000
    with tempfile.TemporaryDirectory() as room:
        file = Path(room) / "list.accesses"
        file.write_text("\n".join(accesses(count)) + "\n", encoding="ascii")
        size = file.stat().st_size
        runs = [taken([program, "judge", str(file)]) for _ in range(5)]
    print("accesses  MiB  ms  bytes an access beyond the file")
    print(f"{count}  {size / 2**20:.1f}  {min(run[0] for run in runs) * 1000:.0f}  {(min(run[1] for run in runs) - size) / count:.0f}")
    return 0


if __name__ == "__main__":
    sys.exit(main())
