#!/usr/bin/env python3
"""Times `save` and `resume` of recovery points with many records and bytes given, beside the reference simulator.

    bench/save.py PROGRAM SIMULATOR [RECORDS]

PROGRAM is the built `safetynet`, SIMULATOR the reference simulator. Two save files with RECORDS (1,000,000) records and as many bytes given: of one core
that reads a byte and puts it out again, for ever, and of four cores that go round on the spot. Each is resumed with an empty script. Then a
script of as many steps of that first core, with a validation at its end, is saved. For each the least of five times is told, in milliseconds,
and the peak memory in MiB, of the program and of the simulator; what they write has to be the same, but for the line that says why.
"""
import hashlib
import os
import subprocess
import sys
import tempfile
import time
from pathlib import Path
from typing import Iterable, Iterator, List, NamedTuple, Tuple

# addi a7, zero, 2; ecall; addi a7, zero, 1; ecall; jal zero, -16: a byte is read, and put out again.
ECHO = ["00200893", "00000073", "00100893", "00000073", "ff1ff06f"]
# jal zero, 0
ON_THE_SPOT = ["0000006f"]
# What a record of each instruction of the first program says behind its core: the word that is seen, a store-conditional, a byte that is read.
ECHOED = ["00000000 0", "00000000 0 41", "00000000 0", "00000000 0", "00000000 0"]
TIMES = 5


class Taken(NamedTuple):
    """What a call took, and sums of what it wrote."""

    seconds: float
    memory: int
    console: str
    report: str


def sum_of(file: Path) -> str:
    with file.open("rb") as opened:
        if sys.version_info >= (3, 11):
            return hashlib.file_digest(opened, "sha256").hexdigest()
        return hashlib.sha256(opened.read()).hexdigest()


def taken(words: List[str], room: Path) -> Taken:
    console, report = room / "console", room / "report"
    with console.open("wb") as out, report.open("wb") as err:
        begin = time.monotonic()
        child = subprocess.Popen(words, stdout=out, stderr=err)
        _, status, used = os.wait4(child.pid, 0)
        seconds = time.monotonic() - begin
    child.returncode = os.waitstatus_to_exitcode(status)
    if child.returncode:
        sys.exit(f"status {child.returncode}: {' '.join(words)}: {report.read_bytes()[-300:]!r}")
    return Taken(seconds, used.ru_maxrss * 1024, sum_of(console), sum_of(report))


def put(file: Path, lines: Iterable[str]) -> str:
    """Writes lines one by one, since a child's peak memory is never below what this process has. Gives the file's name."""
    with file.open("w", encoding="ascii") as opened:
        opened.writelines(f"{it}\n" for it in lines)
    return str(file)


def save_file(nodes: int, count: int, records: Iterable[str]) -> Iterator[str]:
    """A point with so many bytes given and these records."""
    yield from ("safetynet-save 1", f"config {nodes} 16 4 256", f"marks 1 1 {4 * count}")
    yield from (f"given {place * nodes // count} 41" for place in range(count))
    yield from (f"rec {it}" for it in records)
    yield "end"


def events(count: int) -> Iterator[str]:
    """Of one core that is given bytes and echoes them, with a validation at the end."""
    ends = ["edge 0", "report 0", *["hop 1"] * 4, "deliver 1", "validate"]
    rounds = (count - len(ends)) // 6
    yield from ("input 0 41" for _ in range(rounds))
    yield from ("step 0" for _ in range(5 * rounds))
    yield from ends


def compared(program: str, simulator: str, words: List[str], room: Path) -> Tuple[Taken, Taken]:
    """The least of each, where both write the same."""
    own = [taken([program, *words], room) for _ in range(TIMES)]
    other = [taken([simulator, "--main", "--probe", *words], room) for _ in range(TIMES)]
    if (own[0].console, own[0].report) != (other[0].console, other[0].report):
        sys.exit(f"another answer: {' '.join(words)}")
    return min(own), min(other)


def main() -> int:
    if len(sys.argv) < 3:
        print(__doc__)
        return 2
    program, simulator = sys.argv[1:3]
    count = int(sys.argv[3]) if len(sys.argv) > 3 else 1_000_000
    with tempfile.TemporaryDirectory() as name:
        room = Path(name)
        echo, spot, empty = put(room / "echo.hex", ECHO), put(room / "spot.hex", ON_THE_SPOT), put(room / "empty.script", [])
        echoed = put(room / "echo.save", save_file(1, count, (f"0 {ECHOED[place % 5]}" for place in range(count))))
        turned = put(room / "spot.save", save_file(4, count, (f"{place % 4} 00000000 0" for place in range(count))))
        calls = [
            ("resume, one core that reads and puts", ["resume", echo, echoed, empty]),
            ("resume, four cores on the spot", ["resume", spot, turned, empty]),
            ("save, one core that reads and puts", ["save", "--nodes", "1", echo, put(room / "steps.script", events(count))]),
        ]
        print("call  records  program: ms, MiB  simulator: ms, MiB")
        for what, words in calls:
            own, other = compared(program, simulator, words, room)
            figures = [f"{it.seconds * 1000:.0f}, {it.memory / 2**20:.0f}" for it in (own, other)]
            print(f"{what}  {count}  {figures[0]}  {figures[1]}", flush=True)
    return 0


if __name__ == "__main__":
    sys.exit(main())
