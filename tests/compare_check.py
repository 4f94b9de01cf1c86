#!/usr/bin/env python3
"""Compares `check` on 1 to 16 nodes with a reference simulator, on traces of random programs, good and spoiled.

    tests/compare_check.py PROGRAM SIMULATOR [COUNT] [SEED]

PROGRAM is the built program, SIMULATOR a reference simulator; both take `check [OPTIONS] FILE TRACE`, and the simulator `--main` before it,
to name a status as the program does. Console, report and exit status must be the same for each of COUNT (20,000) traces. Both are started
once, and each trace is judged in a process of its own that is forked from there (served_program.py).

A trace is the committed one of a run that the simulator makes, with losses and recoveries, of a program as in compare_replay.py. It is
judged as it is, cut, for another number of nodes, and spoiled: a word seen, a done store-conditional or a byte changed, a record of another
core, records left out, doubled and exchanged, in one place or a few; and some have a line that is no record.
"""
import random
import subprocess
import sys
import tempfile
from collections import Counter
from pathlib import Path
from typing import List

sys.path.insert(0, str(Path(__file__).resolve().parent))
from compare_replay import hexadecimal_image, program  # noqa: E402
from outcomes import without_reason  # noqa: E402
from served_program import ServedProgram, built_server  # noqa: E402

# How many traces are judged of one run, and how many seconds one may take.
OF_A_RUN = 20
SECONDS = 20


def trace(choose: random.Random, simulator: str, nodes: int, folder: str) -> List[str]:
    """The committed trace of a run, and the summary in comments."""
    options = ["--nodes", nodes, "--seed", choose.randrange(10**6), "--budget", choose.randrange(50, 2500), "--interval", choose.choice([1, 3, 10]),
               "--wait", choose.choice([100, 400]), "--lose-every", choose.choice([0, 0, 13, 60])]
    command = [simulator, "--schedule", str(choose.randrange(10**6)), "run", *map(str, options), "--trace", "program"]
    return subprocess.run(command, cwd=folder, capture_output=True).stderr.decode().splitlines()


def is_record(line: str) -> bool:
    return line[:1].isdigit()


def with_field(line: str, place: int, field: str) -> str:
    """A record with another word in this place."""
    fields = line.split(" ")
    return " ".join(fields[:place] + [field] + fields[place + 1:])


def spoiled_record(choose: random.Random, line: str, nodes: int) -> str:
    """A record of the same form that says something else."""
    fields = line.split(" ")
    kind = choose.choice(["seen", "seen", "done", "core", "byte"])
    if kind == "seen":
        seen = int(fields[1], 16)
        other = choose.choice([0, 1, seen + 1, seen ^ 1 << choose.randrange(32), choose.getrandbits(32)]) & 0xFFFFFFFF
        return with_field(line, 1, f"{other:08x}")
    if kind == "done":
        return with_field(line, 2, str(1 - int(fields[2])))
    if kind == "core":
        return with_field(line, 0, str(choose.randrange(nodes)))
    byte = f"{choose.randrange(256):02x}"
    return with_field(line, 3, byte) if len(fields) == 4 and choose.random() < 0.5 else " ".join(fields[:3] + [byte] * (len(fields) == 3))


def spoiled(choose: random.Random, lines: List[str], nodes: int) -> List[str]:
    """The lines of a trace with one thing wrong, in most cases."""
    records = [place for place, line in enumerate(lines) if is_record(line)]
    if not records:
        return lines
    place = choose.choice(records)
    kind = choose.choice(["record", "record", "record", "out", "double", "next", "any", "cut"])
    if kind == "record":
        return lines[:place] + [spoiled_record(choose, lines[place], nodes)] + lines[place + 1:]
    if kind == "out":
        return lines[:place] + lines[place + 1:]
    if kind == "double":
        return lines[:place] + [lines[place]] + lines[place:]
    if kind == "cut":
        return lines[:place]
    other = choose.choice(records) if kind == "any" else min(place + 1, records[-1])
    lines = list(lines)
    lines[place], lines[other] = lines[other], lines[place]
    return lines


def wrong_line(choose: random.Random, nodes: int) -> str:
    """A line that is no record of so many nodes."""
    return choose.choice([f"{nodes} 00000000 0", "0 0000000 0", "0 00000000 2", "0 0000000A 0", "00 00000000 0", "0 00000000 0 4", " 0 00000000 0", "fly"])


def text_of(choose: random.Random, lines: List[str], nodes: int) -> str:
    """What is judged of these lines: spoiled in no place, one or a few, and with either end of a line."""
    for _ in range(choose.choice([0, 1, 1, 1, 2, 4])):
        lines = spoiled(choose, lines, nodes)
    if choose.random() < 0.03:
        place = choose.randrange(len(lines) + 1)
        lines = lines[:place] + [wrong_line(choose, nodes)] + lines[place:]
    end = choose.choice(["\n", "\n", "\n", "\r\n"])
    text = "".join(line + end for line in lines)
    return choose.choice([text, text, text.rstrip()])


def judged(choose: random.Random, nodes: int) -> List[str]:
    """How many nodes the trace is judged for: in most cases those of the run."""
    count = nodes if choose.random() < 0.95 else choose.randrange(1, 17)
    return choose.choice([["--nodes", str(count)], [f"--nodes={count}"]])


def main() -> int:
    if len(sys.argv) < 3:
        print(__doc__)
        return 2
    built, simulator = (str(Path(name).resolve()) for name in sys.argv[1:3])
    count, seed = int(sys.argv[3]) if len(sys.argv) > 3 else 20_000, sys.argv[4] if len(sys.argv) > 4 else "1"
    statuses: Counter[int] = Counter()
    records = 0
    with tempfile.TemporaryDirectory() as folder:
        library = built_server(folder)
        judge, other = ServedProgram(library, built, [], folder, SECONDS), ServedProgram(library, simulator, ["--main"], folder, SECONDS)
        for case in range(count):
            choose = random.Random(f"{seed} {case}")
            if case % OF_A_RUN == 0:
                nodes = choose.choice([1, 2, 2, 3, 4, 4, 6, 8, choose.randrange(1, 17)])
                Path(folder, "program").write_bytes(hexadecimal_image(choose, program(choose)))
                lines = trace(choose, simulator, nodes, folder)
            text = text_of(choose, lines, nodes)
            Path(folder, "records.trace").write_bytes(text.encode())
            given = ["check", *judged(choose, nodes), "program", "records.trace"]
            found, expected = judge.run(given), other.run(given)
            if without_reason(found) != expected:
                print(f"case {case}, {' '.join(given)}: {found} and not {expected}")
                print(Path(folder, "program").read_text(), text)
                return 1
            statuses[found[0]] += 1
            records += sum(is_record(line) for line in text.splitlines())
        judge.end()
        other.end()
    print(f"{count} traces of {records} records, no difference; of each status {dict(sorted(statuses.items()))}")
    return 0


if __name__ == "__main__":
    sys.exit(main())
