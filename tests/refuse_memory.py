#!/usr/bin/env python3
"""Refuses each call for memory of a run in turn, and looks at what the program makes of it.

    tests/refuse_memory.py PROGRAM [MOST] [COMMAND..]

PROGRAM is the built program. For each command, or for those that are named, on its own small input the run is done once with all
memory, which counts its calls of the allocator, and then once for each of these calls with that one refused, and once with that one
and all after it refused. It must end with the status of want of memory and the one line that says so, with nothing on standard
output; or it must be as with all memory, byte for byte. A run of the command `run` on several nodes isn't the same bytes twice, so
its status must then be one in which a run ends, and its journal, replayed, must give its console and its summary; and of what was
seen of a run that is watched the last line alone is the same each time. MOST is the greatest number of calls that are refused one
by one, evenly spread; without it, or with 0, all are. The library that refuses is built by cc from tests/refuse_memory/refuse.c.
"""
import os
import struct
import subprocess
import sys
import tempfile
from itertools import product
from pathlib import Path
from typing import Dict, List, Optional, Tuple

sys.path.insert(0, str(Path(__file__).resolve().parent))
from compare_runs import ENDS, replay_differences  # noqa: E402
from outcomes import seen_last, without_reason  # noqa: E402

# What a run came to; one that doesn't end has no status.
Found = Tuple[Optional[int], bytes, bytes]

# A run's name, its words, and the files that they name.
Row = Tuple[str, List[str], Dict[str, bytes]]

HERE = Path(__file__).resolve().parent

# The longest that a run may take, in seconds.
LONGEST = 120

MEMORY_STATUS, MEMORY_LINE = 7, b"# safetynet: memory\n"

# The words of a command, and the files that they name with their bytes.
COUNTING = "".join(f"{word:08x}\n" for word in [0x800012B7, 0x00100313, 0x0062A3AF, 0x05D00893, 0x00000073]).encode()
LETTER = "".join(f"{word:08x}\n" for word in [0x04100513, 0x00100893, 0x00000073, 0x05D00893, 0x00000073]).encode()
SCRIPT = b"step 0\nstep 0\nstep 0\nedge 0\nreport 0\ndeliver 1\nvalidate\n"
RECOVERY = b"step 0\nstep 0\nstep 1\nstep 1\nstep 1\nrecover\nedge 0\n"
TRACE = b"0 00000000 0\n" * 3 + b"1 00000000 0\n" * 2 + b"1 00000001 0\n"
ACCESSES = b"init 80001000 0000002a\n0 r 80001000 4 0000002a\n1 w 80001004 1 07\n"
FOUR_NODES = ["run", "--nodes", "4", "--watch", "80001000"]
SAVED = b"safetynet-save 1\nconfig 1 16 4 256\nmarks 1 3 7\n" + b"rec 0 00000000 0\n" * 3 + b"end\n"
TEXT = b"start:\naddi a0, zero, 65\njal zero, start\n"


def linked() -> bytes:
    """The program LETTER as a linker writes it: a header that is skipped, code, and data of which the file has the first half."""
    headers = [
        (0x70000003, 0, 0, 0, 0, 0, 4, 1),
        (1, 0x1000, 0x8000_0000, 0x8000_0000, 20, 20, 5, 0x1000),
        (1, 0x2000, 0x8000_1000, 0x8000_1000, 4, 8, 6, 0x1000),
    ]
    first = struct.pack("<16sHHIIIIIHHHHHH", b"\x7fELF\1\1\1", 2, 0xF3, 1, 0x8000_0000, 52, 0, 0, 52, 32, len(headers), 0, 0, 0)
    table = b"".join(struct.pack("<8I", *row) for row in headers)
    code = b"".join(struct.pack("<I", int(word, 16)) for word in LETTER.split())
    return (first + table).ljust(0x1000, b"\0") + code.ljust(0x1000, b"\0") + bytes(4)


RUNS: List[Row] = [
    ("replay", ["replay", "--nodes", "1", "a", "b"], {"a": LETTER, "b": SCRIPT}),
    ("replay of an ELF file", ["replay", "--nodes", "1", "a", "b"], {"a": linked(), "b": SCRIPT}),
    ("replay, two nodes and a recovery", ["replay", "--nodes", "2", "--watch", "80001000", "a", "b"], {"a": COUNTING, "b": RECOVERY}),
    ("replay with the trace", ["replay", "--nodes", "1", "--trace", "a", "b"], {"a": LETTER, "b": SCRIPT}),
    ("replay of a bad script", ["replay", "--nodes", "1", "a", "b"], {"a": LETTER, "b": b"step 1\n"}),
    ("save", ["save", "--nodes", "1", "a", "b"], {"a": LETTER, "b": SCRIPT}),
    ("save, two nodes and a recovery", ["save", "--nodes", "2", "a", "b"], {"a": COUNTING, "b": RECOVERY}),
    ("resume", ["resume", "--watch", "80001000", "a", "b", "c"], {"a": LETTER, "b": SAVED, "c": b"step 0\nstep 0\n"}),
    ("resume of a bad save file", ["resume", "a", "b", "c"], {"a": LETTER, "b": SAVED.replace(b"00000000 0\nend", b"00000001 0\nend"), "c": b"step 0\n"}),
    ("check", ["check", "--nodes", "2", "a", "b"], {"a": COUNTING, "b": TRACE}),
    ("check, refused", ["check", "--nodes", "2", "a", "b"], {"a": COUNTING, "b": TRACE[:-13] + b"1 00000000 0\n"}),
    ("judge", ["judge", "a"], {"a": ACCESSES}),
    ("judge, refused", ["judge", "a"], {"a": ACCESSES + b"1 r 80001000 4 00000007\n"}),
    ("judge of a bad list", ["judge", "a"], {"a": ACCESSES + b"1 r 80001000 4 7\n"}),
    ("run", ["run", "--nodes", "1", "a"], {"a": LETTER}),
    ("run with its journal", ["run", "--nodes", "1", "--interval", "2", "--journal", "a"], {"a": LETTER}),
    ("run with the trace", ["run", "--nodes", "1", "--trace", "a"], {"a": LETTER}),
    ("run, two nodes", ["run", "--nodes", "2", "--journal", "program"], {"program": COUNTING}),
    ("run, four nodes and lost messages", [*FOUR_NODES, "--lose-every", "60", "--seed", "7", "--journal", "program"], {"program": COUNTING}),
    ("run, four nodes, more lost messages and recoveries", [*FOUR_NODES, "--lose-every", "30", "--wait", "200", "--journal", "program"], {"program": COUNTING}),
    ("run in rounds", ["run", "--nodes", "2", "--order", "round", "--journal", "program"], {"program": COUNTING}),
    ("run whose turns are drawn, lost messages", [*FOUR_NODES, "--order", "drawn", "--lose-every", "60", "program"], {"program": COUNTING}),
    ("run that is watched", ["monitor", "--nodes", "1", "a"], {"a": LETTER}),
    ("the same, two nodes and recoveries", ["monitor", "--nodes", "2", "--interval", "2", "--lose-every", "13", "--wait", "400", "a"], {"a": COUNTING}),
    ("demo", ["demo", "100"], {}),
    ("asm", ["asm", "a"], {"a": TEXT}),
    ("dis", ["dis", "a"], {"a": COUNTING}),
    ("words that are no command", ["fly"], {}),
    ("help", ["--help"], {}),
]


def built_library(folder: str) -> Path:
    """The library that refuses, built in the folder."""
    library = Path(folder, "refuse.so")
    subprocess.run(["cc", "-shared", "-fPIC", "-O1", "-o", library, HERE / "refuse_memory" / "refuse.c", "-ldl"], check=True)
    return library


def environment(folder: str, library: Path, call: int, all_after: bool) -> Dict[str, str]:
    """The variables of a run in which the library refuses this call, counted from 1, or none."""
    given = {**os.environ, "LD_PRELOAD": str(library), "REFUSE_COUNT": str(Path(folder, "count")), "REFUSE_CALL": str(call)}
    if all_after:
        given["REFUSE_ALL_AFTER"] = "1"
    return given


def read_count(folder: str) -> Optional[int]:
    """How often the last run asked for memory; None where that run left no count."""
    count = Path(folder, "count")
    made = int(count.read_text()) if count.exists() else None
    count.unlink(missing_ok=True)
    return made


def run(program: str, words: List[str], folder: str, library: Path, call: int = 0, all_after: bool = False) -> Tuple[Found, Optional[int]]:
    """Status, standard output and standard error, and how often memory was asked for; a run that doesn't end has no status."""
    given = environment(folder, library, call, all_after)
    try:
        done = subprocess.run([program, *words], cwd=folder, capture_output=True, env=given, timeout=LONGEST)
    except subprocess.TimeoutExpired:
        return (None, b"", b"it had not ended"), None
    return without_reason((done.returncode, done.stdout, done.stderr)), read_count(folder)


def is_want(found: Found) -> bool:
    """Whether memory was lacking, and nothing was written."""
    return found in [(MEMORY_STATUS, b"", MEMORY_LINE), (MEMORY_STATUS, b"", b"")]


def is_whole(program: str, words: List[str], folder: str, found: Found, ample: Found) -> bool:
    """Whether a run was as with all memory, or as it may be then where it has several workers."""
    if words[:2] != ["run", "--nodes"] or words[2] == "1" or "--order" in words:
        return seen_last(found) == seen_last(ample)
    status, console, report = found
    shown = words[1:5] if words[3] == "--watch" else words[1:3]
    return status in ENDS and not replay_differences([program], shown, console, report.decode().splitlines(), folder)


def refuse(program: str, row: Row, folder: str, library: Path, most: int) -> int:
    """How many runs of a row, with a call refused, were neither want of memory nor as with all; each is said."""
    name, words, files = row
    for file, content in files.items():
        Path(folder, file).write_bytes(content)
    ample, made = run(program, words, folder, library)
    if made is None:
        print(f"{name}: with all memory no count was left: {ample}")
        return 1
    step = max(1, made // most) if most else 1
    wants = wholes = wrong = 0
    for call, all_after in product(range(1, made + 1, step), (False, True)):
        found, _ = run(program, words, folder, library, call, all_after)
        if is_want(found):
            wants += 1
        elif is_whole(program, words, folder, found, ample):
            wholes += 1
        else:
            wrong += 1
            print(f"{name}: call {call} of {made} refused{' and all after' if all_after else ''}: {found}, and not {ample}")
    print(f"{name}: {made} calls for memory, status {ample[0]}; refused: {wants} times want of memory, {wholes} times as with all", flush=True)
    return wrong


def main() -> int:
    if len(sys.argv) < 2:
        print(__doc__)
        return 2
    program = str(Path(sys.argv[1]).resolve())
    most = int(sys.argv[2]) if len(sys.argv) > 2 else 0
    rows = [row for row in RUNS if row[1][0] in sys.argv[3:] or len(sys.argv) <= 3]
    if not rows:
        sys.exit(f"no run has the command {' or '.join(sys.argv[3:])}")
    with tempfile.TemporaryDirectory() as folder:
        library = built_library(folder)
        wrong = sum(refuse(program, row, folder, library, most) for row in rows)
    return 1 if wrong else 0


if __name__ == "__main__":
    sys.exit(main())
