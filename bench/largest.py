#!/usr/bin/env python3
"""The memory, the stack and the time of the largest legal inputs.

    bench/largest.py PROGRAM

Each command is run on an input at its limits. Memory is the most that the whole process had; the stack is the least limit, of 64, 128,
256 KiB and so on, under which the run ends as it does without a limit: with the same status and the same end of the report, which a run by
several workers need not have twice, so that of such a one the status counts alone. The time is of one run.
"""
import string
import struct
import subprocess
import sys
import tempfile
from itertools import islice, product
from pathlib import Path
from typing import Callable, Iterable, List, NamedTuple, Optional, Tuple, Union

START = 0x80000000
MEMORY_SIZE = 4 << 20
PROGRAM_LIMIT, SCRIPT_LIMIT, EVENT_LIMIT = 16 << 20, 32 << 20, 1_000_000
WORD_LIMIT = 1_048_576

NOP, JUMP_BACK = 0x00000013, 0xFFDFF06F
LETTER = [0x04100513, 0x00100893, 0x00000073, 0xFF5FF06F]


def image(words: List[int]) -> str:
    """A hexadecimal image: a line of each word."""
    return "".join(f"{word:08x}\n" for word in words)


def whole_memory_image() -> bytes:
    """A word for each word of memory, and comments up to the limit of a program."""
    text = image([NOP] * (MEMORY_SIZE // 4 - 1) + [JUMP_BACK])
    return (text + "#" * (PROGRAM_LIMIT - len(text))).encode()


def whole_memory_elf() -> bytes:
    """One segment over all of memory, and bytes after it up to the limit."""
    code = struct.pack("<I", NOP) * (MEMORY_SIZE // 4 - 1) + struct.pack("<I", JUMP_BACK)
    identity = bytes([0x7F, 0x45, 0x4C, 0x46, 1, 1, 1]) + bytes(9)
    header = identity + struct.pack("<HHIIIIIHHHHHH", 2, 243, 1, START, 52, 0, 0, 52, 32, 1, 40, 0, 0)
    segment = struct.pack("<8I", 1, 84, START, START, len(code), len(code), 5, 4)
    return (header + segment + code).ljust(PROGRAM_LIMIT, b"\0")


def filled(lines: Iterable[str]) -> bytes:
    """The lines, and one comment up to the limit of a script."""
    text = "".join(line + "\n" for line in lines)
    return (text + "#" * (SCRIPT_LIMIT - len(text))).encode()


def largest_save() -> bytes:
    """As many records and bytes given as may be saved, and all blocks in the largest caches of 16 nodes."""
    lines = ["safetynet-save 1", "config 16 256 16 4096", "marks 1 1 3000000000"]
    lines += [f"owner {block} {block // 4096}" for block in range(65536)]
    lines += [f"given {place * 16 // EVENT_LIMIT} 41" for place in range(EVENT_LIMIT)]
    lines += [f"rec {place % 16} 00000000 0" for place in range(EVENT_LIMIT)]
    return "".join(f"{line}\n" for line in [*lines, "end"]).encode()


def checkpoints(nodes: int) -> List[str]:
    """Steps of all nodes, and now and then a checkpoint that is validated: all of what waits is committed."""
    lines: List[str] = []
    message = 1
    while len(lines) < EVENT_LIMIT - 200:
        lines += [f"step {node}" for node in range(nodes) for _ in range(16)]
        lines += [f"edge {node}" for node in range(nodes)]
        for node in range(nodes):
            lines.append(f"report {node}")
            lines += [f"hop {message}"] * 6
            lines.append(f"deliver {message}")
            message += 1
        lines.append("validate")
        for _ in range(nodes):
            lines += [f"hop {message}"] * 6
            lines.append(f"deliver {message}")
            message += 1
    return lines[:EVENT_LIMIT] + ["recover"] * (EVENT_LIMIT - len(lines))


# Each node stores to a sixteenth of the blocks, one after another from the second page on, and begins again: lui t1, 0x80400;
# lui t0, 0x80001; slli t2, a0, 6; add t0, t0, t2; sw a0, 0(t0); addi t0, t0, 1024; bltu t0, t1, -8; jal zero, -24.
STORES = [0x80400337, 0x800012B7, 0x00651393, 0x007282B3, 0x00A2A023, 0x40028293, 0xFE62ECE3, 0xFE9FF06F]


def store_image() -> bytes:
    """The words of that program, and comments up to the limit of a program."""
    text = image(STORES)
    return (text + "#" * (PROGRAM_LIMIT - len(text))).encode()


def labels() -> bytes:
    """As many labels as fit the limit of a text, and no statement."""
    digits = string.digits + string.ascii_lowercase
    names = ("".join(name) for name in product(string.ascii_lowercase, *[digits] * 4))
    return b"".join(f"{name}:\n".encode() for name in islice(names, PROGRAM_LIMIT // 7))


def long_statements() -> bytes:
    """As many statements as there are words of memory, each of so many letters that they come to the limit of a text."""
    return b"addi a0, a0, -1\n" * WORD_LIMIT


LARGE = ["--nodes", "16", "--sets", "256", "--ways", "16", "--log", "4096"]

Make = Optional[Callable[[], bytes]]

# What is run: its name, the words, and what makes the files `a` and `b`.
RUNS: List[Tuple[str, List[str], Make, Make]] = [
    ("replay, 1,000,000 steps of 16 nodes with the largest caches and logs, a program of 16 MiB", ["replay", *LARGE, "a", "b"],
     whole_memory_image, lambda: filled(f"step {place % 16}" for place in range(EVENT_LIMIT))),
    ("the same with an ELF file, and the trace", ["replay", *LARGE, "--trace", "a", "b"],
     whole_memory_elf, lambda: filled(f"step {place % 16}" for place in range(EVENT_LIMIT))),
    ("replay, 1,000,000 events of 16 nodes with checkpoints that are validated", ["replay", *LARGE, "a", "b"],
     lambda: image(LETTER).encode(), lambda: filled(checkpoints(16))),
    ("replay, 1,000,000 bytes of input for one of 16 nodes", ["replay", *LARGE, "a", "b"],
     lambda: image(LETTER).encode(), lambda: filled(f"input {place % 16} 41" for place in range(EVENT_LIMIT))),
    ("resume, 1,000,000 records, as many bytes given, and all blocks in the largest caches of 16 nodes, an ELF file of 16 MiB",
     ["resume", "a", "b", "/dev/null"], whole_memory_elf, largest_save),
    ("check, 1,000,000 records of 16 nodes", ["check", "--nodes", "16", "a", "b"],
     whole_memory_image, lambda: filled(f"{place % 16} 00000000 0" for place in range(EVENT_LIMIT))),
    ("the same with an ELF file", ["check", "--nodes", "16", "a", "b"],
     whole_memory_elf, lambda: filled(f"{place % 16} 00000000 0" for place in range(EVENT_LIMIT))),
    ("run, 1,000,000 events of 16 nodes that store to all blocks, with the largest caches and logs", ["run", *LARGE, "--interval", "1000", "a"],
     store_image, None),
    ("the same with its journal, and lost messages", ["run", *LARGE, "--interval", "1000", "--lose-every", "5000", "--journal", "a"], store_image, None),
    ("run, 1,000,000 events of 16 nodes, a program of 16 MiB, with the trace", ["run", *LARGE, "--trace", "a"], whole_memory_elf, None),
    ("monitor, 1,000,000 events of 16 nodes that store to all blocks, with the largest caches and logs", ["monitor", *LARGE, "--interval", "1000", "a"],
     store_image, None),
    ("demo 1000000", ["demo", "1000000"], None, None),
    ("asm, 1,048,576 statements, a text of 16 MiB", ["asm", "a"], long_statements, None),
    ("asm, 2,396,745 labels, a text of 16 MiB", ["asm", "a"], labels, None),
    ("dis, a program of 16 MiB", ["dis", "a"], whole_memory_image, None),
]


# Runs a command from a small process: the system counts what a process had before it became another as the other's.
LAUNCH = """
import os, resource, subprocess, sys, time
stack = int(sys.argv[1])
def limit():
    if stack:
        resource.setrlimit(resource.RLIMIT_STACK, (stack, stack))
begin = time.monotonic()
child = subprocess.Popen(sys.argv[2:], stdout=subprocess.DEVNULL, stderr=open("report", "wb"), preexec_fn=limit)
_, status, used = os.wait4(child.pid, 0)
print(os.waitstatus_to_exitcode(status), time.monotonic() - begin, used.ru_maxrss / 1024)
"""


class Found(NamedTuple):
    """What a run came to, and what it took."""

    status: int
    seconds: float
    mebibytes: float
    end: bytes


def run(program: str, words: List[str], folder: str, stack: int = 0) -> Found:
    """A run with so many bytes of stack, or without a limit; its end is that of what was reported."""
    done = subprocess.run([sys.executable, "-c", LAUNCH, str(stack), program, *words], cwd=folder, capture_output=True, check=True)
    status, seconds, memory = done.stdout.split()
    return Found(int(status), float(seconds), float(memory), Path(folder, "report").read_bytes()[-200:])


def told(words: List[str], found: Found) -> Union[int, Tuple[int, bytes]]:
    """What of a run counts that was done again: its status, and the end of its report where that is the same each time."""
    return found.status if words[0] == "run" else (found.status, found.end)


def least_stack(program: str, words: List[str], folder: str, expected: Union[int, Tuple[int, bytes]]) -> str:
    """The least limit under which the run is told as it is expected."""
    stack = 64 << 10
    while told(words, run(program, words, folder, stack)) != expected:
        stack *= 2
        if stack > 64 << 20:
            return "none"
    return f"{stack >> 10} KiB"


def main() -> int:
    if len(sys.argv) != 2:
        print(__doc__)
        return 2
    program = str(Path(sys.argv[1]).resolve())
    print("| Input | Status | Time | Memory | Stack |\n|---|---|---|---|---|")
    for name, words, first, second in RUNS:
        with tempfile.TemporaryDirectory() as folder:
            for file, make in (("a", first), ("b", second)):
                if make:
                    Path(folder, file).write_bytes(make())
            found = run(program, words, folder)
            stack = least_stack(program, words, folder, told(words, found))
            print(f"| {name} | {found.status} | {found.seconds:.2f} s | {found.mebibytes:.0f} MiB | {stack} |", flush=True)
    return 0


if __name__ == "__main__":
    sys.exit(main())
