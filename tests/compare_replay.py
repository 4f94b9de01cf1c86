#!/usr/bin/env python3
"""Compares `replay` on 1 to 16 nodes with a reference simulator, on random programs and scripts of every event, with and without
its options.

    tests/compare_replay.py PROGRAM SIMULATOR [COUNT] [SEED]

PROGRAM is the built program, SIMULATOR a reference simulator; both take `replay [OPTIONS] FILE SCRIPT`, and the simulator
`--main --probe` before it, to name a status as the program does and to have its probe. Console, report and exit status must be
the same. Half of the calls have options beside --nodes: other sizes, a watched word, the trace in place of the events, in any
order and either form; and a twentieth of these has a value out of its range.

The programs' cores share eight blocks, more than a set of a cache holds: they load, store, reserve, add, put bytes out and ask for
them, branch and loop. Half of the files are hexadecimal images, half ELF files; a tenth is cut or has a byte changed. Most scripts
are the journal of a run that the simulator makes with losses and dying switches, some of them with events between that fit
nothing, lines left out and lines doubled; the others are events at random, a network that is full, and lines that are no events.
"""
import random
import struct
import subprocess
import sys
import tempfile
from pathlib import Path
from typing import Dict, List, Sequence, Tuple, Union

from outcomes import Outcome, called, without_reason

ECALL = 0x73

START = 0x80000000

# The place of the code in an ELF file, after the file header and two program headers.
CODE = 52 + 2 * 32

# The most messages in flight.
NET_LIMIT = 1024

LOAD_KINDS = [0, 1, 2, 4, 5]

# Add, swap, xor, or, and, and the four of least and greatest.
ATOMIC_KINDS = [0, 1, 4, 8, 12, 16, 20, 24, 28]

LOAD_RESERVED, STORE_CONDITIONAL = 2, 3

# An option's value.
Value = Union[int, str]

# Options whose values are out of their range.
WRONG: List[Tuple[str, Value]] = [("nodes", 0), ("nodes", 17), ("sets", 0), ("sets", 257), ("ways", 17), ("log", 3), ("log", 4097),
                                  ("watch", "80000001"), ("watch", "80400000"), ("watch", "8000000"), ("nodes", "4x")]


def lui(rd: int, upper: int) -> int:
    return upper << 12 | rd << 7 | 0x37


def addi(rd: int, rs1: int, immediate: int) -> int:
    return (immediate & 0xFFF) << 20 | rs1 << 15 | rd << 7 | 0x13


def load(kind: int, rd: int, rs1: int, offset: int) -> int:
    return (offset & 0xFFF) << 20 | rs1 << 15 | kind << 12 | rd << 7 | 0x03


def store(kind: int, rs2: int, rs1: int, offset: int) -> int:
    return (offset >> 5 & 0x7F) << 25 | rs2 << 20 | rs1 << 15 | kind << 12 | (offset & 0x1F) << 7 | 0x23


def atomic(kind: int, rd: int, rs1: int, rs2: int) -> int:
    return kind << 27 | rs2 << 20 | rs1 << 15 | 2 << 12 | rd << 7 | 0x2F


def branch(kind: int, rs1: int, rs2: int, offset: int) -> int:
    high = (offset >> 12 & 1) << 31 | (offset >> 5 & 0x3F) << 25
    return high | rs2 << 20 | rs1 << 15 | kind << 12 | (offset >> 1 & 0xF) << 8 | (offset >> 11 & 1) << 7 | 0x63


def jal(rd: int, offset: int) -> int:
    return (offset >> 20 & 1) << 31 | (offset >> 1 & 0x3FF) << 21 | (offset >> 11 & 1) << 20 | (offset >> 12 & 0xFF) << 12 | rd << 7 | 0x6F


def instruction(choose: random.Random, place: int) -> int:
    """One word at random. x5 to x9 hold addresses of one set's blocks, x11 to x14 values."""
    base, value, into = choose.randrange(5, 10), choose.choice([10, 11, 12, 13, 14]), choose.randrange(11, 15)
    kind = choose.choices(["load", "store", "atomic", "reserve", "conditional", "add", "move", "call", "branch", "back"],
                          [16, 16, 8, 6, 6, 10, 14, 12, 6, 3])[0]
    if kind == "load":
        width = choose.choice(LOAD_KINDS)
        return load(width, into, base, choose.randrange(0, 16) * (4 if width == 2 else 2 if width in (1, 5) else 1))
    if kind == "store":
        width = choose.randrange(3)
        return store(width, value, base, choose.randrange(0, 16) << width)
    if kind == "atomic":
        return atomic(choose.choice(ATOMIC_KINDS), into, base, value)
    if kind == "reserve":
        return atomic(LOAD_RESERVED, into, base, 0)
    if kind == "conditional":
        return atomic(STORE_CONDITIONAL, into, base, value)
    if kind == "add":
        return addi(into, value, choose.randrange(-300, 300))
    if kind == "move":
        return lui(base, 0x80001 + choose.randrange(8))
    if kind == "call":
        return choose.choice([ECALL, ECALL, addi(17, 0, 1), addi(17, 0, choose.choice([1, 1, 2, 93, 7])), addi(10, value, 65)])
    if kind == "branch":
        return branch(choose.choice([0, 1, 4, 5, 6, 7]), value, into, choose.choice([8, 12]))
    return choose.choice([jal(0, -4 * choose.randrange(0, min(place, 12) + 1)), choose.randrange(2**32)])


def program(choose: random.Random) -> List[int]:
    """The words of a program at random, which never ends by itself but jumps back to its begin."""
    words = [lui(base, 0x80001 + choose.randrange(8)) for base in range(5, 10)] + [addi(17, 0, choose.choice([1, 1, 2]))]
    for _ in range(choose.randrange(4, 40)):
        words.append(instruction(choose, len(words)))
    return words + [jal(0, -4 * len(words))]


def hexadecimal_image(choose: random.Random, words: Sequence[int]) -> bytes:
    """Lines of words in either case and with either end, comments between them, and sometimes no end at the last."""
    lines: List[str] = []
    for word in words:
        lines += choose.choice([[], [], [], ["# a word"], [""]])
        lines.append(choose.choice([f"{word:08x}", f"{word:08X}"]))
    text = "".join(line + choose.choice(["\n", "\n", "\n", "\r\n"]) for line in lines)
    return choose.choice([text, text, text.rstrip()]).encode()


def elf_file(choose: random.Random, words: Sequence[int]) -> bytes:
    """A file header, program headers of the kinds attributes and LOAD, and the code."""
    code = struct.pack(f"<{len(words)}I", *words)
    identity = bytes([0x7F, 0x45, 0x4C, 0x46, 1, 1, 1]) + bytes(9)
    header = identity + struct.pack("<HHIIIIIHHHHHH", 2, 243, 1, START, 52, 0, 0, 52, 32, 2, 40, 0, 0)
    attributes = struct.pack("<8I", 0x70000003, 0, 0, 0, 4, 0, 4, 1)
    size = len(code) + choose.choice([0, 0, 4, 64])
    return header + attributes + struct.pack("<8I", 1, CODE, START, START, len(code), size, 5, 4096) + code


def spoiled(choose: random.Random, file: bytes) -> bytes:
    """A file that is cut, or has a byte changed."""
    place = choose.randrange(len(file))
    if choose.random() < 0.5:
        return file[:place]
    place = place if choose.random() < 0.5 else min(place, choose.randrange(CODE))
    return file[:place] + bytes([choose.randrange(256)]) + file[place + 1:]


def event(choose: random.Random, nodes: int, sent: int) -> str:
    """An event at random, most of whose numbers are near those that are there."""
    node = choose.randrange(nodes)
    message = choose.randrange(max(0, sent - 6), sent + 2) if choose.random() < 0.9 else choose.choice([0, 10**6, 2**64 - 1])
    kind = choose.choices(["step", "evict", "edge", "hop", "deliver", "lose", "kill", "report", "validate", "recover", "input"],
                          [30, 12, 6, 14, 16, 2, 1, 8, 5, 1, 4])[0]
    if kind == "evict":
        return f"evict {node} {choose.choice([64 * choose.randrange(1, 9), 64, choose.randrange(65536)])}"
    if kind in ("hop", "deliver", "lose"):
        return f"{kind} {message}"
    if kind == "kill":
        return f"kill {choose.choice('ab')}{node}"
    if kind == "input":
        return f"input {node} {choose.randrange(256):02x}"
    return kind if kind in ("validate", "recover") else f"{kind} {node}"


def journal(choose: random.Random, simulator: str, nodes: int, folder: Union[str, Path]) -> List[str]:
    """The journal of a run: each event is due, so that much is done in few events."""
    options = ["--nodes", nodes, "--seed", choose.randrange(10**6), "--budget", choose.randrange(20, 1500),
               "--interval", choose.choice([1, 3, 10, 40]), "--wait", choose.choice([100, 400, 2000]),
               "--lose-every", choose.choice([0, 0, 13, 60])]
    if choose.random() < 0.25:
        options += ["--kill", f"{choose.choice('ab')}{choose.randrange(nodes)}@{choose.randrange(300)}"]
    done = subprocess.run([simulator, "--schedule", str(choose.randrange(10**6)), "run", *map(str, options), "--journal", "program"],
                          cwd=folder, capture_output=True)
    return done.stderr.decode().splitlines()


def disturbed(choose: random.Random, lines: Sequence[str], nodes: int) -> List[str]:
    """Lines left out and doubled, and others between them."""
    result: List[str] = []
    for place, line in enumerate(lines):
        draw = choose.random()
        if draw > 0.01:
            result.append(line)
        if 0.01 < draw < 0.02:
            result.append(line)
        elif draw > 0.95:
            result.append(event(choose, nodes, place // 2))
    return result


def wrong_line(choose: random.Random, nodes: int) -> str:
    """A line that is no event of so many nodes."""
    return choose.choice([f"step {nodes}", f"kill a{nodes}", "evict 0 65536", "step 00", "Step 0", " step 0", "step 0 ", "step", "hop",
                          "deliver 18446744073709551616", "input 0 5", "input 0 5A", "kill c0", "evict 0", "fly", "\t", "validate 0"])


def script(choose: random.Random, simulator: str, nodes: int, folder: Union[str, Path]) -> str:
    """A script at random for the program that stands in the folder."""
    kind = choose.choices(["journal", "disturbed", "random", "full"], [40, 35, 20, 5])[0]
    if kind == "full":
        lines = ["report 0"] * (NET_LIMIT - choose.randrange(0, 4)) + [event(choose, nodes, NET_LIMIT) for _ in range(60)]
    elif kind == "random":
        lines = [event(choose, nodes, place // 3) for place in range(choose.randrange(0, 200))]
    else:
        lines = journal(choose, simulator, nodes, folder)
        lines = disturbed(choose, lines, nodes) if kind == "disturbed" else lines
    if choose.random() < 0.05:
        lines.insert(choose.randrange(len(lines) + 1), wrong_line(choose, nodes))
    end = choose.choice(["\n", "\n", "\n", "\r\n"])
    text = "".join(line + end for line in lines)
    return choose.choice([text, text, text.rstrip()])


def sizes(choose: random.Random, is_watched: bool = True) -> Dict[str, Value]:
    """Some of the sizes of a machine and, if it is watched, now and then a word."""
    every: List[Tuple[str, Value]] = [
        ("sets", choose.choice([1, 2, 4, 16, 256])), ("ways", choose.choice([1, 2, 4, 16])), ("log", choose.choice([4, 5, 8, 64, 4096])),
    ]
    every += [("watch", watched(choose))] if is_watched else []
    return {name: value for name, value in every if choose.random() < 0.6}


def options(choose: random.Random, values: Dict[str, Value], flags: Sequence[str] = ()) -> List[List[str]]:
    """Each option in one of its two forms, and the flags, in any order."""
    parts = [choose.choice([[f"--{name}", str(value)], [f"--{name}={value}"]]) for name, value in values.items()] + [[flag] for flag in flags]
    choose.shuffle(parts)
    return parts


def with_files(choose: random.Random, parts: List[List[str]], names: Sequence[str]) -> List[str]:
    """The files in their order among the options."""
    for place, name in enumerate(names):
        parts.insert(choose.randrange(len(parts) + 1) if place == 0 else len(parts), [name])
    return sum(parts, [])


def words(choose: random.Random, nodes: int) -> List[str]:
    """The words after `replay`: both files and the options, each in one of its two forms."""
    values: Dict[str, Value] = {"nodes": nodes}
    flags: List[str] = []
    if choose.random() < 0.5:
        values |= sizes(choose)
        flags = ["--trace"] if choose.random() < 0.4 else []
        if choose.random() < 0.05:
            name, value = choose.choice(WRONG)
            values[name] = value
    return with_files(choose, options(choose, values, flags), ["program", "events.script"])


def watched(choose: random.Random) -> str:
    """The address of a word that the programs share, of code, or of any other memory."""
    shared = 0x80001000 + 0x1000 * choose.randrange(8) + 4 * choose.randrange(16)
    address = choose.choice([shared, shared, shared, START, START + 4 * choose.randrange(2**20)])
    return choose.choice([f"{address:08x}", f"{address:08X}"])


def run(command: Sequence[str], words: Sequence[str], folder: Union[str, Path], name: str = "replay") -> Outcome:
    """What a command of a program comes to, with these words."""
    return without_reason(called([*command, name, *words], folder))


def main() -> int:
    if len(sys.argv) < 3:
        print(__doc__)
        return 2
    built, simulator = (str(Path(name).resolve()) for name in sys.argv[1:3])
    count, seed = int(sys.argv[3]) if len(sys.argv) > 3 else 1000, sys.argv[4] if len(sys.argv) > 4 else "1"
    events = released = refused = 0
    with tempfile.TemporaryDirectory() as folder:
        for case in range(count):
            choose = random.Random(f"{seed} {case}")
            nodes = choose.choice([1, 2, 2, 3, 4, 4, 6, 8, choose.randrange(1, 17)])
            file = choose.choice([hexadecimal_image, elf_file])(choose, program(choose))
            Path(folder, "program").write_bytes(file)
            text = script(choose, simulator, nodes, folder)
            Path(folder, "events.script").write_text(text)
            if choose.random() < 0.1:
                Path(folder, "program").write_bytes(spoiled(choose, file))
            given = words(choose, nodes)
            found, expected = run([built], given, folder), run([simulator, "--main", "--probe"], given, folder)
            if found != expected:
                print(f"case {case}, {' '.join(given)}: {found} and not {expected}")
                print(Path(folder, "program").read_bytes(), text)
                return 1
            events += found[2].count(b": ")
            released += len(found[1])
            refused += found[0] != 0
    print(f"{count} scripts, no difference; {events} events, {released} bytes released, {refused} files refused")
    return 0


if __name__ == "__main__":
    sys.exit(main())
