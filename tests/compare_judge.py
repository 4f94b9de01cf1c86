#!/usr/bin/env python3
"""Compares `safetynet judge` with a judge in plain Python, on lists of accesses that a generator makes.

    tests/compare_judge.py PROGRAM [COUNT [SEED]]   COUNT lists (default 500), each judged by both
    tests/compare_judge.py --examples [PROGRAM]     examples/judge, by the judge here and, where it is given, by the program

A list is made by cores that access one flat memory in turn, so it is legal. Two of three are spoiled after that: a value
is changed, an access is left out, two accesses change places, or a failed store-conditional becomes one that was done.
The judge here knows nothing of blocks' projections: it keeps one memory of bytes and each core's reservation.
"""
import pathlib
import random
import subprocess
import sys
import tempfile
from typing import Optional

RAM_START, RAM_END, BLOCK = 0x80000000, 0x80400000, 64


class Memory:
    """Bytes by address, the block that each core has reserved, and which access made it so."""

    def __init__(self) -> None:
        self.bytes: dict[int, int] = {}
        self.writer: dict[int, int] = {}
        self.reserved: dict[int, int] = {}
        self.history: list[tuple[int, str, int, int]] = []

    def value(self, address: int, size: int) -> int:
        """The number at an address, its lowest byte first."""
        return sum(self.bytes.get(address + k, 0) << 8 * k for k in range(size))

    def store(self, address: int, size: int, value: int, place: int) -> None:
        """Writes a number; `place` is the access, from 1, or 0 before the first."""
        for k in range(size):
            self.bytes[address + k] = value >> 8 * k & 0xFF
            self.writer[address + k] = place

    def since(self, address: int, size: int) -> int:
        """The last access that wrote one of these bytes, or 0."""
        return max(self.writer.get(address + k, 0) for k in range(size))

    def do(self, core: int, op: str, address: int, size: int, value: int, place: int) -> None:
        """Does a legal access: what it writes, and the reservations that it makes and ends."""
        block = address // BLOCK
        if op in ("w", "sc", "amo"):
            self.store(address, size, value, place)
            for other in [n for n, b in self.reserved.items() if n != core and b == block]:
                del self.reserved[other]
        if op == "lr":
            self.reserved[core] = block
        if op in ("sc", "scfail"):
            self.reserved.pop(core, None)
        self.history.append((core, op, address, size))

    def ended(self, core: int, block: int) -> int:
        """The last access that ended a reservation of the block by the core, or would have; or 0."""
        for place in range(len(self.history), 0, -1):
            by, op, address, _size = self.history[place - 1]
            same = address // BLOCK == block
            if by == core and (op in ("sc", "scfail") or (op == "lr" and not same)):
                return place
            if by != core and op in ("w", "sc", "amo") and same:
                return place
        return 0


def judge(text: str) -> str:
    """The verdict's text on a list that is of the right form."""
    memory = Memory()
    place = 0
    for line in text.splitlines():
        words = line.split(" ")
        if not line or line.startswith("#"):
            continue
        if words[0] == "init":
            memory.store(int(words[1], 16), 4, int(words[2], 16), 0)
            continue
        place += 1
        core, op, address, size = int(words[0]), words[1], int(words[2], 16), int(words[3])
        block = address // BLOCK
        value, seen = int(words[4], 16), None
        if op in ("r", "lr"):
            seen = value
        if op == "amo":
            seen = int(words[5], 16)
        if seen is not None and seen != memory.value(address, size):
            expected = f"{memory.value(address, size):0{2 * size}x}"
            return f"refused {place}\nexpected {expected} since {memory.since(address, size)}\n"
        if op == "sc" and memory.reserved.get(core) != block:
            return f"refused {place}\nunreserved since {memory.ended(core, block)}\n"
        memory.do(core, op, address, size, value, place)
    return f"legal {place}\n"


def legal_list(rng: random.Random) -> list[str]:
    """Lines of a legal list: cores that access one memory in turn."""
    memory = Memory()
    cores = rng.randint(1, 16)
    blocks = [rng.randrange(65536) for _ in range(rng.randint(1, 3))]
    starts, lines = [], []
    for _ in range(rng.randint(0, 4)):
        address, word = RAM_START + BLOCK * rng.choice(blocks) + 4 * rng.randrange(16), rng.getrandbits(32)
        memory.store(address, 4, word, 0)
        starts.append(f"init {address:08x} {word:08x}")
    for _ in range(rng.randint(0, 60)):
        core, size = rng.randrange(cores), rng.choice((1, 2, 4))
        address = RAM_START + BLOCK * rng.choice(blocks) + size * rng.randrange(BLOCK // size)
        block, value = address // BLOCK, rng.getrandbits(8 * size)
        op = rng.choice(("r", "w", "lr", "sc", "amo", "r", "lr"))
        now = memory.value(address, size)
        if op == "sc" and (memory.reserved.get(core) != block or rng.random() < 0.2):
            op = "scfail"
        if op in ("r", "lr"):
            value = now
        old = f" {now:0{2 * size}x}" if op == "amo" else ""
        lines.append(f"{core} {op} {address:08x} {size} {value:0{2 * size}x}{old}")
        memory.do(core, op, address, size, value, 1)
    return starts + lines


def spoiled(rng: random.Random, lines: list[str]) -> list[str]:
    """The same with one thing wrong, or none: it may still be legal."""
    places = [k for k, line in enumerate(lines) if not line.startswith("init")]
    kind = rng.randrange(6)
    if not places or kind < 2:
        return lines
    lines, k = list(lines), rng.choice(places)
    words = lines[k].split(" ")
    if kind == 2:
        digits = list(words[-1])
        digits[rng.randrange(len(digits))] = rng.choice("0123456789abcdef")
        lines[k] = " ".join(words[:-1] + ["".join(digits)])
    elif kind == 3:
        del lines[k]
    elif kind == 4:
        other = rng.choice(places)
        lines[k], lines[other] = lines[other], lines[k]
    elif words[1] == "scfail":
        lines[k] = " ".join([words[0], "sc"] + words[2:])
    return lines


def said_by(program: str, text: str) -> str:
    """What the program reports, without the lines that say how the call ended."""
    with tempfile.NamedTemporaryFile("w", suffix=".accesses") as file:
        file.write(text)
        file.flush()
        done = subprocess.run([program, "judge", file.name], capture_output=True, text=True, check=False)
    return "".join(line + "\n" for line in done.stderr.splitlines() if not line.startswith("# "))


def examples(program: Optional[str]) -> int:
    """How many of examples/judge differ from what stands beside them."""
    wrong = 0
    for path in sorted((pathlib.Path(__file__).parent.parent / "examples" / "judge").glob("*.accesses")):
        text, wanted = path.read_text(), path.with_suffix(".report").read_text()
        for who, found in (("here", judge(text)), ("program", said_by(program, text) if program else wanted)):
            if found != wanted:
                wrong += 1
                print(f"{path.name}, {who}: {found!r} and not {wanted!r}")
    return wrong


def main() -> int:
    if sys.argv[1:2] == ["--examples"]:
        return 1 if examples(sys.argv[2] if len(sys.argv) > 2 else None) else 0
    if len(sys.argv) < 2:
        print(__doc__)
        return 2
    program, count = sys.argv[1], int(sys.argv[2]) if len(sys.argv) > 2 else 500
    rng = random.Random(int(sys.argv[3]) if len(sys.argv) > 3 else 1)
    refused = 0
    for number in range(count):
        text = "".join(line + "\n" for line in spoiled(rng, legal_list(rng)))
        wanted, found = judge(text), said_by(program, text)
        refused += wanted.startswith("refused")
        if wanted != found:
            print(f"list {number}: the program says {found!r}, and the judge here {wanted!r}:\n{text}")
            return 1
    print(f"{count} lists, {refused} of them refused: all agree")
    return 0


if __name__ == "__main__":
    sys.exit(main())
