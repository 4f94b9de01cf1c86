#!/usr/bin/env python3
"""Gives the program spoiled programs, scripts, control files, save files, traces, texts and words for as long as it is told.

    tests/mutate_inputs.py PROGRAM SIMULATOR COUNT [SEED] [PROCESSES]

PROGRAM is the built program, SIMULATOR a reference simulator. Each case takes a good input of a command and spoils one or a few of
its parts: bytes changed, cut, doubled or moved, numbers at their greatest, lines of other kinds. The program must end by itself,
with a status that its page names; a second run must give the same bytes, but for the cuts that a watcher saw before the last; and where
the simulator has the command, console, report and status must be the simulator's, but for these. COUNT cases are shared among PROCESSES
processes. The first difference of each is shown.

Both programs are started once and forked for each run, before their main (served_program.py), which needs cc; every hundredth case is run
in the ordinary way too, with the same bytes.
"""
import random
import sys
import tempfile
from concurrent.futures import ProcessPoolExecutor
from pathlib import Path
from typing import Dict, List, Optional, Sequence, Tuple, Union

sys.path.insert(0, str(Path(__file__).resolve().parent))
import compare_replay  # noqa: E402
from outcomes import Outcome, called, commands_of, seen_last, without_reason  # noqa: E402
from served_program import ServedProgram, built_server  # noqa: E402

STATUSES = {0, 1, 2, 3, 4, 5, 6, 7, 8, 9, 10, 12, 13}

# The longest that a case may take.
SECONDS = 60

# How often each command comes, of those that the program's page names.
SHARES = {"replay": 50, "roll": 15, "save": 10, "resume": 40, "check": 20, "judge": 12, "asm": 12, "dis": 14, "demo": 4, "run": 10, "monitor": 8}

# Words of which the simulator knows nothing, and commands that aren't its own.
OWN_WORDS = {"--help", "-h", "help", "--version", "--order", "--states", "--only", "--statistics", "--accesses", "--seeds"}
OWN_COMMANDS = {"judge", "drive"}

LETTERS = b" \t\r\n#0123456789abcdefABCDEF-=@xx" + bytes([0, 0x7F, 0x80, 0xEF, 0xBB, 0xBF, 0xFF])

GREAT = [b"18446744073709551615", b"18446744073709551616", b"4294967295", b"4294967296", b"65535", b"65536", b"1000000", b"1000001",
         b"00", b"-1", b"99999999999999999999", b"999999999999999999999"]

STATEMENTS = [b"addi a0, zero, 65", b"lui t0, 0x80001", b"amoadd.w t2, t1, (t0)", b"lw a1, 4(t0)", b"sw a1, -4(t0)", b"ecall", b"loop:",
              b"jal zero, loop", b"beq a0, a1, loop", b".word 0x12345678", b"# a line", b"lr.w a2, (t0)", b"sc.w a3, a2, (t0)", b"nop"]

CONTROLS = [b"order 0", b"order 1", b"repeat 1", b"repeat 2", b"lose 1", b"lose 3", b"deliver 1", b"deliver 2", b"deliver 3", b"deliver 4", b"finish", b"# a step"]

SAVED = [b"owner 64 0", b"owner 64 1", b"owner 128 0", b"given 0 41", b"given 1 00", b"dead a0", b"dead b1", b"rec 0 00000000 0", b"rec 1 00000000 0",
         b"rec 0 00000000 0 41", b"rec 0 00000001 0"]

RECORDS = [b"0 00000000 0", b"1 00000000 0", b"0 00000001 0", b"1 00000001 0", b"0 00000000 1", b"0 00000000 0 41", b"3 00000000 0", b"# a record"]

ACCESSES = [b"0 w 80001000 4 00000001", b"1 r 80001000 4 00000001", b"0 r 80001000 4 00000000", b"1 lr 80001000 4 00000001", b"1 sc 80001000 4 00000002",
            b"0 scfail 80001000 4 00000003", b"2 amo 80001000 4 00000003 00000002", b"0 r 80001001 1 00", b"3 w 80001002 2 ffff", b"init 80001004 0000002a", b"# an access"]


def changed(choose: random.Random, file: bytes) -> bytes:
    """Some bytes of a file changed, cut, doubled or moved."""
    data = bytearray(file)
    for _ in range(choose.choice([1, 1, 1, 2, 5])):
        if not data:
            return bytes([choose.choice(LETTERS)])
        place, length = choose.randrange(len(data)), choose.choice([1, 1, 2, 4, 16])
        kind = choose.randrange(7)
        if kind == 0:
            data[place] = choose.randrange(256)
        elif kind == 1:
            data[place] = choose.choice(LETTERS)
        elif kind == 2:
            del data[place:place + length]
        elif kind == 3:
            data[place:place] = data[place:place + length]
        elif kind == 4:
            del data[place:]
        elif kind == 5:
            data[place:place] = choose.choice(GREAT)
        else:
            data[place:place + 4] = choose.choice([b"\xff\xff\xff\xff", b"\0\0\0\0", b"\0\0\0\x80", b"\xff\xff\xff\x7f"])
    return bytes(data)


def maybe_changed(choose: random.Random, data: bytes, chance: float) -> bytes:
    return changed(choose, data) if choose.random() < chance else data


def program(choose: random.Random) -> bytes:
    """The file of a program at random, of either kind."""
    make = choose.choice([compare_replay.hexadecimal_image, compare_replay.elf_file])
    return make(choose, compare_replay.program(choose))


def lines(choose: random.Random, kinds: Sequence[bytes], most: int) -> bytes:
    """A text of less than so many lines of these kinds."""
    end = choose.choice([b"\n", b"\n", b"\r\n", b"\r"])
    return b"".join(choose.choice(kinds) + end for _ in range(choose.randrange(most)))


def saved(choose: random.Random, nodes: int) -> bytes:
    """A save file that is one of a machine at its start, or near it."""
    applied = choose.choice([0, 1, 4, 20])
    items = sorted(choose.sample(SAVED, choose.randrange(5)), key=lambda line: [b"d", b"o", b"g", b"r"].index(line[:1])) if applied else []
    head = [b"safetynet-save 1", f"config {nodes} 16 4 256".encode(), f"marks {min(applied, choose.randrange(3))} {1 + applied} {applied}".encode()]
    return b"".join(line + b"\n" for line in [*head, *items, b"end"])


def script(choose: random.Random, nodes: int) -> bytes:
    """A script of a few events at random."""
    return b"".join(compare_replay.event(choose, nodes, place // 3).encode() + b"\n" for place in range(choose.randrange(30)))


def spoiled_words(choose: random.Random, given: Sequence[str]) -> List[str]:
    """The words with none, one or two of them put in, left out, changed or doubled."""
    words = list(given)
    for _ in range(choose.choice([0, 0, 0, 1, 1, 2])):
        place = choose.randrange(len(words) + 1)
        kind = choose.randrange(4)
        if kind == 0:
            words.insert(place, choose.choice(["--nodes", "--nodes=3", "--sets=1", "--ways=16", "--log=4", "--trace", "--trace=x", "--watch", "--watch=80001000",
                                               "--", "-", "", "--help", "-h", "help", "--version", "b", "--nodes=0", "--nodes=99999999999999999999", "--journal"]))
        elif kind == 1 and words:
            del words[min(place, len(words) - 1)]
        elif kind == 2 and words:
            words[min(place, len(words) - 1)] = choose.choice(["replay", "roll", "save", "resume", "monitor", "check", "judge", "asm", "dis", "demo", "fly", "a", "nowhere", "1", "é"])
        elif words:
            words.insert(place, words[min(place, len(words) - 1)])
    return words


def run_words(choose: random.Random, command: str) -> List[str]:
    """A run with one worker, which is the same each time but for what was seen of it, if it is watched."""
    words = [command, "--nodes", "1", f"--budget={choose.choice([1, 7, 100, 400])}"]
    options: Dict[str, Sequence[Union[int, str]]] = {
        "interval": [1, 5, 100], "wait": [1, 50, 20000], "lose-every": [0, 1, 9], "seed": [0, 1, 2**64 - 1], "kill": ["a0@0", "b0@30"],
        **({"order": ["threads", "round", "drawn"]} if command == "run" else {})}
    for name, values in options.items():
        if choose.random() < 0.4:
            words.append(f"--{name}={choose.choice(values)}")
    flags: List[str] = choose.choice([[], [], ["--journal"], ["--trace"]]) if command == "run" else []
    return [*words, *flags, "a"]


def case_of(choose: random.Random, commands: Sequence[str]) -> Tuple[List[str], Dict[str, bytes]]:
    """Words, and the files that stand there."""
    nodes = choose.choice([1, 1, 2, 4])
    kind = choose.choices(commands, [SHARES[it] for it in commands])[0]
    chance = choose.choice([0, 0.5, 1])
    files = {"a": maybe_changed(choose, program(choose), 1 - chance)}
    words = [kind, "a"]
    if kind == "replay":
        files["b"] = maybe_changed(choose, script(choose, nodes), chance)
        words = [kind, "--nodes", str(nodes), "a", "b"]
    elif kind == "roll":
        files["b"] = maybe_changed(choose, script(choose, nodes), chance / 2)
        files["c"] = maybe_changed(choose, lines(choose, CONTROLS, 20), chance)
        words = [kind, "--nodes", str(nodes), "a", "b", "c"]
    elif kind == "save":
        files["b"] = maybe_changed(choose, script(choose, nodes), chance)
        words = [kind, "--nodes", str(nodes), "a", "b"]
    elif kind == "resume":
        files["b"] = maybe_changed(choose, saved(choose, nodes), chance)
        files["c"] = maybe_changed(choose, script(choose, nodes), chance / 2)
        words = [kind, "a", "b", "c"]
    elif kind == "check":
        files["b"] = maybe_changed(choose, lines(choose, RECORDS, 12), chance)
        words = [kind, f"--nodes={nodes}", "a", "b"]
    elif kind == "judge":
        files["a"] = maybe_changed(choose, lines(choose, ACCESSES, 12), chance)
    elif kind == "asm":
        files["a"] = maybe_changed(choose, lines(choose, STATEMENTS, 12), chance)
    elif kind == "demo":
        words = [kind, choose.choice(["0", "1", "50", "007", "1000001", "x", ""])]
    elif kind in ("run", "monitor"):
        words = run_words(choose, kind)
    return spoiled_words(choose, words), files


def is_own(words: Sequence[str]) -> bool:
    """Whether the program answers by itself: with its own pages, or what the simulator doesn't know or knows as something else."""
    return not words or words[0] in OWN_COMMANDS or any(word.split("=")[0] in OWN_WORDS for word in words)


def has_one_outcome(words: Sequence[str]) -> bool:
    """Whether the words' run is the same each time: with more workers than one a run is as the threads come."""
    return words[:1] != ["run"] or words[1:3] == ["--nodes", "1"]


def put_files(folder: Path, files: Dict[str, bytes]) -> None:
    """Just these files stand there then."""
    for name in ("a", "b", "c"):
        if name in files:
            Path(folder, name).write_bytes(files[name])
        else:
            Path(folder, name).unlink(missing_ok=True)


class Pair:
    """The program and the simulator, each started once, in a folder of the cases' files."""

    def __init__(self, built: str, simulator: str, folder: str) -> None:
        library = built_server(folder)
        self.folder = Path(folder, "files")
        self.folder.mkdir()
        self.built, self.commands = built, commands_of(built, SHARES)
        self.program = ServedProgram(library, built, [], self.folder, SECONDS)
        self.other = ServedProgram(library, simulator, ["--main", "--probe"], self.folder, SECONDS)

    def difference(self, seed: str, case: int) -> Tuple[Optional[str], int]:
        """What is wrong with a case, as text, or None; and its status."""
        words, files = case_of(random.Random(f"{seed} {case}"), self.commands)
        put_files(self.folder, files)
        found = self.program.run(words)
        others: List[Tuple[str, Outcome]] = []
        if has_one_outcome(words):
            if not is_own(words) and seen_last(self.other.run(words)) != seen_last(without_reason(found)):
                return f"case {case}, {words}: {found}, and the simulator: {self.other.run(words)}; {files}", found[0]
            others += [("once more", self.program.run(words))] if case % 4 == 0 else []
            others += [("started for it", called([self.built, *words], self.folder, SECONDS))] if case % 100 == 0 else []
        if found[0] not in STATUSES:
            return f"case {case}, {words}: status {found[0]}; {found}; {files}", found[0]
        for name, other in others:
            if seen_last(other) != seen_last(found):
                return f"case {case}, {words}: {found}, and {name}: {other}; {files}", found[0]
        return None, found[0]

    def end(self) -> None:
        self.program.end()
        self.other.end()


def share(built: str, simulator: str, seed: str, cases: range) -> Tuple[Optional[str], Dict[int, int]]:
    """The first difference in these cases, if there is one, and how many had each status."""
    counts: Dict[int, int] = {}
    # Where the system has a folder in memory, the files stand there.
    with tempfile.TemporaryDirectory(dir="/dev/shm" if Path("/dev/shm").is_dir() else None) as folder:
        pair = Pair(built, simulator, folder)
        for done, case in enumerate(cases):
            text, status = pair.difference(seed, case)
            if text:
                return text, counts
            counts[status] = counts.get(status, 0) + 1
            if done % 10_000 == 9_999:
                print(f"{done + 1} of {len(cases)} cases of the share that begins with {cases[0]}", file=sys.stderr, flush=True)
        pair.end()
    return None, counts


def main() -> int:
    if len(sys.argv) < 4:
        print(__doc__)
        return 2
    built, simulator = (str(Path(name).resolve()) for name in sys.argv[1:3])
    count, seed = int(sys.argv[3]), sys.argv[4] if len(sys.argv) > 4 else "1"
    processes = int(sys.argv[5]) if len(sys.argv) > 5 else 1
    counts: Dict[int, int] = {}
    with ProcessPoolExecutor(processes) as pool:
        shares = [pool.submit(share, built, simulator, seed, range(first, count, processes)) for first in range(processes)]
        texts = []
        for done in shares:
            text, part = done.result()
            texts += [text] if text else []
            for status, times in part.items():
                counts[status] = counts.get(status, 0) + times
    for text in texts:
        print(text)
    told = ", ".join(f"{status}: {times}" for status, times in sorted(counts.items()))
    print(f"{sum(counts.values())} cases, {len(texts)} differences; by status {told}")
    return 1 if texts else 0


if __name__ == "__main__":
    sys.exit(main())
