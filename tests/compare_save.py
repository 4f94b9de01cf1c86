#!/usr/bin/env python3
"""Compares `save` and `resume` with a reference simulator, on random programs, scripts, cuts, later scripts and spoiled save files.

    tests/compare_save.py PROGRAM SIMULATOR [COUNT] [SEED] [SPOILINGS] [PROCESSES]

PROGRAM is the built program, SIMULATOR a reference simulator; both take `save [OPTIONS] FILE SCRIPT` and `resume [OPTIONS] FILE SAVE
SCRIPT`, and the simulator `--main --probe` before it, as in compare_replay.py. Console, report and exit status must be the same, and a
call that isn't done says why once.

Programs and scripts are those of compare_replay.py, and a seventh of them cores that read bytes which they are given. Each of COUNT
cases (default 1000) saves once and resumes from what was saved, as it is, and then as often as SPOILINGS says (default 2) from a file
that is spoiled in one place or more. Where a script is the journal of a run that recovers, most are cut at a recovery, so that the later
events are due after it, and others behind a validation. Where the point that was saved is resumed as it is, the program's two consoles
joined and its summary are held against the simulator's replay of both scripts with a recovery between them, too. The cases are shared
among PROCESSES processes (default 1); the first difference of each is shown.

Both programs are started once and forked for each call, before their main (served_program.py), which needs cc.
"""
from __future__ import annotations

import random
import sys
import tempfile
from collections import Counter
from concurrent.futures import ProcessPoolExecutor
from pathlib import Path
from typing import NamedTuple

sys.path.insert(0, str(Path(__file__).resolve().parent))
import compare_replay  # noqa: E402
from compare_replay import Value, options, sizes, with_files  # noqa: E402
from outcomes import Outcome, is_explained, without_reason  # noqa: E402
from served_program import ServedProgram, built_server  # noqa: E402

# The longest that a call may take.
SECONDS = 120

# The names of a case's files: the program, the events and those that come later, and the save file.
PROGRAM, EVENTS, LATER, SAVE = "program", "events.script", "later.script", "point.save"

# The bounds of a save file's numbers, and their neighbours.
BOUNDS = [0, 1, 2, 3, 4, 15, 16, 17, 255, 256, 257, 4095, 4096, 4097, 65535, 65536, 999999, 10**6, 10**6 + 1, 2**32 - 1, 2**32,
          3 * 10**9, 3 * 10**9 + 1, 2**63, 2**64 - 1, 2**64, 10**20]

# How often each thing is done to a save file.
KINDS = {"number": 26, "digit": 28, "marks": 8, "crowded": 12, "letter": 8, "left out": 8, "doubled": 6, "exchanged": 6, "inserted": 12,
         "moved": 4, "blanks": 2, "zero": 2}

# How a call ended, and what it wrote to the console and the report.


class Difference(NamedTuple):
    """A call whose outcome isn't the expected one."""

    words: list[str]
    found: object
    expected: object


def parted(choose: random.Random, lines: list[str]) -> tuple[list[str], list[str]]:
    """Events, and those that come later: cut at a recovery or behind a validation, where there is one, or anywhere."""
    recoveries, validations = ([place for place, line in enumerate(lines) if line == word] for word in ("recover", "validate"))
    if recoveries and choose.random() < 0.6:
        place = choose.choice(recoveries)
        return lines[:place], lines[place + 1:]
    place = choose.choice(validations) + 1 if validations and choose.random() < 0.7 else choose.randrange(len(lines) + 1)
    return lines[:place], lines[place:]


def other_number(choose: random.Random, word: str) -> str:
    """A number in place of another: one near it, or a bound."""
    if not word.isdigit():
        return word
    near = max(0, int(word) + choose.choice([-2, -1, -1, 1, 1, 2, 16, -16]))
    return str(choose.choice([near, near, near, choose.choice(BOUNDS), choose.randrange(10**6)]))


def number_changed(choose: random.Random, line: str) -> str:
    """A line of which a word, if it is a number, is another."""
    words = line.split(" ")
    chosen = choose.randrange(len(words))
    return " ".join([*words[:chosen], other_number(choose, words[chosen]), *words[chosen + 1:]])


def line_beside(choose: random.Random, nodes: int) -> str:
    """A line that may stand in a save file."""
    node = choose.randrange(nodes + 1)
    block = choose.choice([64 * choose.randrange(1, 9), choose.randrange(65537)])
    return choose.choice([f"owner {block} {node}", f"owner {block} {node}", f"dead {choose.choice('abc')}{node}",
                          f"given {node} {choose.randrange(256):02x}", f"rec {node} 00000000 0", f"rec {node} 00000000 1",
                          f"rec {node} 00000000 0 {choose.randrange(256):02x}", "end", "", "# a comment", "step 0", "given 0 0A",
                          "dead a0 ", "owner 0", "marks 0 1 0", "config 1 1 1 4", "safetynet-save 1", "safetynet-save 2"])


def letter_changed(choose: random.Random, line: str) -> str:
    if not line:
        return " "
    place = choose.randrange(len(line))
    other = choose.choice(["0", "1", "9", "f", "A", " ", "\t", "-", "+", "#", "\r", "x", "é", "\0", ""])
    return line[:place] + other + line[place + 1:]


def digit_changed(choose: random.Random, line: str) -> str:
    """A line of which one hexadecimal digit is another."""
    places = [place for place, letter in enumerate(line) if letter in "0123456789abcdef" and place > line.find(" ")]
    if not places:
        return line
    place = choose.choice(places)
    return line[:place] + choose.choice("0123456789abcdef") + line[place + 1:]


def marks_at_bounds(choose: random.Random, lines: list[str]) -> str:
    """The third line, of which one number is at a bound that the others or the counts of lines set, or one beyond."""
    words = lines[2].split(" ")
    if len(words) != 4 or not all(word.isdigit() for word in words[1:]):
        return lines[2]
    point, next_id, applied = map(int, words[1:])
    counts = [sum(line.startswith(kind) for line in lines) for kind in ("given ", "rec ")]
    least = -(-(next_id - 1) // 17)
    chosen = choose.randrange(3)
    if chosen == 0:
        point = choose.choice([0, 1, applied, applied + 1])
    elif chosen == 1:
        next_id = choose.choice([0, 1, 17 * applied + 1, 17 * applied + 2])
    else:
        bound = choose.choice([1, *counts, point, least, 3 * 10**9, 3 * 10**9 + 1])
        applied = max(0, bound - choose.choice([0, 1]))
    return f"marks {point} {next_id} {applied}"


def crowded(choose: random.Random, lines: list[str], nodes: int) -> list[str]:
    """More owners, in their order, most of them of one node and one set: by the sizes in the second line."""
    sizes = lines[1].split(" ")
    sets = int(sizes[2]) if len(sizes) == 5 and sizes[2].isdigit() and sizes[2] != "0" else 16
    node, first = choose.randrange(nodes), choose.randrange(65536)
    owners = {int(line.split(" ")[1]): line for line in lines if line.startswith("owner ") and line.split(" ")[1].isdigit()}
    for _ in range(choose.randrange(1, 24)):
        block = (first + sets * choose.randrange(200)) % 65536 if choose.random() < 0.9 else choose.randrange(65536)
        owners.setdefault(block, f"owner {block} {node if choose.random() < 0.9 else choose.randrange(nodes)}")
    others = [line for line in lines if not line.startswith("owner ")]
    place = 3 + sum(line.startswith("dead ") for line in others)
    return others[:place] + [owners[block] for block in sorted(owners)] + others[place:]


def spoiled_line(choose: random.Random, kind: str, line: str) -> str:
    if kind == "letter":
        return letter_changed(choose, line)
    if kind == "digit":
        return digit_changed(choose, line)
    if kind == "blanks":
        return line.replace(" ", "  ", 1)
    if kind == "zero":
        return line.replace(" ", " 0", 1)
    return number_changed(choose, line)


def spoiled_lines(choose: random.Random, lines: list[str], nodes: int) -> list[str]:
    """The lines with one thing done to them."""
    lines = list(lines)
    place = choose.choice([choose.randrange(len(lines)), min(choose.choice([1, 2, 2]), len(lines) - 1)])
    items = [at for at, line in enumerate(lines) if line.startswith(("rec ", "given "))]
    kind = choose.choices(list(KINDS), list(KINDS.values()))[0]
    if kind == "crowded" and len(lines) > 3:
        return crowded(choose, lines, nodes)
    if kind == "marks" and len(lines) > 3:
        lines[2] = marks_at_bounds(choose, lines)
    elif kind == "left out":
        del lines[place]
    elif kind == "doubled":
        lines.insert(place, lines[place])
    elif kind == "exchanged":
        other = choose.choice([max(0, place - 1), min(len(lines) - 1, place + 1), choose.randrange(len(lines))])
        lines[place], lines[other] = lines[other], lines[place]
    elif kind == "inserted":
        lines.insert(choose.choice([place, place + 1]), line_beside(choose, nodes))
    elif kind == "moved":
        lines.insert(choose.randrange(len(lines)), lines.pop(place))
    else:
        place = choose.choice(items) if kind == "digit" and items else place
        lines[place] = spoiled_line(choose, kind, lines[place])
    return lines


def spoiled(choose: random.Random, save: bytes, nodes: int) -> bytes:
    """A save file that is spoiled in one place or more; some are good again."""
    lines = save.decode().split("\n")[:-1]
    if choose.random() < 0.03:
        return choose.choice([b"", b"\n", b"end\n", b"safetynet-save 1", b"\x00", b"\xff\n", save[:choose.randrange(len(save) + 1)]])
    for _ in range(choose.choices([1, 2, 3], [80, 15, 5])[0]):
        lines = spoiled_lines(choose, lines, nodes) if lines else ["end"]
    end = choose.choices(["\n", "\r\n"], [98, 2])[0]
    text = "".join(line + end for line in lines)
    text = choose.choices([text, text[:-1], text + "end\n", text + "\n", text + "x"], [92, 3, 2, 2, 1])[0]
    data = text.encode()
    if data and choose.random() < 0.02:
        place = choose.randrange(len(data))
        data = data[:place] + bytes([choose.randrange(256)]) + data[place + 1:]
    return data


# Options that `save` and `resume` don't have, or whose values are out of their range.
WRONG_SAVE: list[tuple[str, Value]] = [("nodes", 0), ("nodes", 17), ("sets", 257), ("log", 3), ("watch", "80001000"), ("nodes", "4x")]
WRONG_RESUME: list[tuple[str, Value]] = [("nodes", 2), ("watch", "80000001"), ("watch", "8")]


def save_words(choose: random.Random, nodes: int) -> list[str]:
    values: dict[str, Value] = {"nodes": nodes}
    if choose.random() < 0.5:
        values |= sizes(choose, is_watched=False)
        if choose.random() < 0.03:
            name, value = choose.choice(WRONG_SAVE)
            values[name] = value
    return ["save", *with_files(choose, options(choose, values), [PROGRAM, EVENTS])]


def resume_words(choose: random.Random) -> list[str]:
    values: dict[str, Value] = {"watch": compare_replay.watched(choose)} if choose.random() < 0.4 else {}
    if choose.random() < 0.02:
        name, value = choose.choice(WRONG_RESUME)
        values[name] = value
    return ["resume", *with_files(choose, options(choose, values), [PROGRAM, SAVE, LATER])]


# Words of a program that reads bytes and puts them out, for ever.
ECHOES = [compare_replay.addi(17, 0, 2), compare_replay.ECALL, compare_replay.addi(17, 0, 1), compare_replay.ECALL, compare_replay.jal(0, -16)]


def given_events(choose: random.Random, nodes: int) -> list[str]:
    """Events of cores that read what they are given, in rounds of which most end in a validation."""
    lines, sent = [], 0
    for _ in range(choose.randrange(1, 8)):
        for node in range(nodes):
            lines += [f"input {node} {choose.randrange(256):02x}"] * choose.choice([0, 1, 1, 2, 3])
            lines += [f"step {node}"] * choose.randrange(14)
        if choose.random() < 0.8:
            lines += [line for node in range(nodes) for line in (f"edge {node}", f"report {node}")]
            lines += [line for place in range(nodes) for line in [f"hop {sent + place + 1}"] * 4 + [f"deliver {sent + place + 1}"]]
            lines += ["validate"]
            sent += 2 * nodes
        lines += ["recover"] if choose.random() < 0.2 else []
    return lines


def program_and_events(choose: random.Random, simulator: str, nodes: int, folder: Path) -> list[str]:
    """Puts a program into the folder, and gives lines of events for it."""
    reads = choose.random() < 0.15
    words = ECHOES if reads else compare_replay.program(choose)
    file = choose.choice([compare_replay.hexadecimal_image, compare_replay.elf_file])(choose, words)
    Path(folder, PROGRAM).write_bytes(file)
    return given_events(choose, nodes) if reads else compare_replay.script(choose, simulator, nodes, folder).splitlines()


def scripts(choose: random.Random, nodes: int, lines: list[str]) -> tuple[str, str]:
    """Two scripts of these lines, the second for a machine that goes on."""
    first, later = parted(choose, lines)
    if choose.random() < 0.1:
        first += [f"kill {side}{choose.randrange(nodes)}" for side in choose.choice(["a", "b", "ab"])]
    if choose.random() < 0.2:
        later = [compare_replay.event(choose, nodes, len(first) // 2) for _ in range(choose.randrange(60))]
    end = choose.choice(["\n", "\n", "\n", "\r\n"])
    return "".join(line + end for line in first), "".join(line + end for line in later)


def summary(report: bytes) -> list[bytes]:
    """The lines of a summary, without the count of events and the probe's."""
    lines = report.splitlines()
    begin = max(place for place, line in enumerate(lines) if line.startswith(b"events "))
    return [line for line in lines[begin + 1:] if not line.startswith(b"probe ")]


class Tally:
    """What was compared."""

    def __init__(self) -> None:
        self.counts: Counter[str] = Counter()
        self.words: Counter[str] = Counter()

    def add(self, other: Tally) -> None:
        self.counts += other.counts
        self.words += other.words

    def note(self, outcome: Outcome) -> None:
        """A resume that came to this."""
        status, _, report = outcome
        self.counts["answers"] += report.count(b": ") if status == 0 else 0
        self.words[report.splitlines()[-1].decode(errors="replace") if status else "resumed"] += 1

    def text(self, cases: int) -> str:
        causes = ", ".join(f"{number} {word}" for word, number in sorted(self.words.items()))
        counts = self.counts
        return (f"{cases} cases; {counts['saved']} saved, {counts['joined']} held against one replay, {counts['spoiled']} spoiled files, "
                f"{counts['answers']} answers of machines that went on; {causes}")


class Pair:
    """The program and the simulator, each started once, in a folder of a case's files."""

    def __init__(self, built: str, simulator: str, folder: str) -> None:
        library = built_server(folder)
        self.folder = Path(folder, "files")
        self.folder.mkdir()
        self.simulator_path = simulator
        self.program = ServedProgram(library, built, [], self.folder, SECONDS)
        self.simulator = ServedProgram(library, simulator, ["--main", "--probe"], self.folder, SECONDS)
        self.tally = Tally()

    def put(self, name: str, content: bytes) -> None:
        Path(self.folder, name).write_bytes(content)

    def difference(self, words: list[str]) -> tuple[Outcome, Difference | None]:
        """What the simulator's call came to, and whether the program's differs."""
        said, expected = self.program.run(words), self.simulator.run(words)
        found = without_reason(said)
        return expected, None if found == expected and is_explained(said) else Difference(words, said, expected)

    def resumed(self, words: list[str]) -> tuple[Outcome, Difference | None]:
        expected, difference = self.difference(words)
        self.tally.note(expected)
        return expected, difference

    def joined(self, saved: list[str], resumed: list[str], consoles: bytes, report: bytes) -> Difference | None:
        """Whether both consoles and the summary are those of the replay of both scripts with a recovery between."""
        first, later = (Path(self.folder, name).read_bytes() for name in (EVENTS, LATER))
        self.put("whole.script", first + b"recover\n" + later)
        given = [word for word in saved[1:] + resumed[1:] if word not in (PROGRAM, EVENTS, SAVE, LATER)]
        _, console, whole = self.simulator.run(["replay", *given, PROGRAM, "whole.script"])
        self.tally.counts["joined"] += 1
        found, expected = (consoles, summary(report)), (console, summary(whole))
        return None if found == expected else Difference(resumed, found, expected)

    def case(self, choose: random.Random, spoilings: int) -> Difference | None:
        """The first difference of a case."""
        nodes = choose.choice([1, 2, 2, 3, 4, 4, 6, 8, choose.randrange(1, 17)])
        first, later = scripts(choose, nodes, program_and_events(choose, self.simulator_path, nodes, self.folder))
        self.put(EVENTS, first.encode())
        self.put(LATER, later.encode())
        saved = save_words(choose, nodes)
        expected, difference = self.difference(saved)
        if difference or expected[0] != 0:
            return difference
        return self.saved_case(choose, saved, expected, nodes, spoilings)

    def saved_case(self, choose: random.Random, words: list[str], saved: Outcome, nodes: int, spoilings: int) -> Difference | None:
        """The same, once it is saved."""
        _, console, save = saved
        self.tally.counts["saved"] += 1
        self.put(SAVE, save)
        given = resume_words(choose)
        (status, added, report), difference = self.resumed(given)
        if status == 0 and not difference:
            difference = self.joined(words, given, console + added, report)
        for _ in range(spoilings):
            if difference:
                break
            self.put(SAVE, spoiled(choose, save, nodes))
            self.tally.counts["spoiled"] += 1
            _, difference = self.resumed(resume_words(choose))
        return difference

    def told(self, case: int, difference: Difference) -> str:
        """A difference and the files of its case."""
        names = [name for name in (PROGRAM, EVENTS, LATER, SAVE) if Path(self.folder, name).exists()]
        files = "\n".join(f"{name} {Path(self.folder, name).read_bytes()!r}" for name in names)
        return f"case {case}, {' '.join(difference.words)}: {difference.found} and not {difference.expected}\n{files}"

    def end(self) -> None:
        self.program.end()
        self.simulator.end()


def share(built: str, simulator: str, seed: str, spoilings: int, cases: range) -> tuple[str | None, Tally]:
    """The first difference of these cases, as text, and what was compared."""
    # Where the system has a folder in memory, the files stand there.
    with tempfile.TemporaryDirectory(dir="/dev/shm" if Path("/dev/shm").is_dir() else None) as folder:
        pair = Pair(built, simulator, folder)
        for done, case in enumerate(cases):
            difference = pair.case(random.Random(f"{seed} {case}"), spoilings)
            if difference:
                return pair.told(case, difference), pair.tally
            if done % 500 == 499:
                print(f"{done + 1} of {len(cases)} cases of the share that begins with {cases[0]}", file=sys.stderr, flush=True)
        pair.end()
    return None, pair.tally


def main() -> int:
    if len(sys.argv) < 3:
        print(__doc__)
        return 2
    built, simulator = (str(Path(name).resolve()) for name in sys.argv[1:3])
    given = dict(enumerate(sys.argv[3:]))
    count, seed, spoilings, processes = int(given.get(0, 1000)), given.get(1, "1"), int(given.get(2, 2)), int(given.get(3, 1))
    tally, texts = Tally(), []
    with ProcessPoolExecutor(processes) as pool:
        shares = [pool.submit(share, built, simulator, seed, spoilings, range(first, count, processes)) for first in range(processes)]
        for done in shares:
            text, part = done.result()
            texts += [text] if text else []
            tally.add(part)
    for text in texts:
        print(text)
    print(f"{len(texts)} differences; {tally.text(count)}")
    return 1 if texts else 0


if __name__ == "__main__":
    sys.exit(main())
