#!/usr/bin/env python3
"""Compares `drive` with `replay`: the same program, asked line by line and all at once.

    tests/compare_drive.py PROGRAM [COUNT] [SEED]

PROGRAM is the built program. Each stored script of examples/ and COUNT (200) random ones, on programs as those of compare_replay.py, are given to
`drive` as one text, in pieces of any size, or line by line, each once the answer to the one before it is there; then console, report and status must be
those of `replay`, byte for byte; and so with `--states`, where some of the events are taken back and done again. Then lines are strewn in: empty ones and comments, lines that are no events or name what isn't there, lines that
foresee, and lines that ask for looks at the state, where the program has those. What each is answered is asked of `replay` too: a bad line's cause
is that of a script of this line alone, a foreseen event's line is that of a replay that goes on by it, and a look shows what `replay --states` tells.

At last there are lines at their greatest length, texts without an end, closed pipes, signals, and more events than there may be. Nothing may hang.
"""
import json
import random
import re
import sys
import tempfile
from collections import Counter
from dataclasses import dataclass, replace
from pathlib import Path
from typing import Any, Callable, Dict, List, Sequence, Tuple

from compare_replay import NET_LIMIT, disturbed, elf_file, event, hexadecimal_image, program, watched, wrong_line
from drive_ends import ENDS
from driven import Driven, Hangs, Outcome, called, driven, split_groups
from folded_states import states_of

EXAMPLES = Path(__file__).resolve().parents[1] / "examples"
BAD = re.compile(rb"# safetynet: script (badline|outofrange)\n\Z")

Line = bytes


@dataclass
class Case:
    """A machine and its events: the words behind the command's name, and a line of a script for each event, without its end."""

    name: str
    built: str
    words: List[str]
    folder: Path
    events: List[Line]

    def replay(self, events: Sequence[Line], *more: str) -> Outcome:
        """A replay of these events."""
        Path(self.folder, "events.script").write_bytes(b"".join(it + b"\n" for it in events))
        return called(self.built, ["replay", *self.words, *more, "events.script"], self.folder)


class Differs(Exception):
    """`drive` did otherwise than it must."""


def must_be(found: Any, expected: Any, what: str) -> None:
    if found != expected:
        raise Differs(f"{what}: {str(found)[-2000:]}\nand not {str(expected)[-2000:]}")


# Scripts.


def journal(choose: random.Random, built: str, words: Sequence[str], folder: Path) -> List[str]:
    """The events of a run in drawn turns: each of them is due, so that much is done in few events."""
    rules = ["--seed", choose.randrange(10**6), "--budget", choose.randrange(20, 1500), "--interval", choose.choice([1, 3, 10, 40]),
             "--wait", choose.choice([100, 400, 2000]), "--lose-every", choose.choice([0, 0, 13, 60])]
    report = called(built, ["run", "--order", "drawn", "--journal", *map(str, rules), *words], folder).report.decode()
    return [line for line in report.splitlines() if not line.startswith("#")]


def random_case(choose: random.Random, built: str, number: int, folder: Path) -> Case:
    """A program and a script at random, on a machine of any size."""
    nodes = choose.choice([1, 2, 2, 3, 4, 4, 6, 8, 16])
    file = choose.choice([hexadecimal_image, elf_file])(choose, program(choose))
    Path(folder, "program").write_bytes(file)
    sizes = [("sets", choose.choice([1, 4, 16])), ("ways", choose.choice([1, 2, 4])), ("log", choose.choice([4, 8, 256]))]
    words = ["--nodes", str(nodes)] + [f"--{name}={value}" for name, value in sizes if choose.random() < 0.3]
    kind = choose.choices(["journal", "disturbed", "random", "full"], [40, 35, 20, 5])[0]
    if kind == "full":
        lines = ["report 0"] * (NET_LIMIT - choose.randrange(4)) + [event(choose, nodes, NET_LIMIT) for _ in range(60)]
    elif kind == "random":
        lines = [event(choose, nodes, place // 3) for place in range(choose.randrange(200))]
    else:
        lines = journal(choose, built, [*words, "program"], folder)
        lines = disturbed(choose, lines, nodes) if kind == "disturbed" else lines
    words += [f"--watch={watched(choose)}"] if choose.random() < 0.3 else []
    return Case(f"case {number}", built, [*words, "program"], folder, [line.encode() for line in lines])


def stored_cases(built: str, folder: Path) -> List[Case]:
    """The stored scripts that say by which words they are replayed."""
    found = []
    for script in sorted(EXAMPLES.glob("*/*.script")):
        lines = script.read_bytes().splitlines()
        if lines and lines[0].startswith(b"# replay "):
            *words, file = lines[0].decode().split(" ")[2:]
            events = [line for line in lines if line and not line.startswith(b"#")]
            found.append(Case(str(script.relative_to(EXAMPLES)), built, [*words, str((script.parent / file).resolve())], folder, events))
    return found


# Plain scripts.


def one_by_one(case: Case, answers: Sequence[Tuple[Line, bytes]], console: bytes, opening: bytes = b"") -> Outcome:
    """Each line once the one before it has its answer; what opens the report is there before the first, and all that is put out before the input ends."""
    with Driven(case.built, case.words, case.folder) as it:
        size = len(opening)
        it.read(size)
        must_be(bytes(it.report), opening, f"{case.name}: before the first line")
        for line, answer in answers:
            it.give(line)
            size += len(answer)
            it.read(size)
            if len(it.report) != size:
                raise Differs(f"{case.name}: {line[:80]!r} is answered by {bytes(it.report[size - len(answer):])[:300]!r} and not by {answer[:300]!r}")
        it.read(size, len(console))
        return it.end()


def in_pieces(choose: random.Random, case: Case, text: bytes) -> Outcome:
    """The text in pieces that end anywhere."""
    with Driven(case.built, case.words, case.folder) as it:
        place = 0
        while place < len(text):
            size = choose.choice([1, 2, 7, 100, 5000, 70000])
            it.give(text[place : place + size])
            place += size
        return it.end()


def compare_plain(choose: random.Random, case: Case) -> Outcome:
    """A script of events alone."""
    expected = case.replay(case.events)
    must_be(expected.status, 0, f"{case.name}: a replay")
    compare_ways(choose, case, expected, split_groups(expected.report))
    return expected


def compare_ways(choose: random.Random, case: Case, expected: Outcome, answers: Sequence[bytes], opening: bytes = b"") -> None:
    """The script's events in one of the ways in which lines may come. Each has its answer; the report may begin before them, and ends behind them."""
    end = choose.choice([b"\n", b"\n", b"\r\n"])
    lines = [it + end for it in case.events]
    text = b"".join(lines)
    ways: List[Callable[[], Outcome]] = [
        lambda: driven(case.built, case.words, case.folder, text),
        lambda: driven(case.built, case.words, case.folder, text.rstrip(b"\r\n")),
        lambda: in_pieces(choose, case, text),
    ]
    if len(case.events) < 500:
        ways.append(lambda: one_by_one(case, list(zip(lines, answers)), expected.console, opening))
    must_be(choose.choice(ways)(), expected, f"{case.name}, {' '.join(case.words)}")


def compare_states(choose: random.Random, plain: Case) -> None:
    """The same events with `--states`; and with some of them taken back and done again, whose lines are then those that they had."""
    case = replace(plain, words=["--states", *plain.words])
    expected = case.replay(case.events)
    must_be(expected.status, 0, f"{case.name}: a replay that shows states")
    opening, *answers, last = expected.report.splitlines(keepends=True)
    compare_ways(choose, case, expected, answers, opening)
    stays = choose.randrange(len(case.events) + 1)
    again = [b"back %d\n" % stays, *(it + b"\n" for it in case.events[stays:])]
    found = driven(case.built, case.words, case.folder, b"".join(it + b"\n" for it in case.events) + b"".join(again))
    *lines, end = found.report.splitlines(keepends=True)
    must_be(lines, [opening, *answers, b'{"back":%d}\n' % stays, *answers[stays:]], f"{case.name}, back to {stays}")
    must_be(without_probes(end), without_probes(last), f"{case.name}, the end after going back to {stays}")


def without_probes(line: bytes) -> Any:
    """The last line of states, without what the probes counted: they were told the events that were taken back, too."""
    summary = json.loads(line)["summary"]
    del summary["probes"]
    return summary


# What is strewn in.


class Causes:
    """Why lines are refused, as a replay of the line alone says it."""

    def __init__(self) -> None:
        self.known: Dict[Tuple[str, Line], bytes] = {}

    def of(self, case: Case, line: Line) -> bytes:
        """`badline` or `outofrange`; empty where the line is an event."""
        key = (case.words[1], line)
        if key not in self.known:
            found = BAD.search(case.replay([line]).report)
            self.known[key] = found[1] if found else b""
        return self.known[key]


def strange_line(choose: random.Random, nodes: int) -> Line:
    """A line that is no event, or one that names what isn't there."""
    wrong: Line = wrong_line(choose, nodes).encode()
    others = [b"\0", b"step 0\0", b"step\xc3\xa9 0", b"\xff" * 9, b"?", b"foresee", b"foresee ", b"foresee foresee step 0", b"foresee  step 0", b"Foresee step 0",
              b"step 0\r", b"\r", b" # step 0", b"step 0 # one", b"step 18446744073709551615", b"step\t0", b"9" * choose.choice([20, 3000, 70000])]
    return choose.choice([wrong, wrong, wrong, choose.choice(others), b"foresee " + wrong])


def cause_of(case: Case, causes: Causes, line: Line) -> bytes:
    """Why `drive` refuses a line; empty where it doesn't."""
    said = line[len(b"foresee ") :] if line.startswith(b"foresee ") else line
    # a replay skips an empty line and a comment, which nothing foresees
    return b"badline" if said is not line and (not said or said.startswith(b"#")) else causes.of(case, said)


class Strewn:
    """A script with other lines between its events, and what each line is answered."""

    def __init__(self, choose: random.Random, case: Case, causes: Causes, looks: bool) -> None:
        self.choose, self.case, self.causes = choose, case, causes
        self.expected = case.replay(case.events)
        self.groups = split_groups(self.expected.report)
        self.states: List[Dict[str, Any]] = []
        if looks:
            self.states = list(states_of(case.replay(case.events, "--states").report.decode()))
        self.lines: List[Tuple[Line, bytes]] = []
        self.kinds: "Counter[str]" = Counter()
        # where something is strewn in, and how much
        self.places = Counter(choose.randrange(len(case.events) + 1) for _ in range(choose.randrange(1, 16)))

    def answers(self) -> List[Tuple[Line, bytes]]:
        """The lines with their ends, each with its answer."""
        for done in range(len(self.case.events) + 1):
            for _ in range(self.places[done]):
                self.strew(done)
            if done < len(self.case.events):
                self.put(self.case.events[done], self.groups[done])
        return self.lines

    def put(self, line: Line, answer: bytes) -> None:
        self.lines.append((line + self.choose.choice([b"\n", b"\n", b"\n", b"\r\n"]), answer))

    def strew(self, done: int) -> None:
        """One line of any kind, behind so many events."""
        kind = self.choose.choice(["skipped", "refused", "refused", "foreseen", "foreseen", *(["look"] * 2 if self.states else [])])
        self.kinds[kind] += 1
        if kind == "skipped":
            self.put(self.choose.choice([b"", b"#", b"# step 0", b"#\0\xff", b"# " + b"x" * 5000]), b"")
        elif kind == "refused":
            self.refuse(strange_line(self.choose, int(self.case.words[1])))
        elif kind == "foreseen":
            self.foresee(done)
        else:
            self.look(self.states[done])

    def refuse(self, line: Line) -> None:
        cause = cause_of(self.case, self.causes, line)
        # some of them are events after all, of which the report would tell
        if cause:
            self.put(line, b"%s %d\n" % (cause, len(self.lines) + 1))

    def foresee(self, done: int) -> None:
        following = self.case.events[done : done + 1] if self.choose.random() < 0.5 else []
        line = following[0] if following else event(self.choose, int(self.case.words[1]), done // 2).encode()
        groups = split_groups(self.case.replay([*self.case.events[:done], line]).report)
        self.put(b"foresee " + line, groups[done].splitlines(keepends=True)[0])

    def look(self, state: Dict[str, Any]) -> None:
        """A look, which shows what the states tell at this place."""
        node = self.choose.randrange(len(state["nodes"]))
        home = self.choose.choice(state["homes"]) if state["homes"] else None
        flights = [{"flight": one, "arrived": int(one["switch"][1:]) == one["message"]["to"]} for one in state["net"]["messages"]]
        looks: List[Tuple[str, Any]] = [("show", state), (f"node {node}", state["nodes"][node]), (f"core {node}", state["nodes"][node]["core"]),
                                        ("flights", {"flights": flights})]
        looks += [(f"block {home['block']}", home)] * 2 if home else []
        line, shown = self.choose.choice(looks)
        self.put(line.encode(), json.dumps(shown, separators=(",", ":")).encode() + b"\n")


def compare_strewn(choose: random.Random, case: Case, causes: Causes, looks: bool) -> "Counter[str]":
    """A script with other lines strewn in."""
    strewn = Strewn(choose, case, causes, looks)
    answers = strewn.answers()
    expected = Outcome(0, strewn.expected.console, b"".join(answer for _, answer in answers) + strewn.groups[-1])
    if choose.random() < 0.4:
        found = one_by_one(case, answers, expected.console)
    else:
        found = in_pieces(choose, case, b"".join(line for line, _ in answers))
    must_be(found, expected, f"{case.name}, {' '.join(case.words)}, {[line[:60] for line, _ in answers]}")
    return strewn.kinds


def has_looks(built: str, folder: Path) -> bool:
    """Whether the program's `drive` knows looks at the state."""
    Path(folder, "program").write_text("00000073\n")
    return driven(built, ["program"], folder, b"core 0\n").report.startswith(b"{")


def has_states(built: str, folder: Path) -> bool:
    """Whether the program's `drive` shows states."""
    Path(folder, "program").write_text("00000073\n")
    return driven(built, ["--states", "program"], folder, b"").report.startswith(b"{")


def compare_all(built: str, folder: Path, count: int, seed: str, looks: bool, with_states: bool) -> "Counter[str]":
    """All scripts, and then the ends; what was compared."""
    told: "Counter[str]" = Counter()
    causes = Causes()
    stored = stored_cases(built, folder)
    for number in range(len(stored) + count):
        choose = random.Random(f"{seed} {number}")
        case = stored[number] if number < len(stored) else random_case(choose, built, number - len(stored), folder)
        outcome = compare_plain(choose, case)
        if with_states:
            compare_states(choose, case)
        told.update(scripts=1, events=len(case.events), released=len(outcome.console))
        told.update(compare_strewn(choose, case, causes, looks))
    for what, must in ENDS:
        try:
            must(built, folder)
        except (AssertionError, Hangs) as error:
            raise Differs(f"{what}: {error}") from error
        told["ends"] += 1
    return told


def main() -> int:
    if len(sys.argv) < 2:
        print(__doc__)
        return 2
    built = str(Path(sys.argv[1]).resolve())
    count, seed = int(sys.argv[2]) if len(sys.argv) > 2 else 200, sys.argv[3] if len(sys.argv) > 3 else "1"
    with tempfile.TemporaryDirectory() as name:
        folder = Path(name)
        looks, with_states = has_looks(built, folder), has_states(built, folder)
        try:
            told = compare_all(built, folder, count, seed, looks, with_states)
        except (Differs, Hangs) as error:
            print(error)
            return 1
    if not looks:
        print("skipped, since this program's drive has none: looks at the state")
    if not with_states:
        print("skipped, since this program's drive shows none: states")
    strewn = ", ".join(f"{told[kind]} {kind}" for kind in ("skipped", "refused", "foreseen", "look"))
    print(f"{told['scripts']} scripts, no difference; {told['events']} events, {told['released']} bytes released; lines strewn in: {strewn}; {told['ends']} ends")
    return 0


if __name__ == "__main__":
    sys.exit(main())
