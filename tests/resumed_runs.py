#!/usr/bin/env python3
"""Saves runs at three places each, goes on from each, and holds what comes of it against the run in one piece.

    tests/resumed_runs.py PROGRAM [COUNT] [SEED]

PROGRAM is the built program. Each of COUNT runs (default 12) is the journal of random turns on 1 to 16 nodes, with lost messages, recoveries and in
some a dead switch. It is cut at three places, at a recovery or behind a validation where there is one. What stands before a place is saved, and a machine
goes on from there with what comes up to the next. `replay` of both with a `recover` between has the same console as both calls joined, the same
groups from there on, and the same summary, but for places and the count of events. A later save file has the records of the one before it first, and
the records are a trace that `check` calls legal. No reference simulator is needed. The status is 1 where something isn't so.
"""
from __future__ import annotations

import random
import subprocess
import sys
import tempfile
from pathlib import Path
from typing import Dict, List, NamedTuple, Sequence, Tuple

TOP = Path(__file__).resolve().parent.parent
LETTERS = TOP / "examples/save/letters.hex"
SECONDS = 120
CUTS = 3
# Lines of a summary that differ: the events of both scripts, and what the probe counted of them.
OF_EVENTS = (b"events ", b"probe ")


class Outcome(NamedTuple):
    """What a call comes to: its status, and what it wrote."""

    status: int
    console: bytes
    report: bytes


class Piece(NamedTuple):
    """Events before a place, and those from there up to the next."""

    before: List[str]
    later: List[str]

    def whole(self) -> List[str]:
        return [*self.before, "recover", *self.later]


class Saved(NamedTuple):
    """A save file by its lines: those of each kind, without the first and the last line."""

    kinds: Dict[str, List[str]]

    def of(self, kind: str) -> List[str]:
        return self.kinds.get(kind, [])


class Bench:
    """The program in a folder of a run's files."""

    def __init__(self, program: str, folder: Path) -> None:
        self.program, self.folder = program, folder
        self.put("letters.hex", LETTERS.read_bytes())

    def put(self, name: str, content: bytes) -> None:
        (self.folder / name).write_bytes(content)

    def put_script(self, name: str, events: Sequence[str]) -> None:
        self.put(name, "".join(f"{event}\n" for event in events).encode())

    def call(self, *words: str) -> Outcome:
        done = subprocess.run([self.program, *words], cwd=self.folder, stdin=subprocess.DEVNULL, capture_output=True, timeout=SECONDS, check=False)
        return Outcome(done.returncode, done.stdout, done.stderr)


def journal(bench: Bench, choose: random.Random, nodes: int) -> List[str]:
    """The events of a random run."""
    words = ["--seed", choose.randrange(2**64), "--budget", choose.randrange(400, 3000), "--interval", choose.choice([5, 12, 30]),
             "--wait", choose.choice([80, 300]), "--lose-every", choose.choice([0, 20, 60])]
    words += ["--kill", f"b0@{choose.randrange(300)}"] if choose.random() < 0.4 else []
    ran = bench.call("run", "--order", "drawn", "--journal", "--nodes", str(nodes), *map(str, words), "letters.hex")
    return [line for line in ran.report.decode().splitlines() if not line.startswith("#")]


def places_of(choose: random.Random, events: Sequence[str]) -> List[int]:
    """Where a run is cut: at recoveries and behind validations, or anywhere if these are too few."""
    good = [place + (event == "validate") for place, event in enumerate(events) if event in ("recover", "validate")]
    return sorted(choose.sample(good if len(good) >= CUTS else range(len(events)), CUTS))


def pieces_of(events: Sequence[str], places: Sequence[int]) -> List[Piece]:
    """The run between these places. A recovery at a place is the one between both calls."""
    before = [*events[:places[0]]]
    pieces: List[Piece] = []
    for first, last in zip(places, [*places[1:], len(events)]):
        begin = first + (first < len(events) and events[first] == "recover")
        pieces.append(Piece(before, [*events[begin:max(begin, last)]]))
        before = pieces[-1].whole()
    return pieces


def saved_of(report: bytes) -> Saved:
    lines = report.decode().splitlines()
    kinds: Dict[str, List[str]] = {}
    for line in lines[1:-1]:
        kind, _, rest = line.partition(" ")
        kinds.setdefault(kind, []).append(rest)
    return Saved(kinds)


def parted(report: bytes) -> Tuple[List[bytes], List[bytes]]:
    """The lines of a report's groups, and those of its summary that may not differ."""
    lines = report.splitlines()
    begin = next((place for place, line in enumerate(lines) if line.startswith(b"events ")), len(lines))
    return lines[:begin], [line for line in lines[begin:] if not line.startswith(OF_EVENTS)]


def moved(lines: Sequence[bytes], by: int) -> List[bytes]:
    """Lines of groups, with so much added to each place."""
    def of_line(line: bytes) -> bytes:
        place, blank, rest = line.partition(b" ")
        return b"%d%b%b" % (int(place) + by, blank, rest) if place.isdigit() else line
    return [of_line(line) for line in lines]


def behind(lines: Sequence[bytes], place: int) -> List[bytes]:
    """Lines of groups from the one of this place on."""
    begin = next((at for at, line in enumerate(lines) if line.startswith(b"%d " % place)), len(lines))
    return [*lines[begin:]]


def faults_of_piece(bench: Bench, nodes: int, piece: Piece) -> Tuple[List[str], Saved]:
    """What isn't so of one place, and what was saved there."""
    bench.put_script("before.script", piece.before)
    bench.put_script("later.script", piece.later)
    bench.put_script("whole.script", piece.whole())
    save = bench.call("save", "--nodes", str(nodes), "letters.hex", "before.script")
    bench.put("a.save", save.report)
    resume = bench.call("resume", "--watch", "80001000", "letters.hex", "a.save", "later.script")
    replay = bench.call("replay", "--watch", "80001000", "--nodes", str(nodes), "letters.hex", "whole.script")
    if (save.status, resume.status, replay.status) != (0, 0, 0):
        return [f"statuses {save.status}, {resume.status}, {replay.status}: {resume.report[-200:]!r}"], Saved({})
    saved, (groups, summary), (all_groups, whole_summary) = saved_of(save.report), parted(resume.report), parted(replay.report)
    shift = len(piece.before) + 1
    bench.put("a.trace", "".join(f"{line}\n" for line in saved.of("rec")).encode())
    judged = bench.call("check", "--nodes", str(nodes), "letters.hex", "a.trace")
    so = {
        "another console": save.console + resume.console == replay.console,
        "other groups": moved(groups, shift) == behind(all_groups, shift + 1),
        "another summary": summary == whole_summary,
        "another number of events": saved.of("marks")[0].split(" ")[2] == str(len(piece.before)),
        "a trace that isn't legal": judged.status == 0 and judged.report == b"legal %d\n" % len(saved.of("rec")),
    }
    return [what for what, is_so in so.items() if not is_so], saved


def faults_of_run(bench: Bench, choose: random.Random) -> Tuple[List[str], int]:
    """What isn't so of one run, and how many records were saved at its places."""
    nodes = choose.choice([1, 2, 2, 3, 4, 8, 16])
    events = journal(bench, choose, nodes)
    if len(events) <= CUTS:
        return [f"a run of {len(events)} events"], 0
    faults: List[str] = []
    last = Saved({})
    for number, piece in enumerate(pieces_of(events, places_of(choose, events))):
        found, saved = faults_of_piece(bench, nodes, piece)
        records = last.of("rec")
        found += [] if saved.of("rec")[:len(records)] == records else ["other records than were saved before"]
        found += [] if set(last.of("dead")) <= set(saved.of("dead")) else ["a switch that lives again"]
        faults += [f"{nodes} nodes, place {number + 1} of {len(events)} events: {what}" for what in found]
        last = saved
    return faults, len(last.of("rec"))


def main() -> int:
    if not 2 <= len(sys.argv) <= 4:
        print(__doc__)
        return 2
    program = str(Path(sys.argv[1]).resolve())
    count, seed = (int(sys.argv[2]) if len(sys.argv) > 2 else 12), (sys.argv[3] if len(sys.argv) > 3 else "1")
    faults: List[str] = []
    records = 0
    with tempfile.TemporaryDirectory() as folder:
        bench = Bench(program, Path(folder))
        for run in range(count):
            found, saved = faults_of_run(bench, random.Random(f"{seed} {run}"))
            faults += [f"run {run}: {what}" for what in found]
            records += saved
    for line in faults:
        print(line)
    print(f"{count} runs, saved and resumed at {CUTS} places each, {len(faults)} faults; {records} records saved at the last places")
    return 1 if faults else 0


if __name__ == "__main__":
    sys.exit(main())
