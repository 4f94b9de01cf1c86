#!/usr/bin/env python3
"""Times `drive`: many events through a pipe beside a replay of them, and the round trip of one answer.

    bench/drive.py PROGRAM [EVENTS]

PROGRAM is the built program. The script is the journal of a run in drawn turns, of EVENTS events (1,000,000) on four nodes, with every 97th message
lost. `drive` gets it through a pipe as fast as it takes it, `replay` from its file; both write console and report to files, which must be the same
bytes. They take turns, three times each; the least time of each is told, by the clock and of its processors.

A round trip is from the writing of a line to the end of its answer, which the kernel's pipes are a part of: so that of `cat`, which gives the line back, is
told too. The line is an event of one answer line, then one that foresees. Then the package in python/ does the same: `Machine.validate`, whose answer
has its end found by a second line, and is read into a value, `Machine.foresee` and `Machine.due`. Of each the median, the 90th and the 99th in a hundred, in
microseconds; 20,000 times each. Then 2,000 times an event behind 1,000 others, and back to those. And once 200,000 events by one question,
`Machine.apply_all`.

A run on processors that are otherwise idle is the one that counts: the two processes wait for each other, and other work stands between.
"""
import os
import subprocess
import sys
import tempfile
import time
from pathlib import Path
from typing import Callable, Dict, List, NamedTuple, Sequence, Tuple

sys.path.insert(0, str(Path(__file__).resolve().parents[1] / "python"))
from safetynet import Machine  # noqa: E402

WORDS = "800012b7 00100313 0062a3af 03f3f513 03050513 00100893 00000073 fedff06f"
TIMES = 3
TRIPS = 20_000
MANY = 200_000
BEFORE = 1_000
PIECE = 1 << 16


class Taken(NamedTuple):
    """Seconds that a call took: by the clock, and of its processors."""

    clock: float
    processors: float


def timed(words: Sequence[str], text: bytes, outputs: Tuple[Path, Path]) -> Taken:
    """A call that is given a text through a pipe, if there is one."""
    with open(outputs[0], "wb") as console, open(outputs[1], "wb") as report:
        begun = time.monotonic()
        child = subprocess.Popen(words, stdin=subprocess.PIPE, stdout=console, stderr=report, bufsize=0)
        assert child.stdin
        for place in range(0, len(text), PIECE):
            child.stdin.write(text[place : place + PIECE])
        child.stdin.close()
        _, status, used = os.wait4(child.pid, 0)
        child.returncode = os.waitstatus_to_exitcode(status)
    if child.returncode != 0:
        sys.exit(f"{' '.join(words[:2])}: status {child.returncode}")
    return Taken(time.monotonic() - begun, used.ru_utime + used.ru_stime)


def journal(program: str, image: Path, events: int) -> bytes:
    """A script of so many events."""
    words = [program, "run", "--nodes=4", "--order=drawn", f"--budget={events}", "--lose-every=97", "--journal", str(image)]
    lines = subprocess.run(words, capture_output=True).stderr.splitlines()
    return b"".join(line + b"\n" for line in lines if not line.startswith(b"#"))


def compare(program: str, image: Path, folder: Path, events: int) -> None:
    """Many events through a pipe, beside a replay."""
    text = journal(program, image, events)
    Path(folder, "script").write_bytes(text)
    calls = {"replay": [program, "replay", "--nodes=4", str(image), str(folder / "script")], "drive": [program, "drive", "--nodes=4", str(image)]}
    taken: Dict[str, List[Taken]] = {name: [] for name in calls}
    for _ in range(TIMES):
        for name, words in calls.items():
            taken[name].append(timed(words, text if name == "drive" else b"", (folder / f"{name}.console", folder / f"{name}.report")))
    for part in ("console", "report"):
        if (folder / f"drive.{part}").read_bytes() != (folder / f"replay.{part}").read_bytes():
            sys.exit(f"the two have another {part}")
    least = {name: min(it) for name, it in taken.items()}
    print(f"{text.count(10)} events, the same bytes from both\n         seconds  of processors")
    for name, it in least.items():
        print(f"{name:7}  {it.clock:7.2f}  {it.processors:13.2f}")
    print(f"drive takes {least['drive'].clock / least['replay'].clock:.2f} times as long, {least['drive'].processors / least['replay'].processors:.2f} times of the processors")


def trips(ask: Callable[[], object], times: int = TRIPS) -> str:
    """How long a question takes, in microseconds."""
    found = []
    for _ in range(times):
        begun = time.perf_counter_ns()
        ask()
        found.append(time.perf_counter_ns() - begun)
    found.sort()
    return "  ".join(f"{found[len(found) * part // 100] / 1000:8.1f}" for part in (50, 90, 99))


def many(machine: Machine) -> float:
    """How long each of many events takes that are asked at once, in microseconds."""
    begun = time.monotonic()
    machine.apply_all(["step 0"] * MANY)
    return (time.monotonic() - begun) / MANY * 1e6


def there_and_back(machine: Machine) -> str:
    """How long an event and the way back take, behind many events."""
    machine.back(0)
    machine.apply_all(["step 0"] * BEFORE)

    def ask() -> None:
        machine.step(0)
        machine.back(BEFORE)
        # what goes back is the next question
        machine.due(0, 0)

    return trips(ask, TRIPS // 10)


def by_pipes(words: Sequence[str], line: bytes, is_report: bool) -> str:
    """The round trips of a line that has an answer of one line."""
    child = subprocess.Popen(words, stdin=subprocess.PIPE, stdout=subprocess.PIPE, stderr=subprocess.PIPE, bufsize=0)
    assert child.stdin and child.stdout and child.stderr
    into, out = child.stdin.fileno(), (child.stderr if is_report else child.stdout).fileno()

    def ask() -> None:
        os.write(into, line)
        while not os.read(out, PIECE).endswith(b"\n"):
            pass

    told = trips(ask)
    child.kill()
    child.communicate()
    return told


def main() -> int:
    if len(sys.argv) < 2:
        print(__doc__)
        return 2
    program = str(Path(sys.argv[1]).resolve())
    with tempfile.TemporaryDirectory() as name:
        folder = Path(name)
        image = folder / "count.hex"
        image.write_text("".join(f"{word}\n" for word in WORDS.split()))
        compare(program, image, folder, int(sys.argv[2]) if len(sys.argv) > 2 else 1_000_000)
        print(f"\nmicroseconds of {TRIPS} round trips\n                  median      90%       99%")
        drive = [program, "drive", "--nodes=1", str(image)]
        # an event that is done, and has no message
        print(f"cat             {by_pipes(['cat'], b'validate' + bytes([10]), False)}")
        print(f"drive: event    {by_pipes(drive, b'validate' + bytes([10]), True)}")
        print(f"drive: foresee  {by_pipes(drive, b'foresee step 0' + bytes([10]), True)}")
        print(f"drive: due      {by_pipes(drive, b'due 0 7' + bytes([10]), True)}")
        with Machine(image, nodes=1, command=program) as machine:
            print(f"Machine.validate{trips(machine.validate)}")
            print(f"Machine.foresee {trips(lambda: machine.foresee('step 0'))}")
            print(f"Machine.due     {trips(lambda: machine.due(0, 7))}")
            print(f"step, back, due {there_and_back(machine)}")
            print(f"Machine.apply_all, an event of {MANY}: {many(machine):.1f}")
    return 0


if __name__ == "__main__":
    sys.exit(main())
