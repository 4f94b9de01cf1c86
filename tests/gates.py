#!/usr/bin/env python3
"""Does the parts of tests/gate side by side, and shows what each said, whole, once it has ended.

    tests/gates.py [--at-once N] [--limit SECONDS] [PART..]

Without a PART it does all of tests/gate/*.sh. As many go on at a time as there are processors, or N. The program is built before the first
begins, so that none builds it beside another; where it can't be built, the parts that run it aren't begun, and count as failed. A part
that goes on past its limit, 40 minutes, is ended and has failed. The last line names those that failed, and the status is 1 then.
"""
import argparse
import os
import signal
import subprocess
import sys
import tempfile
import time
from contextlib import suppress
from pathlib import Path
from typing import List, Sequence

TOP = Path(__file__).resolve().parent.parent
# Those that take longest, which begin first.
LONGEST = ["tour", "first_command", "python", "campaigns"]
LIMIT = 40 * 60.0
# So long a part that is to end may still take, to take away what it began.
GRACE = 60.0


class Part:
    """A part that goes on, with all that it starts in a group of processes, and what they say in a file."""

    def __init__(self, file: Path, limit: float) -> None:
        self.name, self.begun, self.limit, self.is_late = file.stem, time.monotonic(), limit, False
        self.said = tempfile.TemporaryFile()
        self.ran = subprocess.Popen(["bash", file], stdin=subprocess.DEVNULL, stdout=self.said, stderr=subprocess.STDOUT, start_new_session=True)

    def seconds(self) -> float:
        return time.monotonic() - self.begun

    def signal(self, number: int) -> None:
        with suppress(ProcessLookupError):
            os.killpg(self.ran.pid, number)

    def has_ended(self) -> bool:
        """Whether it has ended; its number stays its own until `end`."""
        return os.waitid(os.P_PID, self.ran.pid, os.WEXITED | os.WNOHANG | os.WNOWAIT) is not None

    def hold_to_limit(self) -> None:
        """Past its limit tells it to end, and ends it where that doesn't help."""
        if self.seconds() > self.limit and not self.is_late:
            self.is_late = True
            self.signal(signal.SIGTERM)
        if self.seconds() > self.limit + GRACE:
            self.signal(signal.SIGKILL)

    def end(self) -> bool:
        """Ends what there still is of it, shows what it said, and gives whether it passed."""
        self.signal(signal.SIGKILL)
        status = self.ran.wait()
        how = "was ended at its limit" if self.is_late else f"failed with status {status}" if status else "passed"
        say(f"{self.name} {how} after {self.seconds():.0f} s")
        with self.said:
            self.said.seek(0)
            for line in self.said:
                sys.stdout.buffer.write(line.rstrip(b"\n") + b"\n")
            sys.stdout.flush()
        return status == 0 and not self.is_late


def say(text: str) -> None:
    print(f"# {text}", flush=True)


def needs_program(file: Path) -> bool:
    """Whether a part builds the program, which it says where it can't."""
    return '"the program was not built"' in file.read_text(encoding="utf-8")


def rank(file: Path) -> "tuple[int, str]":
    """Where a part stands in the order in which they begin."""
    return (LONGEST.index(file.stem) if file.stem in LONGEST else len(LONGEST), file.stem)


def failed_of(files: Sequence[Path], at_once: int, limit: float) -> List[str]:
    """Does these parts, so many at a time, and gives the names of those that failed."""
    waiting, failed = [*files], []
    running: List[Part] = []
    try:
        while waiting or running:
            while waiting and len(running) < at_once:
                running.append(Part(waiting.pop(0), limit))
            time.sleep(0.1)
            for part in [*running]:
                part.hold_to_limit()
                if part.has_ended():
                    running.remove(part)
                    failed += [] if part.end() else [part.name]
    finally:
        end_all(running)
    return failed


def end_all(parts: Sequence[Part]) -> None:
    """Ends parts that still go on, where this is ended itself."""
    for part in parts:
        part.signal(signal.SIGTERM)
    begun = time.monotonic()
    while time.monotonic() < begun + GRACE and not all([it.has_ended() for it in parts]):
        time.sleep(0.1)
    for part in parts:
        part.end()


def main() -> int:
    words = argparse.ArgumentParser(usage="tests/gates.py [--at-once N] [--limit SECONDS] [PART..]")
    words.add_argument("--at-once", type=int, default=len(os.sched_getaffinity(0)), metavar="N")
    words.add_argument("--limit", type=float, default=LIMIT, metavar="SECONDS")
    words.add_argument("parts", nargs="*", type=Path, metavar="PART")
    wish = words.parse_args()
    lacking = [str(it) for it in wish.parts if not it.is_file()]
    if lacking or wish.at_once < 1:
        words.error(f"{' '.join(lacking)} isn't there" if lacking else "at least one at a time")
    # an end from outside ends the parts too
    signal.signal(signal.SIGTERM, lambda *_: sys.exit(143))
    # what one part compiles doesn't come into a folder that another copies
    os.environ["PYTHONDONTWRITEBYTECODE"] = "1"
    begun = time.monotonic()
    files = sorted(wish.parts or (TOP / "tests" / "gate").glob("*.sh"), key=rank)
    needing = [it for it in files if needs_program(it)]
    unbuilt = needing if needing and subprocess.run([TOP / "safetynet", "--build"], check=False).returncode else []
    if unbuilt:
        say(f"the program isn't built, so these aren't begun: {', '.join(it.stem for it in unbuilt)}")
    failed = [it.stem for it in unbuilt] + failed_of([it for it in files if it not in unbuilt], wish.at_once, wish.limit)
    say(f"{len(files)} parts in {time.monotonic() - begun:.0f} s; {'failed: ' + ', '.join(sorted(failed)) if failed else 'none failed'}")
    return 1 if failed else 0


if __name__ == "__main__":
    sys.exit(main())
