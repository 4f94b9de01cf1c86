"""A process of `drive`, fed and read by pipes, for the tests of that command: whatever it does, nothing here waits longer than a limit."""
import os
import select
import signal
import subprocess
import time
from pathlib import Path
from types import TracebackType
from typing import List, NamedTuple, Optional, Sequence, Type

# Seconds in which any answer is there.
LONGEST = 120.0
PIECE = 1 << 16


class Hangs(Exception):
    """Something that is due isn't there within the limit."""


class Outcome(NamedTuple):
    """What a call comes to: its status, or a signal's number with a minus sign, and what it wrote."""

    status: int
    console: bytes
    report: bytes


def heed_interrupts() -> None:
    """In a process that is about to begin: what is begun in the background ignores SIGINT, and so would all that it begins."""
    signal.signal(signal.SIGINT, signal.SIG_DFL)


class Driven:
    """`drive` with these words, in a folder. What it writes is kept; `read` waits for so many bytes of it."""

    def __init__(self, program: str, words: Sequence[str], folder: Path) -> None:
        pipe = subprocess.PIPE
        self.process = subprocess.Popen(
            [program, "drive", *words], cwd=folder, bufsize=0, stdin=pipe, stdout=pipe, stderr=pipe, start_new_session=True, preexec_fn=heed_interrupts
        )
        assert self.process.stdin and self.process.stdout and self.process.stderr
        self.stdin, self.stdout, self.stderr = (it.fileno() for it in (self.process.stdin, self.process.stdout, self.process.stderr))
        self.console, self.report = bytearray(), bytearray()
        self.open = {self.stdout: self.console, self.stderr: self.report}
        for file in (self.stdin, *self.open):
            os.set_blocking(file, False)

    def __enter__(self) -> "Driven":
        return self

    def __exit__(self, kind: Optional[Type[BaseException]], error: Optional[BaseException], trace: Optional[TracebackType]) -> None:
        if self.process.poll() is None:
            os.killpg(self.process.pid, signal.SIGKILL)
        for file in (self.process.stdin, self.process.stdout, self.process.stderr):
            if file is not None:
                file.close()
        self.process.wait()

    def wait(self, text: memoryview, ends: float) -> int:
        """Waits until something can be read, which is read, or written of this text; how much of it was."""
        left = ends - time.monotonic()
        ready = select.select([*self.open], [self.stdin] if text else [], [], max(0.0, left))
        if not ready[0] and not ready[1]:
            raise Hangs(f"nothing within {LONGEST:g} s; the report ends with {bytes(self.report[-200:])!r}")
        for file in ready[0]:
            piece = os.read(file, PIECE)
            self.open[file].extend(piece)
            if not piece:
                del self.open[file]
        try:
            return os.write(self.stdin, text[:PIECE]) if ready[1] else 0
        except BrokenPipeError:
            return len(text)

    def give(self, text: bytes) -> None:
        """Writes a text, and reads what comes meanwhile."""
        left, ends = memoryview(text), time.monotonic() + LONGEST
        while left:
            left = left[self.wait(left, ends) :]

    def read(self, report: int, console: int = 0) -> None:
        """Reads until there are so many bytes of the report, and of the console, or more."""
        ends = time.monotonic() + LONGEST
        while len(self.report) < report or len(self.console) < console:
            if not self.open:
                raise Hangs(f"it has ended, and the report ends with {bytes(self.report[-200:])!r}")
            self.wait(memoryview(b""), ends)

    def end(self) -> Outcome:
        """Ends the input, and waits for the end."""
        assert self.process.stdin
        self.process.stdin.close()
        return self.ended()

    def ended(self) -> Outcome:
        """Waits for the end, which comes by itself."""
        ends = time.monotonic() + LONGEST
        while self.open:
            self.wait(memoryview(b""), ends)
        try:
            status = self.process.wait(max(0.0, ends - time.monotonic()))
        except subprocess.TimeoutExpired:
            raise Hangs("it has closed its outputs and doesn't end") from None
        return Outcome(status, bytes(self.console), bytes(self.report))


def driven(program: str, words: Sequence[str], folder: Path, text: bytes) -> Outcome:
    """`drive` given this text at once."""
    with Driven(program, words, folder) as it:
        it.give(text)
        return it.end()


def called(program: str, words: Sequence[str], folder: Path) -> Outcome:
    """Any other call, of the program's files alone."""
    done = subprocess.run([program, *words], cwd=folder, capture_output=True, timeout=LONGEST, stdin=subprocess.DEVNULL)
    return Outcome(done.returncode, done.stdout, done.stderr)


def split_groups(report: bytes) -> List[bytes]:
    """A replay's report as its groups, and the summary as the last: a line that begins with two blanks belongs to the one above it."""
    groups: List[bytes] = []
    lines = report.splitlines(keepends=True)
    for place, line in enumerate(lines):
        if line.startswith(b"events "):
            return [*groups, b"".join(lines[place:])]
        if line.startswith(b"  "):
            groups[-1] += line
        else:
            groups.append(line)
    return groups
