"""A process of `safetynet drive`: lines go to its standard input, and each is answered before the next is read.

Here is how an answer is told from the next one, and how the process ends; what a line and its answer mean is for `safetynet.backends`.

An event is answered by one line and by as many below it as it has messages and cores, and nothing says which is the last. So a line that is no event
follows. It changes nothing, and its answer has its number among all lines: what stands above that answer is what was asked for.
"""
from __future__ import annotations

import os
import select
import subprocess
import tempfile
import time
import weakref
from pathlib import Path
from typing import Callable, Iterable, Optional, Sequence

from .errors import ReportError
from .program import called_of, end_process, started, timeout_error

_NO_EVENT = "?"
# As many bytes as a pipe holds.
_PIECE = 1 << 16
_IsWhole = Callable[[bytearray], bool]


class EndedEarly(ReportError):
    """The process has ended by itself, with status 0, before its input did.

    Attributes
    ----------
    report : str
        What it wrote since it was asked.
    """

    def __init__(self, why: str, line: int = 0, text: str = "", status: int = 0) -> None:
        super().__init__(why, line, text, status)
        self.report = ""


class Drive:
    """A process that keeps one machine, begun at its program's start.

    Parameters
    ----------
    command : path
        The program, as `safetynet.program.find_program` gives it.
    words : sequence of str
        What stands between ``drive`` and the program's file: the machine's sizes.
    program : bytes
        The content of the program's file, which is there until the first answer.
    timeout : float
        The time limit of each question, in seconds.

    Attributes
    ----------
    console : bytearray
        What the machine has put out; whoever has it go back takes away what later events had put there, since it comes again.
    lines : int
        How many lines it was given.

    Raises
    ------
    ProgramMissing
        It can't be started.
    SafetyNetError
        It refuses its words or its file, or ends otherwise.

    Notes
    -----
    A question that raises leaves the machine where nobody knows: `kill` the process then. It is killed as well where nobody has this object any more,
    and as Python ends; but not by a process that ``os.fork`` made of this one, which may not ask it either (`is_ours`).
    """

    def __init__(self, command: Path, words: Sequence[str], program: bytes, timeout: float) -> None:
        self.console = bytearray()
        self._report = bytearray()
        self.lines = 0
        self._timeout = timeout
        self._owner = os.getpid()
        with tempfile.TemporaryDirectory(prefix="safetynet-") as folder:
            Path(folder, "program").write_bytes(program)
            self._process = started([str(command), "drive", *words, "program"], folder, stdin=subprocess.PIPE)
            self._finalizer = weakref.finalize(self, _let_go, self._process, self._owner)
            self._open_pipes()
            try:
                self.answers([])
            except BaseException:
                self.kill()
                raise

    def _open_pipes(self) -> None:
        stdin, stdout, stderr = self._process.stdin, self._process.stdout, self._process.stderr
        assert stdin and stdout and stderr
        self._stdin, self._stdout, self._stderr = stdin.fileno(), stdout.fileno(), stderr.fileno()
        # none of them is waited for alone, so that neither side can wait for the other for ever
        for pipe in (self._stdin, self._stdout, self._stderr):
            os.set_blocking(pipe, False)
        self._poll = select.poll()
        self._poll.register(self._stdout, select.POLLIN)
        self._poll.register(self._stderr, select.POLLIN)

    @property
    def is_ours(self) -> bool:
        """Whether it was begun by this process, and not by one that this was forked from."""
        return self._owner == os.getpid()

    def answers(self, lines: Iterable[str]) -> str:
        """What lines are answered, by one exchange.

        Parameters
        ----------
        lines : iterable of str
            Lines in ASCII without their ends, as many as one likes.

        Raises
        ------
        ProgramTimeout
            The time limit has passed.
        SafetyNetError
            The process has ended; `status` and `words` say how.
        ReportError
            It has ended by itself, with status 0; or an answer isn't ASCII.
        """
        asked = [*lines, _NO_EVENT]
        self.lines += len(asked)
        last = b"badline %d\n" % self.lines
        behind = b"\n" + last
        answer = self._exchange(asked, lambda report: report.endswith(behind) or report == last)
        return answer[: -len(last)]

    def line(self, line: str) -> str:
        """What a line is answered whose answer is always one line: one that is no event. It raises what `answers` raises."""
        self.lines += 1
        return self._exchange([line], lambda report: report.endswith(b"\n"))

    def end(self, timeout: Optional[float] = None) -> str:
        """End the input, and give the report's end, once the process has ended. It raises what `answers` raises.

        Parameters
        ----------
        timeout : float, optional
            Another time limit, in seconds.
        """
        ends = time.monotonic() + (self._timeout if timeout is None else timeout)
        self._report.clear()
        assert self._process.stdin
        self._process.stdin.close()
        self._is_answered(b"", lambda report: False, ends)
        status = self._ended(ends)
        called = called_of(status, b"", bytes(self._report))
        if called.status != 0:
            called.raise_refusal()
        return called.report

    def kill(self) -> None:
        """End the process at once. To do it again does nothing."""
        self._finalizer()

    def _exchange(self, lines: Sequence[str], is_whole: _IsWhole) -> str:
        """Write lines, and read their answer."""
        ends = time.monotonic() + self._timeout
        self._report.clear()
        if not self._is_answered("".join(f"{line}\n" for line in lines).encode("ascii"), is_whole, ends):
            called = called_of(self._ended(ends), b"", bytes(self._report))
            if called.status != 0:
                called.raise_refusal()
            early = EndedEarly("it ended before its input did: " + "; ".join(called.report.splitlines()[-3:]))
            early.report = called.report
            raise early
        # what an event puts out is in its pipe before the answer is in the other
        self._drains(ends)
        try:
            return self._report.decode("ascii")
        except UnicodeDecodeError as fault:
            raise ReportError(f"byte {fault.start} of an answer isn't ASCII") from None

    def _is_answered(self, text: bytes, is_whole: _IsWhole, ends: float) -> bool:
        """Write a text and read until the answer is whole; False where the process closes its report before that."""
        left = memoryview(text)
        left = left[self._given(left) :]
        if left:
            self._poll.register(self._stdin, select.POLLOUT)
        while left or not is_whole(self._report):
            for pipe, _ in self._poll.poll(self._seconds_to(ends) * 1000):
                if pipe == self._stdin:
                    left = left[self._given(left) :]
                    if not left:
                        self._poll.unregister(self._stdin)
                elif pipe == self._stderr:
                    if not self._takes(self._stderr, self._report):
                        return False
                elif not self._takes(self._stdout, self.console):
                    self._poll.unregister(self._stdout)
        return True

    def _seconds_to(self, ends: float) -> float:
        """How many seconds are left; none is the time limit's end."""
        seconds = ends - time.monotonic()
        if seconds <= 0:
            raise timeout_error(self._timeout, "answer")
        return seconds

    def _given(self, left: memoryview) -> int:
        """How many bytes the process takes now; all of them where it takes no more at all, which its report's end will tell."""
        try:
            return os.write(self._stdin, left) if left else 0
        except BlockingIOError:
            return 0
        except BrokenPipeError:
            return len(left)

    def _takes(self, pipe: int, into: bytearray) -> bool:
        """Read a piece of what is in a pipe; False where there is none and the process has closed it."""
        try:
            piece = os.read(pipe, _PIECE)
        except BlockingIOError:
            return True
        into += piece
        return bool(piece)

    def _drains(self, ends: float) -> None:
        """Read what the machine has put out, of which no more comes now."""
        size = -1
        while size != len(self.console):
            self._seconds_to(ends)
            size = len(self.console)
            self._takes(self._stdout, self.console)

    def _ended(self, ends: float) -> int:
        """The status of the process, which has closed its report."""
        try:
            status = self._process.wait(self._seconds_to(ends))
        except subprocess.TimeoutExpired:
            raise timeout_error(self._timeout, "answer") from None
        self._drains(ends)
        return status


def _let_go(process: "subprocess.Popen[bytes]", owner: int) -> None:
    """End a process, where this one began it; else let go of its pipes alone."""
    if os.getpid() == owner:
        end_process(process)
        return
    for pipe in (process.stdin, process.stdout, process.stderr):
        if pipe is not None:
            pipe.close()
    # it isn't a child of this process, so nobody here waits for it
    process.returncode = 0
