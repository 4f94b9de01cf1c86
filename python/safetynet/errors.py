"""What can go wrong between Python and the program, each by its name."""
from __future__ import annotations

from typing import Optional


class SafetyNetError(Exception):
    """The program ended otherwise than asked.

    Attributes
    ----------
    status : int
        The program's exit status, 1 to 14 where it refused something (`safetynet help statuses`).
    words : str
        What its last line says behind ``# safetynet: ``, as ``"script badline"``.
    why : str or None
        What stands above it behind ``# why: ``, where the program says more; several such lines are joined by a line's end.
    """

    def __init__(self, status: int, words: str, why: Optional[str] = None) -> None:
        super().__init__(status, words, why)
        self.status = status
        self.words = words
        self.why = why

    def __str__(self) -> str:
        return f"{self.words} (status {self.status})" + (f": {self.why}" if self.why else "")


class ProgramMissing(SafetyNetError):
    """The program isn't there or may not be executed.

    The status is 127, as a shell has it; nothing was called.
    """

    def __init__(self, why: str) -> None:
        super().__init__(127, "missing", why)

    def __reduce__(self) -> "tuple[type[ProgramMissing], tuple[str]]":
        return type(self), (self.why or "",)


class ProgramKilled(SafetyNetError):
    """A signal ended the program; the status is the signal's number with a minus sign."""


class ProgramTimeout(ProgramKilled):
    """The program took longer than its time limit, in seconds, and was ended."""


class ReportError(SafetyNetError):
    """What the program wrote isn't a report as docs/FORMATS.md has it.

    Attributes
    ----------
    line : int
        The line of the text that was read, from 1; 0 where no line is to blame.
    text : str
        What stands in that line.
    """

    def __init__(self, why: str, line: int = 0, text: str = "", status: int = 0) -> None:
        place = f"line {line}: {text!r}: " if line else ""
        super().__init__(status, "report", place + why)
        self.line = line
        self.text = text
        self._reason = why

    def __reduce__(self) -> "tuple[type[ReportError], tuple[str, int, str, int]]":
        return type(self), (self._reason, self.line, self.text, self.status)
