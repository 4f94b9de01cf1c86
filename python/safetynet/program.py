"""Where the program is, and one call of it.

A call gets its files in a temporary folder of its own, ends within its time limit, and comes back as what the program wrote and how
it ended. What the words mean is for `safetynet.calls`, what a report says for `safetynet.report`.
"""
from __future__ import annotations

import os
import shutil
import signal
import subprocess
import tempfile
from pathlib import Path
from typing import Dict, Mapping, NamedTuple, NoReturn, Optional, Sequence, Tuple, Union

from .errors import ProgramKilled, ProgramMissing, ProgramTimeout, ReportError, SafetyNetError

PathLike = Union[str, "os.PathLike[str]"]

DEFAULT_TIMEOUT = 60.0
_HEADLINE = "# safetynet: "
_REASON = "# why: "
# The first word that goes with each status; one that isn't here may have any.
_WORDS: Dict[int, str] = {
    1: "usage",
    2: "store",
    3: "program",
    4: "script",
    5: "sink",
    6: "budget",
    7: "memory",
    8: "cutoff",
    9: "refused",
    10: "trapped",
    12: "save",
    13: "asm",
    14: "input",
}


class Called(NamedTuple):
    """How a call ended, and what it wrote.

    Attributes
    ----------
    status : int
        The exit status.
    words : str
        ``"done"``, or what the last line says.
    why : str or None
        What the lines ``# why: `` say.
    console : bytes
        Standard output.
    report : str
        Standard error without the lines that say how it ended.
    """

    status: int
    words: str
    why: Optional[str]
    console: bytes
    report: str

    def raise_refusal(self) -> NoReturn:
        """Raise the `SafetyNetError` that says how this call ended."""
        raise SafetyNetError(self.status, self.words, self.why)


def find_program(command: Optional[PathLike] = None) -> Path:
    """The program's file.

    Parameters
    ----------
    command : path, optional
        A file, or a name on the path. Without it the environment variable ``SAFETYNET`` says it; without that it is ``safetynet`` on
        the path, and else the file ``safetynet`` of the checkout that this package stands in, once the program is built there.

    Returns
    -------
    pathlib.Path
        An absolute path.

    Raises
    ------
    ProgramMissing
        No such file may be executed, or the checkout's program isn't built: a call would begin to build it, and wait.
    """
    named = os.fspath(command) if command is not None else os.environ.get("SAFETYNET") or None
    if named is not None:
        found = shutil.which(named)
        if found is None:
            raise ProgramMissing(f"{named!r} is no program that may be executed")
        return Path(found).absolute()
    checkout = Path(__file__).resolve().parents[2] / "safetynet"
    found = shutil.which("safetynet") or shutil.which(str(checkout))
    if found is None:
        raise ProgramMissing("safetynet isn't on the path; name it by the environment variable SAFETYNET or by command=")
    if Path(found) == checkout and not (checkout.parent / "build" / "safetynet").is_file():
        raise ProgramMissing(f"the program isn't built: run {checkout} --build")
    return Path(found).absolute()


def call(
    words: Sequence[str],
    files: Mapping[str, bytes] = {},
    *,
    command: Optional[PathLike] = None,
    timeout: float = DEFAULT_TIMEOUT,
) -> Called:
    """Call the program once.

    Parameters
    ----------
    words : sequence of str
        The command and its words. A file of `files` is named as it is there, any other by its absolute path.
    files : mapping from names to bytes
        Files that are there during the call.
    command : path, optional
        The program, as `find_program` takes it.
    timeout : float
        The time limit in seconds.

    Returns
    -------
    Called
        Whatever the status is, as long as the last line says it.

    Raises
    ------
    ProgramMissing
        The program isn't there or can't be started.
    ProgramTimeout
        The time limit has passed; the program was ended.
    ProgramKilled
        A signal ended it.
    ReportError
        Its last line doesn't say how it ended.
    """
    program = find_program(command)
    return called_of(*_ended([str(program), *words], files, timeout))


def _ended(words: Sequence[str], files: Mapping[str, bytes], timeout: float) -> Tuple[int, bytes, bytes]:
    """Status, standard output and standard error of a process in a folder of its own, where these files are."""
    with tempfile.TemporaryDirectory(prefix="safetynet-") as folder:
        for name, content in files.items():
            Path(folder, name).write_bytes(content)
        process = started(words, folder)
        try:
            console, error_text = process.communicate(timeout=timeout)
        except BaseException as error:
            end_process(process)
            if isinstance(error, subprocess.TimeoutExpired):
                raise timeout_error(timeout) from None
            raise
    return process.returncode, console, error_text


def started(words: Sequence[str], folder: str, stdin: int = subprocess.DEVNULL) -> "subprocess.Popen[bytes]":
    """A process in a session of its own, whose standard output and standard error are pipes.

    Raises
    ------
    ProgramMissing
        It can't be started.
    """
    try:
        return subprocess.Popen(
            words,
            cwd=folder,
            bufsize=0,
            stdin=stdin,
            stdout=subprocess.PIPE,
            stderr=subprocess.PIPE,
            start_new_session=True,
        )
    except OSError as error:
        raise ProgramMissing(f"{words[0]}: {error}") from error


def end_process(process: "subprocess.Popen[bytes]") -> None:
    """End a process and those that it started, and let go of its pipes without reading them."""
    # once it was waited for, its number may be another's
    if process.returncode is None:
        try:
            os.killpg(process.pid, signal.SIGKILL)
        except (ProcessLookupError, PermissionError):
            pass
    for pipe in (process.stdin, process.stdout, process.stderr):
        if pipe is not None:
            pipe.close()
    process.wait()


def timeout_error(seconds: float, what: str = "end") -> ProgramTimeout:
    """What is raised where the program didn't do something within its time limit."""
    return ProgramTimeout(-signal.SIGKILL, "timeout", f"it didn't {what} within {seconds:g} s")


def called_of(status: int, console: bytes, error: bytes) -> Called:
    """How a process ended, by its status and what it wrote.

    Raises
    ------
    ProgramKilled
        A signal ended it.
    ReportError
        Its last line doesn't say how it ended.
    """
    if status < 0:
        raise ProgramKilled(status, "killed", f"{_signal_name(-status)} ended it")
    report, ended, why = _parted(status, error)
    return Called(status, ended, why, console, report)


def _signal_name(number: int) -> str:
    try:
        return signal.Signals(number).name
    except ValueError:
        return f"signal {number}"


def _parted(status: int, error: bytes) -> Tuple[str, str, Optional[str]]:
    """The report, the words that say how the call ended, and why."""
    try:
        text = error.decode("ascii")
    except UnicodeDecodeError as fault:
        line = error.count(b"\n", 0, fault.start) + 1
        raise ReportError("a byte that isn't ASCII", line, repr(error.split(b"\n")[line - 1]), status) from None
    lines = text.split("\n")
    has_headline = len(lines) > 1 and lines[-2].startswith(_HEADLINE) and lines[-1] == ""
    if status == 0:
        if has_headline:
            raise ReportError("the status is 0, and the last line says that it isn't", len(lines) - 1, lines[-2])
        return text, "done", None
    if not has_headline:
        last = "\n".join(line for line in lines[-6:] if line)
        raise ReportError(f"no line says why the status is {status}" + (f": {last}" if last else ""), status=status)
    words = lines[-2][len(_HEADLINE) :]
    if not words or _WORDS.get(status, words.split(" ")[0]) != words.split(" ")[0]:
        raise ReportError(f"these words don't go with the status {status}", len(lines) - 1, lines[-2], status)
    first = len(lines) - 2
    while first > 0 and lines[first - 1].startswith(_REASON):
        first -= 1
    why = "\n".join(line[len(_REASON) :] for line in lines[first:-2]) or None
    return "".join(line + "\n" for line in lines[:first]), words, why
