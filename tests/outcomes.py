"""What a call of the program comes to: its status, what it wrote to standard output, and what to standard error."""
import re
import subprocess
from pathlib import Path
from typing import Iterable, List, Optional, Sequence, Tuple, TypeVar, Union

# A status, and what was written to standard output and to standard error.
Outcome = Tuple[int, bytes, bytes]

# A status: a number or, of a call that didn't end, none.
Status = TypeVar("Status", bound=Optional[int])

# The line that says why a call isn't done. The reference simulator has none.
REASON = re.compile(rb"^# why: [^\n]*\n", re.MULTILINE)


def called(command: Sequence[str], folder: Union[str, Path], seconds: Optional[float] = None) -> Outcome:
    """A call in the ordinary way: the program is started for it."""
    done = subprocess.run(command, cwd=folder, stdin=subprocess.DEVNULL, capture_output=True, timeout=seconds)
    return done.returncode, done.stdout, done.stderr


def commands_of(built: str, names: Iterable[str]) -> List[str]:
    """Those of these commands that the program's page names."""
    page = subprocess.run([built, "--help"], capture_output=True, text=True, check=True).stdout
    return [name for name in names if re.search(rf"^  {name} +[A-Z]", page, re.MULTILINE)]


def without_reason(outcome: Tuple[Status, bytes, bytes]) -> Tuple[Status, bytes, bytes]:
    """The outcome, without the line that says why."""
    status, console, report = outcome
    return status, console, REASON.sub(b"", report)


def seen_last(outcome: Tuple[Status, bytes, bytes]) -> Tuple[Status, bytes, bytes]:
    """The outcome of a run that was watched, with the last line alone of what was seen: which cuts are seen before it is left to the threads."""
    status, console, report = outcome
    seen = [line for line in report.splitlines(keepends=True) if line.startswith(b"seen ")]
    return status, console, b"".join(seen[-1:]) + report[sum(map(len, seen)):]


def is_explained(outcome: Tuple[Optional[int], bytes, bytes]) -> bool:
    """Whether the report of a call that isn't done says why once, in the line above its last; that of another call never does."""
    status, _, report = outcome
    places = [place for place, line in enumerate(report.splitlines(keepends=True)) if REASON.fullmatch(line)]
    return places == ([] if status == 0 else [report.count(b"\n") - 2])
