"""The command: its words, the replay that it asks for, and the picture that it writes. A refusal is one line, and nothing is written then."""
import os
import subprocess
import sys
from pathlib import Path
from typing import Callable, Dict, List, NamedTuple, Optional, Sequence, Tuple

from .picture import picture
from .report import BadReport, Report, read
from .story import told

USAGE = """usage: tools/diagram [OPTIONS] PROGRAM SCRIPT > figure.svg

Draws the replay of a script as a space-time diagram: a lane a node, time downwards, one row an event.

  --nodes N, --sets N, --ways N, --log N, --watch ADDRESS
                   as `safetynet replay` has them
  --from A, --to B only the events from place A to place B, at most 2000
  --title TEXT     what stands above the lanes [default: the files' names]
  --hops           also mark the rows in which a message hopped
  --safetynet FILE the program to ask [default: $SAFETYNET, or safetynet or bin/safetynet beside tools/]

Status 0: drawn. 1: the picture couldn't be written, or the report has another form. 2: an option is refused. Where the program refuses, its
status, with its lines on standard error.
"""
PASSED = ("--nodes", "--sets", "--ways", "--log", "--watch")
VALUED = PASSED + ("--from", "--to", "--title", "--safetynet")
ROWS = 2000
BESIDE = Path(__file__).resolve().parent.parent.parent


class Refusal(Exception):
    """Why nothing is drawn: the status to end with, and what is said on standard error."""

    def __init__(self, status: int, said: str) -> None:
        super().__init__(said)
        self.status = status


class Wish(NamedTuple):
    """What the words ask for. `options` are those with a value, by name."""

    files: List[str]
    options: Dict[str, str]
    hops: bool


def wish_of(given: Sequence[str], valued: Sequence[str] = VALUED, tool: str = "tools/diagram") -> Wish:
    """The wish of these words, for a tool whose options are these with a value, and --hops. Raises Refusal where they are no words of it."""
    files: List[str] = []
    options: Dict[str, str] = {}
    hops = False
    rest = list(given)
    while rest:
        word = rest.pop(0)
        name, equals, value = word.partition("=")
        if not word.startswith("-"):
            files.append(word)
        elif word == "--hops" and not hops:
            hops = True
        elif name not in valued:
            raise Refusal(2, f"{word} is given twice" if word == "--hops" else f"{word} is no option ({tool} --help lists them)")
        elif name in options:
            raise Refusal(2, f"{name} is given twice")
        elif not equals and not rest:
            raise Refusal(2, f"{name} needs a value")
        else:
            options[name] = value if equals else rest.pop(0)
    if len(files) != 2:
        raise Refusal(2, f"a program and a script are needed, and {len(files)} files are given ({tool} --help)")
    return Wish(files, options, hops)


def place_of(wish: Wish, name: str) -> Optional[int]:
    """The place that an option names, if it is given. Raises Refusal where it is no place."""
    value = wish.options.get(name)
    if value is not None and not (value.isascii() and value.isdigit() and len(value) < 10 and int(value) > 0):
        raise Refusal(2, f"{name} {value}: a place is a number from 1")
    return None if value is None else int(value)


def title_of(wish: Wish) -> str:
    """The title. Raises Refusal where it has what no XML file may have."""
    program, script = (Path(file).name for file in wish.files)
    title = wish.options.get("--title", f"{script} on {program}")
    if not title.strip() or any(ord(letter) < 32 or 0xD800 <= ord(letter) < 0xE000 or ord(letter) in (0x7F, 0xFFFE, 0xFFFF) for letter in title):
        raise Refusal(2, "--title: a title has letters, and no control characters")
    return title


def program_of(wish: Wish) -> str:
    """The program to ask: that of the words, of the environment, of the repository, or, in an archive or where it is installed, in bin/."""
    inside = BESIDE / "bin/safetynet"
    default = inside if inside.exists() and not (BESIDE / "safetynet").exists() else BESIDE / "safetynet"
    return wish.options.get("--safetynet") or os.environ.get("SAFETYNET") or str(default)


def have_built(program: str) -> None:
    """Has the repository's own program built where it isn't, which says how far it is. Raises Refusal where it can't be built."""
    if os.path.realpath(program) != str(BESIDE / "safetynet"):
        return
    status = subprocess.run([program, "--build"], stdin=subprocess.DEVNULL, stdout=subprocess.DEVNULL, check=False).returncode
    if status:
        raise Refusal(status if status > 0 else 1, f"{program} isn't built")


class Said(NamedTuple):
    """What the program put: the console's bytes, and the report."""

    console: bytes
    report: str


def asked(wish: Wish, more: Sequence[str]) -> Said:
    """What the program says to a replay with these words more. Raises Refusal where it refuses, or can't be asked."""
    program = program_of(wish)
    have_built(program)
    options = [f"{name}={wish.options[name]}" for name in PASSED if name in wish.options]
    try:
        done = subprocess.run([program, "replay", *more, *options, *wish.files], stdin=subprocess.DEVNULL, stdout=subprocess.PIPE, stderr=subprocess.PIPE, check=False)
    except (OSError, ValueError) as cause:
        raise Refusal(1, f"{program} can't be asked: {cause}") from None
    said = done.stderr.decode("ascii", "backslashreplace")
    if done.returncode != 0:
        lines = [line for line in said.splitlines() if line.startswith("#")] or said.splitlines()[-1:]
        raise Refusal(done.returncode if done.returncode > 0 else 1, "\n".join([f"{program} ended with status {done.returncode}:", *lines]))
    return Said(done.stdout, said)


def report_of(said: Said) -> Report:
    """The report that was put. Raises Refusal where it has another form."""
    try:
        return read(said.report)
    except BadReport as cause:
        raise Refusal(1, str(cause)) from None


def span_of(wish: Wish, count: int, most: int) -> Tuple[int, int]:
    """The first and the last place that are wished for, of so many events. Raises Refusal where there are none such, or more than `most`."""
    first, last = place_of(wish, "--from"), place_of(wish, "--to")
    for name, place in (("--from", first), ("--to", last)):
        if place is not None and place > count:
            raise Refusal(2, f"{name} {place}: the replay has {count} events")
    begin, end = first or 1, last or count
    if first is not None and begin > end:
        raise Refusal(2, f"--from {begin} --to {end}: the first comes after the last")
    if end - begin + 1 > most:
        raise Refusal(2, f"{end - begin + 1} events are more than {most} rows: choose some by --from A --to B, as --from {begin} --to {begin + most - 1}")
    return begin, end


def drawn(wish: Wish) -> str:
    """The picture that is wished for. Raises Refusal where there is none."""
    for name in ("--from", "--to"):
        place_of(wish, name)
    title = title_of(wish)
    report = report_of(asked(wish, ()))
    begin, end = span_of(wish, len(report.events), ROWS)
    return picture(told(report), title, begin, end, wish.hops)


def put(tool: str, made: Callable[[], str]) -> int:
    """Writes what is made to standard output, all of it or nothing, and returns the status."""
    try:
        sys.stdout.buffer.write(made().encode("utf-8"))
        sys.stdout.buffer.flush()
    except Refusal as refusal:
        print(f"{tool}: {refusal}", file=sys.stderr)
        return refusal.status
    except OSError as cause:
        what = "picture" if tool == "diagram" else "page"
        print(f"{tool}: the {what} couldn't be written: {cause.strerror}", file=sys.stderr)
        # what is left in the buffer would be tried again at the end, and say the same a second time
        os.dup2(os.open(os.devnull, os.O_WRONLY), sys.stdout.fileno())
        return 1
    return 0


def main(given: Sequence[str]) -> int:
    """Draws what the words ask for, and returns the status."""
    if "--help" in given or "-h" in given:
        return put("diagram", lambda: USAGE)
    return put("diagram", lambda: drawn(wish_of(given)))
