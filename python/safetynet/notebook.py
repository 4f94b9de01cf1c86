"""What a notebook shows: a machine as a table, and a run as the picture of `tools/diagram` where that stands."""
from __future__ import annotations

import base64
import html
import subprocess
import sys
import tempfile
from pathlib import Path
from typing import Callable, Iterable, Optional

from .backends import Loaded
from .errors import ProgramMissing, SafetyNetError
from .events import Event, script_text
from .program import timeout_error
from .report import Core, Summary


def table_of(summary: Summary) -> str:
    """A small table of a machine at its recovery point, as HTML."""
    caption = (
        f"{summary.events} events, recovery point {summary.point}, {summary.committed} instructions committed, "
        f"{summary.released} bytes released"
    )
    head = "<tr><th>core</th><th>pc</th><th>state</th><th>registers</th></tr>"
    return f"<table><caption>{caption}</caption>{head}{''.join(map(_row, summary.cores))}</table>"


def _row(core: Core) -> str:
    end = core.state if core.state == "running" else f"{core.state} {core.code if core.cause is None else core.cause}"
    held = " ".join(f"x{number}={value:08x}" for number, value in enumerate(core.registers) if value)
    cells = (str(core.node), f"{core.pc:08x}", end, held)
    return "<tr>" + "".join(f"<td>{html.escape(cell)}</td>" for cell in cells) + "</tr>"


def picture_or_table(picture: Callable[[], str], summary: Summary) -> str:
    """The picture, if it can be drawn, as an image of its own, since a figure's style would be the whole page's; else the table."""
    try:
        text = picture()
    except SafetyNetError:
        return table_of(summary)
    return f'<img alt="a space-time diagram" src="data:image/svg+xml;base64,{base64.b64encode(text.encode()).decode()}">'


def find_diagram(program: Path) -> Path:
    """The tool that draws, in the checkout of this package or in that of the program, or where the program is installed.

    Raises
    ------
    ProgramMissing
        It is in none of these.
    """
    beside = program.resolve().parent
    for folder in (Path(__file__).resolve().parents[2], beside, beside.parent):
        if (folder / "tools" / "diagram").is_file():
            return folder / "tools" / "diagram"
    raise ProgramMissing("tools/diagram isn't in the checkout of this package, nor beside the program")


def drawn(origin: Optional[Loaded], events: Iterable[Event], what: str) -> str:
    """The picture of what a machine did, the text of an SVG file.

    Raises
    ------
    SafetyNetError
        It can't be drawn; `why` says why.
    """
    if origin is None:
        raise SafetyNetError(1, "usage", "only a run with its journal, or a replay with its answers, is drawn")
    tool = find_diagram(origin.command)
    script = script_text(events)
    title = f"{what} of {script.count(chr(10))} events"
    with tempfile.TemporaryDirectory(prefix="safetynet-") as folder:
        Path(folder, "program").write_bytes(origin.program)
        Path(folder, "script").write_text(script)
        words = [sys.executable, str(tool), *origin.sizes, f"--title={title}", f"--safetynet={origin.command}", "program", "script"]
        try:
            done = subprocess.run(words, cwd=folder, stdin=subprocess.DEVNULL, capture_output=True, timeout=origin.timeout, check=False)
        except subprocess.TimeoutExpired:
            raise timeout_error(origin.timeout, "draw") from None
        except OSError as error:
            raise ProgramMissing(f"{tool}: {error}") from error
    if done.returncode != 0:
        raise SafetyNetError(done.returncode, "diagram", done.stderr.decode("ascii", "backslashreplace").strip())
    return done.stdout.decode()
