"""The checkout's stored runs: which files they are, and by which words they are replayed."""
from __future__ import annotations

import os
from pathlib import Path
from typing import Any, Dict, List, NamedTuple

CHECKOUT = Path(__file__).resolve().parents[2]
EXAMPLES = CHECKOUT / "examples"
SHARED = EXAMPLES / "shared"
PROGRAM = os.environ.get("SAFETYNET") or str(CHECKOUT / "safetynet")


class Stored(NamedTuple):
    """A script, its program, the options of its first line, and what it must give."""

    script: Path
    program: Path
    options: Dict[str, Any]
    report: str
    console: bytes


def words_of(file: Path) -> List[str]:
    """The words that the first line of a script or a trace names behind its command."""
    first = file.read_text().split("\n", 1)[0]
    return first.split(" ")[2:] if first.startswith("# ") else ["--nodes", "1", "a.hex"]


def options_of(words: List[str]) -> Dict[str, Any]:
    """Options as the functions of the package take them."""
    found = {}
    for name, value in zip(words[:-1:2], words[1:-1:2]):
        found[name[2:].replace("-", "_")] = int(value, 16 if name == "--watch" else 10)
    return found


def stored_scripts() -> List[Stored]:
    """Every script of examples/first, shared and asm that has a report."""
    found = []
    for script in sorted(EXAMPLES.glob("*/*.script")):
        report, console = script.with_suffix(".report"), script.with_suffix(".console")
        if script.parent.name in ("first", "shared", "asm") and report.exists():
            words = words_of(script)
            found.append(
                Stored(script, script.parent / words[-1], options_of(words), report.read_text(), console.read_bytes() if console.exists() else b"")
            )
    return found


STORED = stored_scripts()
NAMES = [f"{one.script.parent.name}/{one.script.stem}" for one in STORED]
