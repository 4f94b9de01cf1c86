"""What may be given as a program, a script, a trace or a text, and the words that name it in a call."""
from __future__ import annotations

import os
from pathlib import Path
from typing import Dict, Iterable, Sequence, Tuple, Union

from .events import EventLike, script_text
from .program import PathLike
from .trace import Trace

ProgramLike = Union[PathLike, bytes, Sequence[int]]
ScriptLike = Union[PathLike, bytes, Iterable[EventLike]]
TraceLike = Union[PathLike, bytes, Trace]


def hexadecimal(words: Iterable[int]) -> bytes:
    """A hexadecimal image of these words, which go to memory from address 80000000 up.

    Raises
    ------
    ValueError
        One isn't a number from 0 to 2**32 - 1.
    """
    lines = []
    for word in words:
        if isinstance(word, bool) or not isinstance(word, int) or not 0 <= word < 2**32:
            raise ValueError(f"a word of a program is a number from 0 to 2**32 - 1, and not {word!r}")
        lines.append(f"{word:08x}\n")
    return "".join(lines).encode()


def program_bytes(program: ProgramLike) -> bytes:
    """The content of a program's file.

    Parameters
    ----------
    program : path, bytes or sequence of int
        A file, a file's content, or the words of a program.

    Raises
    ------
    OSError
        The file can't be read.
    ValueError
        It is none of these.
    """
    if isinstance(program, (str, os.PathLike)):
        return Path(program).read_bytes()
    if isinstance(program, (bytes, bytearray)):
        return bytes(program)
    try:
        return hexadecimal(program)
    except TypeError:
        raise ValueError(f"a program is a path, bytes or words, and not {program!r}") from None


class Files:
    """The files of a call: content under a name in its folder, or a path that is already there."""

    def __init__(self) -> None:
        self.contents: Dict[str, bytes] = {}

    def named(self, name: str, given: Union[PathLike, bytes]) -> str:
        """The word that names what is given, a path or a content, in the call."""
        if isinstance(given, (bytes, bytearray)):
            self.contents[name] = bytes(given)
            return name
        path = os.path.abspath(given)
        if "\0" in path:
            raise ValueError(f"a path has no NUL: {path!r}")
        return path

    def program(self, program: ProgramLike) -> str:
        """The word for a program; see `program_bytes`."""
        if isinstance(program, (str, os.PathLike)):
            return self.named("program", program)
        return self.named("program", program_bytes(program))

    def script(self, script: ScriptLike) -> str:
        """The word for a script: a path, a content, or events and lines, of which each is looked at first.

        Raises
        ------
        ValueError
            One of the events is none.
        """
        if isinstance(script, (str, os.PathLike, bytes, bytearray)):
            return self.named("script", script)
        try:
            return self.named("script", script_text(script).encode("ascii"))
        except TypeError:
            raise ValueError(f"a script is a path, bytes or events, and not {script!r}") from None

    def trace(self, trace: TraceLike) -> str:
        """The word for a trace: a path, a content, or a `Trace`."""
        if isinstance(trace, Trace):
            return self.named("trace", str(trace).encode("ascii"))
        if isinstance(trace, (str, os.PathLike, bytes, bytearray)):
            return self.named("trace", trace)
        raise ValueError(f"a trace is a path, bytes or a Trace, and not {trace!r}")


def options(**numbers: int) -> Tuple[str, ...]:
    """Options as words, ``lose_every=3`` as ``--lose-every=3``. Whether a number is in its range the program says.

    Raises
    ------
    ValueError
        One is no number.
    """
    for name, number in numbers.items():
        if isinstance(number, bool) or not isinstance(number, int):
            raise ValueError(f"{name} is a number and not {number!r}")
    return tuple(f"--{name.replace('_', '-')}={number}" for name, number in numbers.items())


def watch_option(address: int) -> str:
    """The option that watches the word at an address, a number below 2**32.

    Raises
    ------
    ValueError
        It is no such number.
    """
    if isinstance(address, bool) or not isinstance(address, int) or not 0 <= address < 2**32:
        raise ValueError(f"an address is a number from 0 to 2**32 - 1, and not {address!r}")
    return f"--watch={address:08x}"
