"""The accesses of a committed trace: what each of its instructions is, and what it reads and writes in memory (docs/FORMATS.md)."""
from __future__ import annotations

import re
from typing import List, NamedTuple, Optional, Tuple

from .errors import ReportError

HEADER = "core,pc,instruction,address,size,read,written,done"
_HEX = "([0-9a-f]{2}|[0-9a-f]{4}|[0-9a-f]{8}|)"
_ROW = re.compile(rf'(0|[1-9][0-9]?),([0-9a-f]{{8}}),"([^"]*)",(?:,,,,|([0-9a-f]{{8}}),([124]),{_HEX},{_HEX},([01]?))')


class Access(NamedTuple):
    """An instruction of the committed trace, with its access to memory if it is one; ``str`` gives its line of CSV.

    Attributes
    ----------
    core : int
        The core.
    pc : int
        The address of its instruction.
    instruction : str
        The instruction as `disassemble` has it; empty where none could be fetched.
    address : int or None
        The address of the access; None where the instruction is none.
    size : int or None
        How many bytes: 1, 2 or 4.
    read, written : int or None
        The bytes that it read and wrote, as one number; what a load puts into its register may be longer by its sign.
    done : bool or None
        Of a store-conditional, whether it was done.
    """

    core: int
    pc: int
    instruction: str
    address: Optional[int] = None
    size: Optional[int] = None
    read: Optional[int] = None
    written: Optional[int] = None
    done: Optional[bool] = None

    def __str__(self) -> str:
        head = f'{self.core},{self.pc:08x},"{self.instruction}"'
        if self.address is None or self.size is None:
            return head + ",,,,,"
        values = ["" if value is None else f"{value:0{2 * self.size}x}" for value in (self.read, self.written)]
        return f"{head},{self.address:08x},{self.size},{values[0]},{values[1]},{'' if self.done is None else int(self.done)}"


def parse_accesses(text: str) -> Tuple[Access, ...]:
    """The accesses that a text of CSV says.

    Raises
    ------
    ReportError
        A line has another form.
    """
    lines = text.split("\n")
    if lines.pop() != "" or not lines or lines[0] != HEADER:
        raise ReportError("the accesses don't begin with the names of their fields, or don't end with a line's end", 1, text.split("\n")[0])
    found: List[Access] = []
    for number, line in enumerate(lines[1:], 2):
        access = _access(line)
        if access is None:
            raise ReportError("it is no access", number, line)
        found.append(access)
    return tuple(found)


def _access(line: str) -> Optional[Access]:
    row = _ROW.fullmatch(line)
    if row is None:
        return None
    core, pc, instruction, address, size, read, written, done = row.groups()
    if address is None:
        return Access(int(core), int(pc, 16), instruction)
    # a value has two digits for each byte
    if any(len(value) not in (0, 2 * int(size)) for value in (read, written)):
        return None
    values = [int(value, 16) if value else None for value in (read, written)]
    return Access(int(core), int(pc, 16), instruction, int(address, 16), int(size), values[0], values[1], done == "1" if done else None)
