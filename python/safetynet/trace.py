"""Traces: the instructions of an execution in their order on one flat memory (docs/FORMATS.md, "A trace")."""
from __future__ import annotations

import importlib
import re
from typing import Any, Iterable, Iterator, NamedTuple, Optional, Sequence, Union, overload

from .events import lines_of

_RECORD = re.compile(r"(0|[1-9][0-9]{0,19}) ([0-9a-f]{8}) ([01])(?: ([0-9a-f]{2}))?")


class Record(NamedTuple):
    """What one instruction did, as far as a trace says it.

    Attributes
    ----------
    core : int
        The number of the core.
    seen : int
        The aligned word that the instruction read; 0 where it read none.
    done : bool
        Whether it was a store-conditional that was done.
    byte : int or None
        The byte of input that it read.
    """

    core: int
    seen: int
    done: bool = False
    byte: Optional[int] = None

    def __str__(self) -> str:
        return f"{self.core} {self.seen:08x} {int(self.done)}" + ("" if self.byte is None else f" {self.byte:02x}")


def parse_record(line: str) -> Record:
    """The record that a line of a trace says.

    Raises
    ------
    ValueError
        The line, which has no end here, is no record.
    """
    found = _RECORD.fullmatch(line)
    if found is None:
        raise ValueError(f"this line is no record: {line!r}")
    core, seen, done, byte = found.groups()
    return Record(int(core), int(seen, 16), done == "1", None if byte is None else int(byte, 16))


class Trace(Sequence[Record]):
    """The records of an execution; ``str`` gives them a line each, as `check` takes them.

    Parameters
    ----------
    records : iterable of Record
        The records in their order.

    Raises
    ------
    ValueError
        A record has a number that no line says.
    """

    def __init__(self, records: Iterable[Record] = ()) -> None:
        self._records = tuple(Record(*record) for record in records)
        for place, record in enumerate(self._records, 1):
            try:
                is_said = parse_record(str(record)) == record
            except ValueError:
                is_said = False
            if not is_said:
                raise ValueError(f"record {place} can't be said in a trace: {record!r}")

    @classmethod
    def parse(cls, text: Union[str, bytes]) -> "Trace":
        """The trace that a text says, one record a line; empty lines and lines that begin with ``#`` are skipped.

        Raises
        ------
        ValueError
            A line is no record; the message names the line, from 1.
        """
        if isinstance(text, bytes):
            text = text.decode("ascii", "replace")
        trace, records = cls(), []
        for number, line in enumerate(lines_of(text), 1):
            if line and not line.startswith("#"):
                try:
                    records.append(parse_record(line))
                except ValueError as error:
                    raise ValueError(f"line {number}: {error}") from None
        trace._records = tuple(records)
        return trace

    def __iter__(self) -> Iterator[Record]:
        return iter(self._records)

    def __len__(self) -> int:
        return len(self._records)

    @overload
    def __getitem__(self, place: int) -> Record: ...

    @overload
    def __getitem__(self, place: slice) -> "Trace": ...

    def __getitem__(self, place: Union[int, slice]) -> "Union[Record, Trace]":
        if isinstance(place, int):
            return self._records[place]
        return Trace(self._records[place])

    def __eq__(self, other: object) -> bool:
        return isinstance(other, Trace) and self._records == other._records

    def __hash__(self) -> int:
        return hash(self._records)

    def __str__(self) -> str:
        return "".join(f"{record}\n" for record in self._records)

    def __repr__(self) -> str:
        return f"<Trace of {len(self)} records>"

    def to_pandas(self) -> Any:
        """A `pandas.DataFrame` with the columns core, seen, done and byte, a row a record; byte is missing where none was read.

        Raises
        ------
        ImportError
            pandas isn't there; the message says how to install it.
        """
        try:
            pandas = importlib.import_module("pandas")
        except ImportError as error:
            raise ImportError("to_pandas needs pandas: python3 -m pip install pandas") from error
        table = pandas.DataFrame.from_records(list(self._records), columns=list(Record._fields))
        return table.astype({"core": "int64", "seen": "int64", "done": "bool", "byte": "Int64"})
