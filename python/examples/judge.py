#!/usr/bin/env python3
"""Judges a table of memory accesses that some simulator wrote, and names the row that no one memory gives.

The table is CSV with a header; its columns are found by their names, and others may stand between. Without a table it is one of four rows: core 1
sees the flag that core 0 wrote last, and then a value as it was before.

    PYTHONPATH=python python3 python/examples/judge.py
    PYTHONPATH=python python3 python/examples/judge.py mine.csv --columns core=cpu,op=type,value=data --ops r=ReadReq,w=WriteReq --skip FenceReq

A number may begin with 0x. Addresses go from 80000000 up; --offset is added to those of a simulator whose memory begins elsewhere.
"""
from __future__ import annotations

import argparse
import csv
import io
import re
import sys
from pathlib import Path
from typing import Dict, List, NamedTuple, Optional

from safetynet import SafetyNetError, judge

STALE_VALUE = """time,core,op,address,size,value,old
10,0,store,0x80001000,4,42,
14,0,store,0x80001040,4,1,
15,1,load,0x80001040,4,1,
18,1,load,0x80001000,4,0,
"""
COLUMNS = ("core", "op", "address", "size", "value", "old")
# What simulators call it, by the word of a list of accesses.
OPS = {
    "r": "r read load ld",
    "w": "w write store st",
    "lr": "lr loadreserved ll",
    "sc": "sc storeconditional",
    "scfail": "scfail",
    "amo": "amo atomic rmw swap",
}


class TableError(Exception):
    """The table isn't one that can be judged."""


class Row(NamedTuple):
    """A row of the table: its line there, its text, and the access that it is."""

    line: int
    text: str
    access: str


def pairs(text: str) -> Dict[str, str]:
    """Names as the command line has them, ``core=cpu,op=type``."""
    return dict(one.split("=", 1) for one in text.split(",")) if text else {}


def number(text: str, base: int) -> int:
    """A number of a table."""
    return int(text, 16) if text.strip().lower().startswith("0x") else int(text, base)


class Reading:
    """How a table is read."""

    def __init__(self, words: argparse.Namespace) -> None:
        self.names = {column: words.columns.get(column, column) for column in COLUMNS}
        self.ops = {name: op for op, names in OPS.items() for name in names.split()}
        self.ops.update({name: op for op, name in words.ops.items()})
        self.skipped = words.skip.split(",")
        self.offset, self.base = words.offset, words.base

    def access(self, fields: Dict[str, str]) -> str:
        """The access that a row tells, as the line of a list."""
        given = {column: (fields.get(name) or "").strip() for column, name in self.names.items()}
        op = self.ops.get(given["op"], self.ops.get(given["op"].lower()))
        if op is None:
            raise TableError(f"{given['op']!r} is no op: name it by --ops or by --skip")
        try:
            core, size = number(given["core"], 10), number(given["size"], 10)
            address = number(given["address"], self.base) + self.offset
            words = [number(given[column], self.base) % 256**size for column in (["value", "old"] if op == "amo" else ["value"])]
        except ValueError as error:
            raise TableError(str(error)) from None
        return " ".join([f"{core} {op} {address:08x} {size}", *(f"{word:0{2 * size}x}" for word in words)])

    def rows(self, text: str) -> List[Row]:
        """The accesses of a table, row by row."""
        table = csv.DictReader(io.StringIO(text))
        lacking = [name for column, name in self.names.items() if name not in (table.fieldnames or ()) and column != "old"]
        if lacking:
            raise TableError(f"line 1: there is no column {lacking[0]}: name it by --columns")
        found: List[Row] = []
        for fields in table:
            if (fields.get(self.names["op"]) or "").strip() not in self.skipped:
                try:
                    found.append(Row(table.line_num, ",".join(value or "" for name, value in fields.items() if name), self.access(fields)))
                except TableError as error:
                    raise TableError(f"line {table.line_num}: {error}") from None
        return found


def told(rows: List[Row], place: int, why: Optional[str]) -> str:
    """What is wrong with the access at a place, in the rows of the table."""
    lines = [f"refused: line {rows[place - 1].line}: {rows[place - 1].text}", f"  {why}"]
    others = {int(other) for other in re.findall(r"(?:access|since) ([1-9][0-9]*)", why or "")} - {place}
    return "\n".join(lines + [f"  access {other} is line {rows[other - 1].line}: {rows[other - 1].text}" for other in sorted(others)])


def parser() -> argparse.ArgumentParser:
    found = argparse.ArgumentParser(
        description="Judges a table of memory accesses, and names the row that no one memory gives.",
        epilog="exit status: 0 legal, 1 refused",
        formatter_class=argparse.ArgumentDefaultsHelpFormatter,
    )
    found.add_argument("table", nargs="?", help="CSV with a header, in place of four rows")
    found.add_argument("--columns", type=pairs, default={}, help=f"names of columns that aren't {', '.join(COLUMNS)}, as core=cpu,op=type")
    found.add_argument("--ops", type=pairs, default={}, help="names of ops, as r=ReadReq,w=WriteReq")
    found.add_argument("--skip", default="fence", help="ops of rows that are no accesses, as fence,nop")
    found.add_argument("--init", type=pairs, default={}, help="words of memory at the start, as 80001000=5; it is 0 elsewhere")
    found.add_argument("--offset", type=lambda text: number(text, 10), default=0, help="what is added to addresses")
    found.add_argument("--base", type=int, default=10, help="of addresses and values without 0x")
    return found


def main() -> Optional[int]:
    chosen = parser().parse_args()
    rows = Reading(chosen).rows(Path(chosen.table).read_text() if chosen.table else STALE_VALUE)
    at_start = [f"init {int(address, 16):08x} {number(word, 10):08x}" for address, word in chosen.init.items()]
    verdict = judge("".join(f"{line}\n" for line in [*at_start, *(row.access for row in rows)]).encode())
    print(f"legal: {verdict.records} accesses" if verdict else told(rows, verdict.place or 1, verdict.why))
    return None if verdict else 1


if __name__ == "__main__":
    try:
        sys.exit(main())
    except (TableError, SafetyNetError, OSError, ValueError) as error:
        sys.exit(f"judge: {error}")
