"""The tables of a campaign: `runs.csv`, a row a run and a column a number, and `recoveries.csv`, a row a recovery where the program tells them.

The same campaign gives the same bytes: no time and no machine's name stands in them.
"""
from __future__ import annotations

import csv
import os
from pathlib import Path
from typing import Dict, Iterator, List

from .errors import CampaignError
from .plan import Plan
from .rows import Row, row_of_line
from .settings import NAMES

RUNS = "runs.csv"
RECOVERIES = "recoveries.csv"
# The columns before the numbers.
HEAD = ["run", *NAMES, "image", "end", "status", "words", "why", "tries", "journal"]


def rows_of(plan: Plan) -> Iterator[Row]:
    """The rows of all batches, in order of their runs.

    Raises
    ------
    CampaignError
        A batch is lacking, or hasn't the runs that it is to have.
    """
    for batch in plan.batches:
        try:
            lines = plan.file(batch).read_text(encoding="utf-8").splitlines()
            rows = [row_of_line(line) for line in lines]
        except (OSError, ValueError) as error:
            raise CampaignError(f"the batch {batch.name} of runs {batch.first} to {batch.last} can't be read: {error}") from None
        if [row.run for row in rows] != list(range(batch.first, batch.last + 1)):
            raise CampaignError(f"the batch {batch.name} hasn't the runs {batch.first} to {batch.last}")
        yield from rows


def number_columns(plan: Plan) -> List[str]:
    """The names of the numbers that any run has, in the order in which they come up, those of one statistic side by side."""
    found: Dict[str, None] = {}
    for row in rows_of(plan):
        found.update(dict.fromkeys(row.numbers))
    first = {name.split(".")[0]: place for place, name in reversed(list(enumerate(found)))}
    place = {name: (first[name.split(".")[0]], number) for number, name in enumerate(found)}
    return sorted(found, key=lambda name: place[name])


def _cells(row: Row, columns: List[str]) -> List[object]:
    head: Dict[str, object] = {**row.__dict__, **row.settings.values(), "end": row.end}
    return [*(head[name] for name in HEAD), *(row.numbers.get(name, "") for name in columns)]


def _recoveries(plan: Plan, labels: List[str]) -> Iterator[List[object]]:
    for row in rows_of(plan):
        for one in row.recoveries:
            yield [row.run, *(one.get(label, "") for label in labels)]


def _written(file: Path, head: List[str], cells: Iterator[List[object]]) -> int:
    """Writes a table under its name once it is whole, and gives how many rows it has."""
    beside, count = file.with_suffix(".new"), 0
    with open(beside, "w", encoding="utf-8", newline="") as out:
        table = csv.writer(out, lineterminator="\n")
        table.writerow(head)
        for count, row in enumerate(cells, 1):
            table.writerow(row)
    os.replace(beside, file)
    return count


def gather(plan: Plan) -> Dict[str, int]:
    """Writes the tables of a campaign whose batches are whole.

    Returns
    -------
    dict
        How many runs ended how, by the first word of their end.
    """
    columns = number_columns(plan)
    ends: Dict[str, int] = {}
    labels: Dict[str, None] = {}
    for row in rows_of(plan):
        ends[row.end] = ends.get(row.end, 0) + 1
        for recovery in row.recoveries:
            labels.update(dict.fromkeys(recovery))
    # The table of the runs comes last: where it is there, both are.
    if labels:
        _written(plan.folder / RECOVERIES, ["run", *labels], _recoveries(plan, list(labels)))
    _written(plan.folder / RUNS, [*HEAD, *columns], (_cells(row, columns) for row in rows_of(plan)))
    return dict(sorted(ends.items()))


def read_runs(folder: Path) -> Iterator[Dict[str, str]]:
    """The rows of `runs.csv`, by their columns."""
    with open(folder / RUNS, encoding="utf-8", newline="") as file:
        yield from csv.DictReader(file)
