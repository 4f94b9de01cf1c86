"""The points of a figure: runs that share panel, line and place, with the least, the middle and the greatest of their numbers; and how they are called."""
from __future__ import annotations

import re
from dataclasses import dataclass, field
from math import inf
from pathlib import Path
from typing import Dict, Iterable, List, Mapping, NamedTuple, Optional, Tuple

from .configuration import Figure

Cells = Mapping[str, str]

# What a column is called beside an axis where the campaign's file says nothing.
LABELS = {
    "program": "program",
    "interval": "interval (instructions of a node)",
    "lose_every": "messages lost",
    "nodes": "nodes",
    "wait": "events without a validation before a recovery",
    "log": "entries of a node's log",
    "kill": "switch that dies",
}


class Seen(NamedTuple):
    """What one run has: its value, and its number in the campaign."""

    value: float
    run: int


@dataclass
class Point:
    """The runs of one place of a figure.

    Attributes
    ----------
    panel, series, x : str
        Where it stands; the first two are empty where the figure has one panel, or one line.
    seen : list of Seen
        What each of its runs has, in order of their numbers.
    ends : dict
        How many of them ended how.
    """

    panel: str
    series: str
    x: str
    seen: List[Seen] = field(default_factory=list)
    ends: Dict[str, int] = field(default_factory=dict)

    @property
    def least(self) -> Seen:
        """The run with the least number."""
        return min(self.seen)

    @property
    def greatest(self) -> Seen:
        """The run with the greatest number."""
        return max(self.seen)

    @property
    def middle(self) -> Seen:
        """The run in the middle; of an even number of runs the one below it, so that it is always one run's number."""
        return sorted(self.seen)[(len(self.seen) - 1) // 2]


def is_number(value: str) -> bool:
    """Whether a cell has a number."""
    try:
        float(value)
    except ValueError:
        return False
    return True


def rank(column: str, value: str) -> Tuple[bool, float, str]:
    """By what the values of a column are in order: numbers by themselves, then texts, a5 before a10; losses from none to the most."""
    if not is_number(value):
        return value != "none", 0.0, re.sub("[0-9]+", lambda digits: digits[0].zfill(20), value)
    number = float(value)
    if column == "lose_every" and number:
        return False, 1 / number, ""
    return False, number, ""


def _number(row: Cells, column: str) -> Optional[float]:
    cell = row.get(column, "")
    return float(cell) if cell not in ("", None) else None


def value_of(figure: Figure, row: Cells) -> Optional[float]:
    """What a run has for a figure: its number, by another one where the figure says so; nothing where one is lacking, or both are 0.

    Where the other one alone is 0 it is endless: a run that did much and kept nothing isn't passed over.
    """
    value = _number(row, figure.y)
    if not figure.per or value is None:
        return value
    divisor = _number(row, figure.per)
    if divisor == 0:
        return inf if value else None
    return value / divisor if divisor else None


def is_drawn(figure: Figure, row: Cells) -> bool:
    """Whether a run is one of a figure's."""
    return row["end"] in figure.ends and all(row.get(column) in values for column, values in figure.where)


def _rank_of(figure: Figure, point: Point) -> Tuple[Tuple[bool, float, str], ...]:
    places = ((figure.panel, point.panel), (figure.series, point.series), (figure.x, point.x))
    return tuple(rank(column, value) for column, value in places)


def points_of(figure: Figure, rows: Iterable[Cells]) -> List[Point]:
    """The points of a figure, in order of panel, line and place; runs without its number have none.

    Parameters
    ----------
    figure : Figure
        The figure.
    rows : iterable of mappings
        The rows of `runs.csv`.
    """
    found: Dict[Tuple[str, str, str], Point] = {}
    for row in rows:
        value = value_of(figure, row) if is_drawn(figure, row) else None
        if value is None:
            continue
        place = (row.get(figure.panel, ""), row.get(figure.series, ""), row[figure.x])
        point = found.setdefault(place, Point(*place))
        point.seen.append(Seen(value, int(row["run"])))
        point.ends[row["end"]] = point.ends.get(row["end"], 0) + 1
    return sorted(found.values(), key=lambda point: _rank_of(figure, point))


def shown_value(column: str, value: str) -> str:
    """A value as an axis or a legend shows it."""
    if column == "lose_every":
        return "none" if value == "0" else f"1 in {int(value):,}"
    if column == "program":
        return Path(value).stem
    if column == "kill":
        return value[:-2] if value.endswith("@0") else value.replace("@", " after ")
    return f"{int(value):,}" if re.fullmatch("[0-9]+", value) else value


def name_of(column: str) -> str:
    """What a column is called in a figure."""
    return LABELS.get(column, column.replace("_", " "))


def label_of(figure: Figure, axis: str) -> str:
    """What stands beside an axis."""
    if axis == "x":
        return figure.x_label or name_of(figure.x)
    return figure.y_label or (f"{figure.y} / {figure.per}" if figure.per else figure.y)
