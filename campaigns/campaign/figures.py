"""A campaign's figures, by matplotlib, as SVG and PDF; the same table gives the same bytes."""
from __future__ import annotations

from math import inf
from pathlib import Path
from typing import Any, Dict, List, Sequence

import matplotlib

matplotlib.use("Agg")
from matplotlib import pyplot  # noqa: E402
from matplotlib.ticker import LogLocator, StrMethodFormatter  # noqa: E402

from .configuration import Campaign, Figure  # noqa: E402
from .gather import read_runs  # noqa: E402
from .points import Point, is_number, label_of, name_of, points_of, rank, shown_value  # noqa: E402

# Colours that people of any colour vision tell apart, and marks beside them for paper without colours.
COLOURS = ("#0072b2", "#d55e00", "#009e73", "#cc79a7", "#56b4e9", "#e69f00", "#000000")
MARKS = ("o", "s", "^", "D", "v", "P", "X")


# How far lines stand from each other beside a place, so that those of the same numbers are seen, where places are 1 apart.
BESIDE = 0.06


def _places(figure: Figure, xs: Sequence[str]) -> Dict[str, float]:
    """Where each value stands along the axis."""
    if figure.x_scale == "even":
        return {x: float(place) for place, x in enumerate(xs)}
    return {x: float(x) for x in xs}


def _line(axes: Any, points: List[Point], places: Dict[str, float], number: int, label: str) -> None:
    """One line: the middle of each point, in a band from the least to the greatest; an open mark where a run of it wasn't done.

    Between values that aren't numbers nothing lies, so each has its mark and a bar there. What is endless has a cross at the upper edge.
    """
    colour, mark = COLOURS[number % len(COLOURS)], MARKS[number % len(MARKS)]
    xs, is_joined = [places[point.x] for point in points], all(is_number(x) for x in places)
    least, greatest = [it.least.value for it in points], [it.greatest.value for it in points]
    endless = [x for x, value in zip(xs, greatest) if value == inf]
    if endless:
        axes.plot(endless, [0.97 - 0.045 * number] * len(endless), "x", color=colour, markersize=6, transform=axes.get_xaxis_transform())
    if is_joined:
        axes.fill_between(xs, least, greatest, color=colour, alpha=0.15, linewidth=0)
    else:
        axes.vlines(xs, least, greatest, color=colour, alpha=0.35, linewidth=5)
    style = "-" if is_joined else "none"
    middle = [it.middle.value for it in points]
    axes.plot(xs, middle, color=colour, marker=mark, markersize=5, linestyle=style, linewidth=1.2, label=label, clip_on=False)
    for x, point in zip(xs, points):
        if set(point.ends) != {"done"} and point.middle.value != inf:
            axes.plot([x], [point.middle.value], mark, color=colour, markerfacecolor="white", markersize=5, clip_on=False)


def _values(points: List[Point], axis: str, column: str) -> List[str]:
    """The values of the points along an axis, in the order of the column that stands there."""
    return sorted({getattr(point, axis) for point in points}, key=lambda value: rank(column, value))


def _panel(axes: Any, figure: Figure, points: List[Point], xs: List[str], series: List[str]) -> None:
    """One panel with its lines and axes."""
    places = _places(figure, xs)
    for number, name in enumerate(series):
        of_line = [point for point in points if point.series == name]
        if of_line:
            beside = BESIDE * (number - (len(series) - 1) / 2) if figure.x_scale == "even" else 0
            _line(axes, of_line, {x: place + beside for x, place in places.items()}, number, shown_value(figure.series, name))
    if figure.x_scale == "log":
        axes.set_xscale("log")
    axes.set_xticks([places[x] for x in xs], [shown_value(figure.x, x) for x in xs], rotation=45 if len(xs) > 6 else 0)
    axes.minorticks_off()
    axes.grid(True, linewidth=0.3)
    axes.set_xlabel(label_of(figure, "x"), fontsize=9)
    axes.tick_params(labelsize=8)


def _title(figure: Figure, panel: str) -> str:
    value = shown_value(figure.panel, panel)
    return value if figure.panel in ("", "program") else f"{name_of(figure.panel)}: {value}"


def _upright(axes: Any, figure: Figure, points: List[Point]) -> None:
    """The axis that all panels share, with room at the upper edge where crosses stand there."""
    axes.set_yscale(figure.y_scale)
    if figure.y_scale == "log":
        axes.yaxis.set_major_locator(LogLocator(subs=(1, 2, 5)))
        axes.yaxis.set_major_formatter(StrMethodFormatter("{x:,g}"))
        axes.minorticks_off()
    if any(point.greatest.value == inf for point in points):
        axes.margins(y=0.3)
    if figure.y_scale == "linear":
        axes.set_ylim(bottom=0)


def drawn(figure: Figure, points: List[Point]) -> Any:
    """The figure of points, of which there is one at least."""
    panels, series = _values(points, "panel", figure.panel), _values(points, "series", figure.series)
    columns = 2 if len(panels) == 4 else min(3, len(panels))
    lines = -(-len(panels) // columns)
    size = ((2.4 if figure.series else 1.2) + 3.2 * columns, 0.9 + 2.6 * lines)
    sheet, grid = pyplot.subplots(lines, columns, figsize=size, squeeze=False, sharey=True, layout="constrained")
    for axes in grid.flat[len(panels) :]:
        axes.set_visible(False)
    for axes, name in zip(grid.flat, panels):
        inside = [point for point in points if point.panel == name]
        _panel(axes, figure, inside, _values(inside, "x", figure.x), series)
        axes.set_title(_title(figure, name), fontsize=10)
    _upright(grid[0][0], figure, points)
    for line in grid:
        line[0].set_ylabel(label_of(figure, "y"), fontsize=9)
    if figure.series:
        lines_by_name = {line.get_label(): line for axes in grid.flat for line in axes.get_lines() if not line.get_label().startswith("_")}
        names = [shown_value(figure.series, name) for name in series]
        beside = {"title": name_of(figure.series), "loc": "upper left", "bbox_to_anchor": (1.01, 1), "fontsize": 8, "title_fontsize": 8}
        grid[0][columns - 1].legend([lines_by_name[name] for name in names], names, **beside)
    sheet.suptitle(figure.title, fontsize=11)
    return sheet


def draw(campaign: Campaign, folder: Path) -> List[str]:
    """Draws the figures of a campaign whose tables stand in its folder.

    Returns
    -------
    list of str
        The names of those that no run has the numbers for, which aren't drawn.
    """
    target, lacking = folder / "figures", []
    target.mkdir(exist_ok=True)
    for figure in campaign.figures:
        points = points_of(figure, read_runs(folder))
        if not points:
            lacking.append(figure.name)
            continue
        with matplotlib.rc_context({"svg.hashsalt": figure.name, "svg.fonttype": "path", "pdf.fonttype": 42}):
            sheet = drawn(figure, points)
            sheet.savefig(target / f"{figure.name}.svg", metadata={"Date": None})
            sheet.savefig(target / f"{figure.name}.pdf", metadata={"CreationDate": None})
            pyplot.close(sheet)
    return lacking
