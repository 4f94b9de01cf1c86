"""A campaign's page: one HTML file with its figures, their points, its runs, and the words by which each of them is made again."""
from __future__ import annotations

import base64
import os
import shlex
from collections import Counter
from html import escape
from math import inf
from pathlib import Path
from typing import Dict, Iterator, List, Mapping, Sequence

from .configuration import RESULTS, Figure
from .gather import RECOVERIES, RUNS, read_runs
from .plan import LAUNCHER, Plan, image_path, shown
from .points import Point, label_of, points_of, shown_value
from .settings import NAMES, settings_of

PAGE = "report.html"
# More rows than these make a page that browsers open slowly; the table has all.
MOST_ROWS = 2_000
MOST_REPORTED = 100
STYLE = """
body { font: 15px/1.45 "DejaVu Sans", Verdana, sans-serif; margin: 2em auto; max-width: 75em; padding: 0 1em; color: #111; background: #fff }
table { border-collapse: collapse; font-size: 13px; margin: .5em 0 }
th, td { border-bottom: 1px solid #ccc; padding: .15em .6em; text-align: right; vertical-align: top }
th { border-bottom: 2px solid #888 }
td.text, th.text { text-align: left }
img { max-width: 100%; height: auto }
code { font: 12px "DejaVu Sans Mono", monospace; white-space: pre-wrap; word-break: break-all }
.wide { overflow-x: auto }
.died { background: #fbe3d6 }
"""


def command(row: Mapping[str, str], plan: Plan) -> str:
    """The words that make a run again, from the top of the checkout, with its statistics where it was counted."""
    image, settings = shown(image_path(plan.folder, row["program"], row["image"])), settings_of(row)
    return shlex.join([LAUNCHER, *settings.words(image, *(["--statistics"] if plan.counts(settings) else []))])


def replay_command(row: Mapping[str, str], plan: Plan) -> str:
    """The words that replay the journal of a run that has one."""
    image = shown(image_path(plan.folder, row["program"], row["image"]))
    return shlex.join([LAUNCHER, *settings_of(row).replay_words(image, shown(plan.folder / row["journal"]))])


def _table(head: Sequence[str], lines: Iterator[str]) -> Iterator[str]:
    yield '<div class="wide"><table><thead><tr>' + "".join(f'<th class="text">{escape(it)}</th>' for it in head) + "</tr></thead><tbody>"
    yield from lines
    yield "</tbody></table></div>"


def _cell(text: str) -> str:
    is_number = text.replace(".", "", 1).replace(",", "").isdigit()
    return f"<td>{escape(text)}</td>" if is_number else f'<td class="text">{escape(text)}</td>'


def _made_again(row: Mapping[str, str], plan: Plan) -> str:
    """The words of a run, and of its journal's replay, behind one that opens them."""
    words = f"<code>{escape(command(row, plan))}</code>"
    if row["journal"]:
        words += f"<br><code>{escape(replay_command(row, plan))}</code>"
    return f'<td class="text"><details><summary>words</summary>{words}</details></td>'


def _rounded(value: float) -> str:
    if value == inf:
        return "endless"
    return f"{int(value):,}" if value == int(value) else f"{value:,.4g}"


def _point_line(figure: Figure, point: Point, rows: Mapping[int, Mapping[str, str]], plan: Plan) -> str:
    """A point's line, with the words of its middle run."""
    head = [shown_value(name, value) for name, value in ((figure.panel, point.panel), (figure.series, point.series), (figure.x, point.x)) if name]
    ends = ", ".join(f"{count} {end}" for end, count in sorted(point.ends.items()))
    numbers = [_rounded(one.value) for one in (point.least, point.middle, point.greatest)]
    cells = [*head, ends, *numbers, f"{point.least.run}, {point.middle.run}, {point.greatest.run}"]
    return "<tr>" + "".join(map(_cell, cells)) + _made_again(rows[point.middle.run], plan) + "</tr>"


def _figure_part(plan: Plan, figure: Figure) -> Iterator[str]:
    """A figure with its points."""
    yield f'<h2 id="{escape(figure.name)}">{escape(figure.title)}</h2>'
    points = points_of(figure, read_runs(plan.folder))
    if not points:
        wanted = f"{figure.y} and {figure.per}" if figure.per else figure.y
        yield f"<p>Not drawn: no run that it is about has {escape(wanted)}.</p>"
        return
    picture = base64.b64encode((plan.folder / "figures" / f"{figure.name}.svg").read_bytes()).decode("ascii")
    yield f'<p><img alt="{escape(figure.title)}: {escape(label_of(figure, "y"))} against {escape(label_of(figure, "x"))}"'
    yield f' src="data:image/svg+xml;base64,{picture}"></p>'
    yield "<p>Mark: the run in the middle of those of a point. Band or bar: from the least to the greatest."
    yield "An open mark: not all of them ended with done."
    yield f"A cross at the upper edge: of one at least, {escape(figure.per)} is 0.</p>" if figure.per else "</p>"
    needed = {point.middle.run for point in points}
    rows = {int(row["run"]): row for row in read_runs(plan.folder) if int(row["run"]) in needed}
    head = [name for name in (figure.panel, figure.series, figure.x) if name]
    titles = [*head, "runs that ended", "least", "middle", "greatest", "these runs", "the middle run again"]
    yield f"<details><summary>The {len(points)} points, and how each is made again</summary>"
    yield from _table(titles, (_point_line(figure, point, rows, plan) for point in points))
    yield "</details>"


def _varied(plan: Plan) -> List[str]:
    """The settings that aren't the same in all runs."""
    seen: Dict[str, set[str]] = {name: set() for name in NAMES}
    for row in read_runs(plan.folder):
        for name in NAMES:
            if len(seen[name]) < 2:
                seen[name].add(row[name])
    return [name for name in NAMES if len(seen[name]) > 1]


def _run_lines(plan: Plan, columns: Sequence[str], most: int) -> Iterator[str]:
    for place, row in enumerate(read_runs(plan.folder)):
        if place == most:
            return
        mark = "" if row["end"] in RESULTS else ' class="died"'
        cells = "".join(_cell(row.get(name) or "") for name in columns)
        yield f'<tr id="run-{row["run"]}"{mark}>{cells}{_made_again(row, plan)}</tr>'


def _runs_part(plan: Plan) -> Iterator[str]:
    """The runs with what varies and what the figures show."""
    shown_numbers = dict.fromkeys(name for figure in plan.campaign.figures for name in (figure.y, figure.per) if name)
    numbers = dict.fromkeys(["events", "point", "committed", "released", *shown_numbers])
    columns = ["run", *_varied(plan), "words", *numbers]
    total = len(plan.campaign)
    yield f"<h2>Runs</h2><p>{total:,} runs; {RUNS} has all of their numbers"
    yield f", and {RECOVERIES} each recovery" if (plan.folder / RECOVERIES).exists() else ""
    yield f". Shown are the first {MOST_ROWS:,}.</p>" if total > MOST_ROWS else ".</p>"
    yield from _table([*columns, "again"], _run_lines(plan, columns, MOST_ROWS))


def _ends_part(plan: Plan) -> Iterator[str]:
    """How many runs ended how, and those that are no result."""
    ends = Counter(row["end"] for row in read_runs(plan.folder))
    yield "<h2>How the runs ended</h2>"
    yield from _table(["end", "runs"], (f"<tr>{_cell(end)}{_cell(f'{count:,}')}</tr>" for end, count in sorted(ends.items())))
    failed = [row for row in read_runs(plan.folder) if row["end"] not in RESULTS]
    if failed:
        yield f"<p>{len(failed):,} runs gave no result, though each that died was tried {plan.campaign.tries} times."
        yield f"The next call of the campaign tries those again that died. Shown are {min(len(failed), MOST_REPORTED)}.</p>"
        cells = ((row["run"], row["words"], row["status"], row["why"], command(row, plan)) for row in failed[:MOST_REPORTED])
        yield from _table(["run", "end", "status", "why", "words"], ("<tr>" + "".join(map(_cell, one)) + "</tr>" for one in cells))


def _page(plan: Plan) -> Iterator[str]:
    title = escape(plan.campaign.title)
    yield f'<!DOCTYPE html><html lang="en"><head><meta charset="utf-8"><title>{title}</title><style>{STYLE}</style></head><body>'
    yield f"<h1>{title}</h1>"
    yield f"<p>{escape(plan.campaign.text)}</p>" if plan.campaign.text else ""
    yield f"<p>All numbers were said by the program {escape(plan.version)}, SHA-256 <code>{plan.sum}</code>."
    yield "There are no times: everything is counted in events, instructions and messages.</p>"
    if any("threads" in dict(product.axes).get("order", ()) for product in plan.campaign.products):
        yield "<p>Where the order is threads, words give another run each time, and a run can be had again by its journal alone.</p>"
    for figure in plan.campaign.figures:
        yield from _figure_part(plan, figure)
    yield from _ends_part(plan)
    yield from _runs_part(plan)
    yield "</body></html>"


def write_page(plan: Plan) -> Path:
    """Writes the page of a campaign whose tables and figures stand in its folder, under its name once it is whole, and gives its file."""
    file: Path = plan.folder / PAGE
    beside = file.with_suffix(".new")
    beside.write_text("".join(f"{part}\n" for part in _page(plan) if part), encoding="utf-8")
    os.replace(beside, file)
    return file
