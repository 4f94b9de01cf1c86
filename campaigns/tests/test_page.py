"""Figures by matplotlib, and the page that has them."""
from __future__ import annotations

import base64
import re
import shlex
import xml.etree.ElementTree as ElementTree
from dataclasses import replace
from html import unescape
from pathlib import Path
from typing import Any, Dict, List

import pytest

pytest.importorskip("matplotlib")

from campaign.figures import draw, drawn  # noqa: E402
from campaign.gather import gather, read_runs  # noqa: E402
from campaign.page import command, write_page  # noqa: E402
from campaign.plan import Plan  # noqa: E402
from campaign.points import points_of  # noqa: E402
from campaign.settings import settings_of  # noqa: E402
from conftest import CONTENT, PlanMaker, numbered_rows, write_rows  # noqa: E402

FIGURES: List[Dict[str, Any]] = [
    {"name": "log", "title": "Log <entries>", "x": "interval", "y": "log.greatest", "series": "nodes", "panel": "program", "x_scale": "log"},
    {"name": "losses", "x": "lose_every", "y": "events", "per": "committed"},
    {"name": "untold", "x": "interval", "y": "nobody_says_so"},
]


def made_page(plan: PlanMaker, **keys: object) -> Plan:
    """A campaign's folder up to its page."""
    found = plan(figures=FIGURES, **keys)
    rows = numbered_rows(found)
    rows[1] = replace(rows[1], status=6, words="budget", journal="journals/2.script")
    rows[3] = replace(rows[3], status=-9, words="died", why="<killed>", tries=3, numbers={})
    write_rows(found, rows)
    gather(found)
    assert draw(found.campaign, found.folder) == ["untold"]
    write_page(found)
    return found


def test_figures_are_pictures_and_the_same_each_time(plan: PlanMaker) -> None:
    folder = made_page(plan).folder / "figures"
    first = {file.name: file.read_bytes() for file in sorted(folder.iterdir())}
    assert sorted(first) == ["log.pdf", "log.svg", "losses.pdf", "losses.svg"]
    assert ElementTree.fromstring(first["log.svg"]).tag.endswith("svg") and first["log.pdf"].startswith(b"%PDF")
    made_page(plan)
    assert {file.name: file.read_bytes() for file in sorted(folder.iterdir())} == first


def test_a_line_joins_numbers_and_nothing_else(plan: PlanMaker) -> None:
    found = made_page(plan)
    for x, style, bars in (("interval", "-", 0), ("order", "None", 1), ("kill", "None", 1)):
        figure = replace(found.campaign.figures[1], x=x)
        sheet = drawn(figure, points_of(figure, read_runs(found.folder)))
        (axes,) = sheet.axes
        line, bands = axes.get_lines()[0], [one for one in axes.collections if hasattr(one, "get_segments")]
        assert (line.get_linestyle(), len(bands)) == (style, bars)


def test_the_page_needs_no_other_file(plan: PlanMaker) -> None:
    found = made_page(plan)
    page = (found.folder / "report.html").read_text()
    pictures = re.findall(r'src="([^"]*)"', page)
    assert len(pictures) == 2 and not re.search(r'(?:src|href)="(?!data:|#)', page) and "<script" not in page and "@import" not in page
    svg = base64.b64decode(pictures[0].split(",")[1])
    assert svg == (found.folder / "figures/log.svg").read_bytes()
    assert "Log &lt;entries&gt;" in page and "no run that it is about has nobody_says_so" in page and "&lt;killed&gt;" in page


def test_the_page_has_the_words_of_each_run(plan: PlanMaker) -> None:
    found = made_page(plan)
    page = (found.folder / "report.html").read_text()
    said = [shlex.split(unescape(text)) for text in re.findall(r"<code>([^<]*)</code>", page)]
    for row in read_runs(found.folder):
        words = shlex.split(command(row, found))
        assert words in said and words[1:] == settings_of(row).words("examples/shared/count.hex")
    replayed = [words for words in said if words[1:2] == ["replay"]]
    assert len(replayed) == 1 and replayed[0][-1].endswith("journals/2.script")
    assert 'id="run-4" class="died"' in page and 'id="run-3">' in page


def test_the_words_of_a_counted_run_ask_for_its_statistics(plan: PlanMaker) -> None:
    found = made_page(plan)
    (row, *_) = read_runs(found.folder)
    counted = replace(found, statistics=True)
    assert shlex.split(command(row, counted))[1:] == settings_of(row).words("examples/shared/count.hex", "--statistics")
    assert command({**row, "order": "threads"}, counted) == command({**row, "order": "threads"}, found)


def test_runs_by_threads_are_said_to_differ(plan: PlanMaker) -> None:
    said = "by its journal alone"
    assert said not in (made_page(plan).folder / "report.html").read_text()
    assert said in (made_page(plan, product={**CONTENT["product"], "order": "threads"}).folder / "report.html").read_text()


def test_an_image_that_was_made_is_named_where_it_stands(plan: PlanMaker) -> None:
    found = made_page(plan, product={**CONTENT["product"], "program": "examples/c/ring.hex"})
    (row, *_) = read_runs(found.folder)
    assert row["image"] == "images/ring-1.hex" and Path(shlex.split(command(row, found))[-1]) == found.folder / "images/ring-1.hex"
