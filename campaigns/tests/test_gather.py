"""The tables of a campaign, and the points that figures take from them."""
from __future__ import annotations

from dataclasses import replace
from math import inf
from typing import Any, Dict

import pytest

from campaign.configuration import Figure
from campaign.errors import CampaignError
from campaign.gather import HEAD, RECOVERIES, RUNS, gather, read_runs
from campaign.points import points_of, rank, shown_value
from conftest import PlanMaker, numbered_rows, write_rows


def test_a_row_a_run_and_a_column_a_number(plan: PlanMaker) -> None:
    found = plan()
    write_rows(found, numbered_rows(found))
    assert gather(found) == {"done": 12}
    rows = list(read_runs(found.folder))
    assert list(rows[0]) == [*HEAD, "events", "point", "committed", "released", "log.0", "log.greatest"]
    assert [row["run"] for row in rows] == [str(run) for run in range(1, 13)] and rows[6]["events"] == "700"
    assert (rows[6]["seed"], rows[6]["program"], rows[6]["image"]) == ("2", "examples/shared/count.hex", "")
    assert not (found.folder / RECOVERIES).exists()


def test_numbers_that_a_run_lacks_are_empty_and_recoveries_have_a_table(plan: PlanMaker) -> None:
    found = plan()
    rows = numbered_rows(found)
    told = [{"recovery": 1, "at": 20, "undone": 4}, {"recovery": 2, "at": 50, "entries": 9}]
    rows[2] = replace(rows[2], status=127, words="died", why='it, "so"', numbers={})
    rows[4] = replace(rows[4], numbers={"events": 5, "log.9": 1}, recoveries=told)
    write_rows(found, rows)
    assert gather(found) == {"died": 1, "done": 11}
    cells = list(read_runs(found.folder))
    assert (cells[2]["end"], cells[2]["why"], cells[2]["events"]) == ("died", 'it, "so"', "") and cells[4]["log.9"] == "1"
    head = list(cells[0])
    assert head.index("log.9") == head.index("log.greatest") + 1
    assert (found.folder / RECOVERIES).read_text() == "run,recovery,at,undone,entries\n5,1,20,4,\n5,2,50,,9\n"


def test_the_same_campaign_has_the_same_tables(plan: PlanMaker) -> None:
    texts = []
    for _ in range(2):
        found = plan()
        write_rows(found, numbered_rows(found))
        gather(found)
        texts.append((found.folder / RUNS).read_bytes())
    assert texts[0] == texts[1]


def test_a_batch_that_is_lacking_or_short_is_named(plan: PlanMaker) -> None:
    found = plan()
    rows = numbered_rows(found)
    write_rows(found, rows)
    found.file(found.batches[1]).write_text(rows[5].line())
    with pytest.raises(CampaignError, match=found.batches[1].name):
        gather(found)
    found.file(found.batches[1]).unlink()
    with pytest.raises(CampaignError, match="6 to 10"):
        gather(found)


def figure(**keys: Any) -> Figure:
    values: Dict[str, Any] = {"x": "interval", "y": "events", **keys}
    return Figure("f", "F", **values)


def row(run: int, **cells: object) -> Dict[str, str]:
    return {"run": str(run), "end": "done", **{name: str(value) for name, value in cells.items()}}


def test_a_point_has_the_least_the_middle_and_the_greatest_of_its_runs() -> None:
    pairs = [(20, 7), (5, 1), (20, 3), (20, 9), (20, 4)]
    rows = [row(run, interval=interval, events=events) for run, (interval, events) in enumerate(pairs, 1)]
    first, second = points_of(figure(), rows)
    assert (first.x, second.x) == ("5", "20")
    assert (second.least, second.middle, second.greatest) == ((3, 3), (4, 5), (9, 4)) and second.ends == {"done": 4}


def test_runs_are_chosen_by_end_and_by_value_and_divided() -> None:
    rows = [row(1, interval=5, events=8, committed=2), row(2, interval=5, events=8, committed=0), row(3, interval=9, events=8, committed=4)]
    rows += [row(4, interval=5, events=""), {**row(5, interval=5, events=8, committed=1), "end": "budget"}]
    rows.append(row(6, interval=5, events=0, committed=0))
    (point,) = points_of(figure(per="committed", where=(("interval", ("5",)),), ends=("done",)), rows)
    assert [(one.value, one.run) for one in point.seen] == [(4, 1), (inf, 2)]


def test_values_are_in_the_order_of_what_they_say() -> None:
    def ordered(column: str, *values: str) -> str:
        return " ".join(sorted(values, key=lambda value: rank(column, value)))

    assert ordered("interval", "100", "25", "9") == "9 25 100"
    assert ordered("lose_every", "1000", "0", "4000") == "0 4000 1000"
    assert ordered("kill", "b0@0", "a10@0", "none", "a1@0", "a5@0") == "none a1@0 a5@0 a10@0 b0@0"
    assert [shown_value("lose_every", one) for one in ("0", "2000")] == ["none", "1 in 2,000"]
    assert [shown_value("kill", one) for one in ("none", "a1@0", "b10@500")] == ["none", "a1", "b10 after 500"]
