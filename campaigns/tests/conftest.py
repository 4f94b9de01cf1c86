"""What the tests share: the proved program, programs that die, and plans of a few runs."""
from __future__ import annotations

import os
from pathlib import Path
from typing import Any, Callable, Dict, List

import pytest

from campaign.configuration import campaign_of
from campaign.plan import TOP, Plan, images_for, sum_of, with_batches
from campaign.rows import Row

PROGRAM = Path(os.environ.get("SAFETYNET") or TOP / "build" / "safetynet")
COUNT = "examples/shared/count.hex"
CONTENT: Dict[str, Any] = {
    "product": {"program": COUNT, "seed": "1-3", "nodes": [1, 2], "interval": [10, 20], "wait": 500, "budget": 3000, "lose_every": 60},
    "batch": 5,
    "tries": 3,
    "timeout": 120,
}
PlanMaker = Callable[..., Plan]


@pytest.fixture
def program() -> Path:
    """The proved program; a test of it is skipped where it isn't built."""
    if not os.access(PROGRAM, os.X_OK):
        pytest.skip("the program isn't built")
    return PROGRAM.resolve()


@pytest.fixture
def made(tmp_path: Path) -> Callable[[str], Path]:
    """Makes a command of shell lines, which isn't the program, to end as a program may end."""

    def make(lines: str) -> Path:
        file = tmp_path / f"made{len(os.listdir(tmp_path))}"
        file.write_text(f"#!/bin/sh\n{lines}\n")
        file.chmod(0o755)
        return file

    return make


@pytest.fixture
def plan(tmp_path: Path) -> PlanMaker:
    """Makes a plan of `CONTENT` with other keys, in a folder of the test, for a command."""

    def make(command: Path = Path("/bin/true"), **keys: object) -> Plan:
        content = {**CONTENT, **keys}
        campaign = campaign_of(content, "tested")
        folder = tmp_path / "tested"
        found = Plan(folder, campaign, content, str(command), "safetynet 0", sum_of(command), False, images_for(campaign, folder / "images"))
        return with_batches(found)

    return make


def write_rows(plan: Plan, rows: List[Row]) -> None:
    """Puts rows where the batches of a plan have theirs."""
    (plan.folder / "batches").mkdir(exist_ok=True)
    for batch in plan.batches:
        plan.file(batch).write_text("".join(row.line() for row in rows[batch.first - 1 : batch.last]))


def numbered_rows(plan: Plan) -> List[Row]:
    """A row a run, whose numbers tell which run it is."""
    rows = []
    for run, settings in enumerate(plan.campaign, 1):
        numbers = {"events": 100 * run, "point": 2, "committed": 10 * settings.interval, "released": 0, "log.0": run, "log.greatest": run}
        rows.append(Row(run, settings, plan.made(settings).image, 0, "done", numbers=numbers))
    return rows
