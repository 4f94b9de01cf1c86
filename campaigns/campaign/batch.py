"""One batch: its runs, one after another, a row each.

Rows are written as they come, into a file that gets its name once it is whole. So a batch that was ended goes on behind its last row.
"""
from __future__ import annotations

import fcntl
import os
from contextlib import contextmanager
from dataclasses import replace
from pathlib import Path
from typing import Dict, Iterator

from safetynet import SafetyNetError
from safetynet.errors import ProgramMissing, ReportError
from safetynet.program import Called, call

from .plan import Batch, Plan
from .rows import DIED, REFUSAL_STATUSES, Row, row_of_call, row_of_line
from .settings import Settings


def rows_so_far(part: Path, batch: Batch) -> Dict[int, Row]:
    """The rows of a batch that isn't whole, by their runs; a line that was broken off is passed over."""
    rows: Dict[int, Row] = {}
    if not part.exists():
        return rows
    for line in part.read_text(encoding="utf-8").splitlines(keepends=True):
        try:
            row = row_of_line(line)
        except ValueError:
            continue
        if batch.first <= row.run <= batch.last and line.endswith("\n"):
            rows[row.run] = row
    return rows


def _called(plan: Plan, settings: Settings, *options: str) -> Called:
    words = settings.words(str(plan.image(settings)), *options)
    return call(words, command=plan.program, timeout=plan.campaign.timeout)


def _journal(plan: Plan, settings: Settings, called: Called) -> str:
    """The journal of a run: its report, or that of the same run once more where it was counted.

    Raises
    ------
    safetynet.ReportError
        The second call ended otherwise than the first.
    """
    if not plan.counts(settings):
        return called.report
    again = _called(plan, settings, "--journal")
    if (again.status, again.words, again.console) != (called.status, called.words, called.console):
        raise ReportError(f"its second call, for the journal, ended with {again.words} and not with {called.words}", status=again.status)
    return again.report


def _kept_journal(plan: Plan, row: Row, called: Called) -> Row:
    """The row, with the file of its journal where the campaign wants that."""
    wanted = plan.campaign.journals
    if not row.is_result or wanted == "none" or (wanted == "unfinished" and row.status == 0):
        return row
    journal = _journal(plan, row.settings, called)
    file = plan.folder / "journals" / f"{row.run}.script"
    file.parent.mkdir(exist_ok=True)
    file.write_text(journal, encoding="ascii")
    return replace(row, journal=f"journals/{file.name}")


def row_of_run(plan: Plan, run: int, settings: Settings) -> Row:
    """Makes one run, again where it dies, and gives its row.

    Raises
    ------
    ProgramMissing
        The program isn't there any more, so that no run could be made.
    """
    image = plan.made(settings).image
    row = Row(run, settings, image, 127, DIED)
    for tries in range(1, plan.campaign.tries + 1):
        try:
            options = plan.options(settings)
            called = _called(plan, settings, *options)
            row = replace(row_of_call(run, settings, image, called, "--journal" in options), tries=tries)
            # A counted run is made once more for its journal, and may die then as well.
            row = _kept_journal(plan, row, called)
        except ProgramMissing:
            raise
        except SafetyNetError as error:
            row = Row(run, settings, image, error.status or 127, DIED, str(error), tries)
            continue
        if row.is_result or row.status in REFUSAL_STATUSES:
            return row
    return row if row.words == DIED else replace(row, words=DIED, why=f"{row.words}: {row.why}")


@contextmanager
def _alone(plan: Plan, batch: Batch) -> Iterator[None]:
    """Holds a batch: a job that an earlier call left behind may still be at it."""
    folder = plan.folder / "batches"
    folder.mkdir(exist_ok=True)
    with open(folder / "lock", "a", encoding="ascii") as lock:
        fcntl.lockf(lock, fcntl.LOCK_EX, 1, batch.first)
        yield


def run_batch(plan: Plan, batch: Batch) -> None:
    """Makes the runs of a batch that have no row yet, and puts its rows in their place."""
    with _alone(plan, batch):
        if not plan.file(batch).exists():
            _finish(plan, batch)


def _finish(plan: Plan, batch: Batch) -> None:
    """Does the runs that have no row yet, a row each as soon as it is done, and then puts the whole file in place."""
    part, file = plan.part(batch), plan.file(batch)
    rows = rows_so_far(part, batch)
    with open(part, "w", encoding="utf-8") as out:
        out.writelines(row.line() for row in rows.values())
        for run in range(batch.first, batch.last + 1):
            if run not in rows:
                rows[run] = row_of_run(plan, run, plan.campaign[run - 1])
                out.write(rows[run].line())
                out.flush()
    whole = file.with_suffix(".whole")
    whole.write_text("".join(rows[run].line() for run in sorted(rows)), encoding="utf-8")
    if any(row.words == DIED for row in rows.values()):
        file.with_suffix(".died").touch()
    os.replace(whole, file)
    part.unlink()


def forget_dead(plan: Plan) -> int:
    """Takes the runs that died out of the batches that are whole, so that they are made again; gives how many there were."""
    count = 0
    for batch in plan.batches:
        file, mark = plan.file(batch), plan.file(batch).with_suffix(".died")
        if not (mark.exists() and file.exists()):
            continue
        rows = [row_of_line(line) for line in file.read_text(encoding="utf-8").splitlines()]
        living = [row for row in rows if row.words != DIED]
        count += len(rows) - len(living)
        plan.part(batch).write_text("".join(row.line() for row in living), encoding="utf-8")
        file.unlink()
        mark.unlink()
    return count
