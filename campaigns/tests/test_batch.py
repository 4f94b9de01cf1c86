"""Batches over the proved program, and over commands that end badly."""
from __future__ import annotations

import shlex
import subprocess
import sys
from dataclasses import replace
from pathlib import Path
from typing import Callable, List

import pytest
from safetynet.errors import ProgramMissing

from campaign.batch import forget_dead, row_of_run, run_batch
from campaign.errors import CampaignError
from campaign.front import ask_program
from campaign.plan import TOP, Plan
from campaign.rows import Row, row_of_line
from conftest import CONTENT, COUNT, PlanMaker


def rows_of(plan: Plan, place: int = 0) -> List[Row]:
    return [row_of_line(line) for line in plan.file(plan.batches[place]).read_text().splitlines()]


def test_a_batch_has_a_row_a_run_with_what_the_program_said(program: Path, plan: PlanMaker) -> None:
    made = plan(program)
    run_batch(made, made.batches[0])
    rows = rows_of(made)
    assert [row.run for row in rows] == [1, 2, 3, 4, 5] and all(row.is_result and row.tries == 1 for row in rows)
    words = rows[3].settings.words(str(TOP / COUNT))
    said = subprocess.run([program, *words], capture_output=True, check=False)
    lines = dict(line.split(" ", 1) for line in said.stderr.decode().splitlines() if line.startswith(("events", "committed")))
    assert {name: str(rows[3].numbers[name]) for name in lines} == lines and rows[3].status == said.returncode


def test_the_same_batch_is_the_same_bytes_and_goes_on_behind_its_rows(program: Path, plan: PlanMaker) -> None:
    made = plan(program)
    batch = made.batches[0]
    run_batch(made, batch)
    whole = made.file(batch).read_bytes()
    lines = whole.splitlines(keepends=True)
    made.file(batch).unlink()
    # the second row was kept with another word, to be told from one that is made anew; the third was broken off
    kept = lines[1].replace(b'"tries":1', b'"tries":2')
    made.part(batch).write_bytes(kept + lines[2][:40])
    run_batch(made, batch)
    assert made.file(batch).read_bytes() == whole.replace(lines[1], kept) and not made.part(batch).exists()


def test_journals_are_kept_and_replay_to_the_same_summary(program: Path, plan: PlanMaker) -> None:
    made = plan(program, journals="all")
    run_batch(made, made.batches[2])
    for row in rows_of(made, 2):
        words = row.settings.replay_words(str(TOP / COUNT), str(made.folder / row.journal))
        report = subprocess.run([program, *words], capture_output=True, check=False).stderr.decode()
        assert f"\nevents {row.numbers['events']}\npoint {row.numbers['point']}\ncommitted {row.numbers['committed']}\n" in report


def test_a_counted_run_has_its_statistics_and_its_journal(program: Path, plan: PlanMaker) -> None:
    made = replace(plan(program, journals="all"), statistics=True)
    run_batch(made, made.batches[0])
    for row in rows_of(made):
        words = row.settings.replay_words(str(TOP / COUNT), str(made.folder / row.journal))
        report = subprocess.run([program, *words, "--statistics"], capture_output=True, check=False).stderr.decode()
        for name in ("retired", "hopped", "sent_getm", "undone_instructions_sum"):
            assert f"\nstat {name} {row.numbers[name]}\n" in report


@pytest.mark.parametrize("ends, why", [("kill -9 $$", "SIGKILL"), ("exit 0", "ended with done and not with budget")])
def test_a_run_whose_second_call_for_its_journal_fails_is_tried_again(
    ends: str, why: str, program: Path, plan: PlanMaker, made: Callable[[str], Path], tmp_path: Path
) -> None:
    mark = tmp_path / "mark"
    command = made(f'case "$*" in *--journal*) [ -e {shlex.quote(str(mark))} ] || {{ {ends}; }} ;; esac\nexec {shlex.quote(str(program))} "$@"')
    found = replace(plan(command, journals="all", product={"program": COUNT, "wait": 500, "budget": 20}), statistics=True)
    row = row_of_run(found, 1, found.campaign[0])
    assert (row.words, row.tries, row.journal) == ("died", 3, "") and why in row.why
    mark.touch()
    row = row_of_run(found, 1, found.campaign[0])
    assert (row.words, row.tries, row.journal) == ("budget", 1, "journals/1.script")


def test_a_counted_run_that_keeps_no_journal_is_one_call(program: Path, plan: PlanMaker, made: Callable[[str], Path], tmp_path: Path) -> None:
    calls, proved = (shlex.quote(str(file)) for file in (tmp_path / "calls", program))
    command = made(f'echo "$*" >>{calls}\nexec {proved} "$@"')
    found = replace(plan(command, journals="unfinished", product={"program": COUNT, "wait": 500, "budget": [20, 100000]}), statistics=True)
    run_batch(found, found.batches[0])
    assert [("--statistics" in words, "--journal" in words) for words in (tmp_path / "calls").read_text().splitlines()] == [
        (True, False),
        (False, True),
        (True, False),
    ]


def test_what_threads_decide_is_not_counted(plan: PlanMaker) -> None:
    made = replace(plan(journals="all"), statistics=True)
    assert made.options(replace(made.campaign[0], order="threads")) == ["--journal"]
    assert made.options(made.campaign[0]) == ["--statistics"]


def test_of_unfinished_runs_alone_the_journal_is_kept(program: Path, plan: PlanMaker) -> None:
    product = {"program": COUNT, "wait": 500, "budget": [20, 100000]}
    made = plan(program, journals="unfinished", product=product)
    run_batch(made, made.batches[0])
    assert [(row.end, bool(row.journal)) for row in rows_of(made)] == [("budget", True), ("done", False)]


def test_a_run_that_dies_is_tried_again(program: Path, plan: PlanMaker, made: Callable[[str], Path], tmp_path: Path) -> None:
    mark = shlex.quote(str(tmp_path / "mark"))
    dies_once = made(f'[ -e {mark} ] || {{ touch {mark}; kill -9 $$; }}\nexec {shlex.quote(str(program))} "$@"')
    found = plan(dies_once)
    row = row_of_run(found, 1, found.campaign[0])
    assert row.is_result and row.tries == 2 and row.numbers["events"] > 0


@pytest.mark.parametrize(
    "lines, status, why",
    [
        ("kill -9 $$", -9, "SIGKILL"),
        ("echo events x >&2", 127, "events"),
        ("echo '# why: none left' >&2; echo '# safetynet: memory' >&2; exit 7", 7, "memory"),
        ("sleep 60", -9, "1 s"),
    ],
)
def test_a_run_that_dies_each_time_is_a_row_and_is_made_again_by_the_next_call(
    lines: str, status: int, why: str, plan: PlanMaker, made: Callable[[str], Path]
) -> None:
    found = plan(made(lines), product={"program": COUNT}, tries=2, timeout=1)
    run_batch(found, found.batches[0])
    (row,) = rows_of(found)
    assert (row.words, row.status, row.tries, row.is_result) == ("died", status, 2, False) and why in row.why
    assert forget_dead(found) == 1 and not found.file(found.batches[0]).exists() and forget_dead(found) == 0


def test_what_the_program_refuses_is_a_row_and_is_not_tried_again(program: Path, plan: PlanMaker) -> None:
    found = plan(program, product={"program": COUNT, "nodes": 2, "kill": "a3@5"})
    run_batch(found, found.batches[0])
    (row,) = rows_of(found)
    assert (row.end, row.tries, row.is_result) == ("usage", 1, False) and "a3@5" in row.why and forget_dead(found) == 0


def test_a_value_that_the_program_refuses_is_told_before_the_first_run(program: Path, plan: PlanMaker) -> None:
    ask_program(plan(program))
    script = "examples/first/b.script"
    for axis, value, said in (("nodes", 17, "--nodes 17"), ("interval", 0, "--interval 0"), ("budget", 1000001, "--budget"), ("program", script, "badhexline")):
        with pytest.raises(CampaignError, match=said):
            ask_program(plan(program, product={**CONTENT["product"], axis: value}))


def test_a_batch_that_another_job_is_at_is_waited_for(plan: PlanMaker, made: Callable[[str], Path]) -> None:
    found = plan(made("kill -9 $$"))
    batch, folder = found.batches[1], found.folder / "batches"
    folder.mkdir()
    holds = "import fcntl, sys, time; lock = open('lock', 'a'); fcntl.lockf(lock, fcntl.LOCK_EX, 1, int(sys.argv[1])); print(flush=True); time.sleep(1); open(sys.argv[2], 'w')"
    with subprocess.Popen([sys.executable, "-c", holds, str(batch.first), found.file(batch).name], cwd=folder, stdout=subprocess.PIPE) as other:
        assert other.stdout is not None and other.stdout.readline() == b"\n"
        run_batch(found, batch)
        # it has made no run, and left what the other one wrote
        assert found.file(batch).read_text() == "" and not found.part(batch).exists()


def test_a_program_that_is_gone_ends_the_batch(plan: PlanMaker, made: Callable[[str], Path]) -> None:
    gone = made("exit 0")
    found = plan(gone)
    gone.unlink()
    with pytest.raises(ProgramMissing):
        run_batch(found, found.batches[0])
    assert not found.file(found.batches[0]).exists()
