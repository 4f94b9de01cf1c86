"""The examples do what they say, at small sizes."""
from __future__ import annotations

import os
import re
import subprocess
import sys
import time
from pathlib import Path
from typing import List

import pytest

import explore
import fuzz
import judge
from conftest import Counted
from safetynet import Record, Trace
from safetynet.litmus import Runner, parse_litmus
from sequential import sequential_states
from stored import CHECKOUT, EXAMPLES, PROGRAM

FOLDER = Path(__file__).resolve().parents[1]
WITH_PACKAGE = {**os.environ, "PYTHONPATH": str(FOLDER), "SAFETYNET": PROGRAM}


def done(name: str, *words: str, status: int = 0) -> "subprocess.CompletedProcess[str]":
    """An example that has ended with this status."""
    command = [sys.executable, str(FOLDER / "examples" / f"{name}.py"), *words]
    ended = subprocess.run(command, env=WITH_PACKAGE, capture_output=True, text=True, timeout=300)
    assert ended.returncode == status, ended.stderr
    return ended


def said(name: str, *words: str) -> str:
    """What an example prints."""
    return done(name, *words).stdout


@pytest.mark.parametrize("name", ["explore", "scheduler", "fuzz", "judge"])
def test_it_has_help(name: str) -> None:
    assert ("--seed" in said(name, "--help")) == (name != "judge")


def test_the_first_lines_of_the_readme_print_what_it_says() -> None:
    blocks = re.findall(r"(?:^    .*\n)+", (FOLDER / "README.md").read_text(), re.M)
    lines, printed = ("\n".join(line[4:] for line in block.splitlines()) + "\n" for block in blocks[:2])
    assert lines.count("\n") == 8
    given = subprocess.run([sys.executable, "-c", lines], cwd=CHECKOUT, env=WITH_PACKAGE, capture_output=True, text=True, timeout=60)
    assert given.stdout == printed, given.stderr


def test_the_lines_of_the_readme_that_look_ahead_print_what_it_says() -> None:
    blocks = re.findall(r"(?:^    .*\n)+", (FOLDER / "README.md").read_text(), re.M)
    place = next(place for place, block in enumerate(blocks) if "machine.back(here)" in block)
    lines, printed = ("\n".join(line[4:] for line in block.splitlines()) + "\n" for block in blocks[place : place + 2])
    given = subprocess.run([sys.executable, "-c", lines], cwd=CHECKOUT, env=WITH_PACKAGE, capture_output=True, text=True, timeout=60)
    assert given.stdout == printed, given.stderr


def test_the_lines_of_the_readme_on_a_state_are_so() -> None:
    blocks = re.findall(r"(?:^    .*\n)+", (FOLDER / "README.md").read_text(), re.M)
    (lines,) = ("\n".join(line[4:] for line in block.splitlines()) for block in blocks if "in machine.flights():" in block)
    said = re.search(r"# (Miss\(.*\))", lines)
    assert said is not None and "message 1, a getm for block 64 in switch a1" in lines
    more = "\nprint(machine.node(1).miss, machine.flights()[0].has_arrived, flight.message.id, flight.message.kind, flight.message.block, flight.switch)"
    begin = "from safetynet import Machine\n"
    given = subprocess.run([sys.executable, "-c", begin + lines + more], cwd=CHECKOUT, env=WITH_PACKAGE, capture_output=True, text=True, timeout=60)
    assert given.stdout == f"{said[1]} True 1 getm 64 a1\n", given.stderr


def test_a_walk_is_a_litmus_log() -> None:
    ended = done("explore", "--depth", "1", "--losses", "--seconds", "200")
    assert ended.stderr == "" and re.sub("Time .*", "", ended.stdout) == re.sub("Time .*", "", said("explore", "--depth", "1", "--losses", "--seconds", "200"))
    logs = re.findall(r"^Test (\S+) Allowed\nHistogram \([1-3] states\)\n((?:.*;\n)+)No\n\nWitnesses\n(?:.*\n)+?Observation \1 Never 0 ([0-9]+)\n", ended.stdout, re.M)
    assert [name for name, _, _ in logs] == ["SB", "SB+losses"]
    test = parse_litmus(explore.STORE_BUFFERING)
    allowed = set(map(test.state_text, sequential_states(test)))
    for _, rows, runs in logs:
        counts = [(int(count), state) for count, state in re.findall("^([0-9]+) *:>(.*)$", rows, re.M)]
        assert {state for _, state in counts} <= allowed and sum(count for count, _ in counts) == int(runs) > 2


def test_a_walk_of_a_test_of_ones_own() -> None:
    assert re.search("^Observation MP Never 0 [1-9]", said("explore", str(EXAMPLES / "litmus" / "MP.litmus"), "--depth", "2", "--seconds", "200"), re.M)


def test_a_walk_goes_and_comes_back_by_one_process(counted: Counted) -> None:
    runner = Runner(parse_litmus(explore.STORE_BUFFERING), command=counted.command)
    assembled = counted.calls()
    walk = explore.Walk(runner, 1, time.monotonic() + 200)
    mark, script = walk.machine.mark(), walk.machine.script()
    walk.walk(2, True)
    assert (walk.machine.mark(), walk.machine.script()) == (mark, script) and walk.is_whole and counted.calls() == assembled + 1
    assert sum(walk.outcomes.states.values()) > 4 and sum(walk.after_loss.states.values()) > 4


def test_a_walk_stops_in_time() -> None:
    ended = done("explore", "--seconds", "0")
    assert ended.stderr == "stopped after 0 seconds; there are more interleavings\n" and "Observation SB Never 0 0\n" in ended.stdout


def test_the_adversary_keeps_the_first_message_longest() -> None:
    text = said("scheduler", "--seed", "3")
    waits = [int(number) for number in re.findall("^ *([0-9]+) events: msg", text, re.M)]
    assert waits == sorted(waits, reverse=True) and waits[0] > 10
    assert "80001000 holds 00000002; the committed trace is legal" in text
    assert text == said("scheduler", "--seed", "3")


def test_the_rules_of_a_run_come_to_its_end() -> None:
    text = said("scheduler", "--rules", "--events", "1000")
    assert "80001000 holds 00000002; the committed trace is legal" in text and int(re.findall("^([0-9]+) events, rec", text, re.M)[0]) < 1000
    assert text == said("scheduler", "--rules", "--events", "1000")


def test_an_example_tells_what_it_cannot_do(tmp_path: Path) -> None:
    assert done("scheduler", "/nowhere/program", status=1).stderr.startswith("scheduler: ")
    assert done("scheduler", "--nodes", "17", status=1).stderr.startswith("scheduler: usage")
    assert done("explore", "/nowhere/test", status=1).stderr == "explore: /nowhere/test: No such file or directory\n"
    assert done("judge", "/nowhere/table", status=1).stderr.startswith("judge: ")


TABLE = """cycle,cpu,type,addr,bytes,data,before
1,0,WriteReq,0x1000,4,-1,
2,1,FenceReq,,,,
3,1,ReadReq,4096,2,0xffff,
4,1,atomic,0x1000,4,5,0xffffffff
"""
NAMED = ["--columns", "core=cpu,op=type,address=addr,size=bytes,value=data,old=before", "--ops", "r=ReadReq,w=WriteReq", "--skip", "FenceReq", "--offset", "0x80000000"]


def rows_of(text: str, *words: str) -> List[str]:
    """The lines of a list of accesses that a table becomes."""
    return [row.access for row in judge.Reading(judge.parser().parse_args(list(words))).rows(text)]


def test_a_table_becomes_a_list_of_accesses() -> None:
    assert rows_of(TABLE, *NAMED) == ["0 w 80001000 4 ffffffff", "1 r 80001000 2 ffff", "1 amo 80001000 4 00000005 ffffffff"]
    assert rows_of("core,op,address,size,value\n15,ld,80001000,1,f0\n", "--base", "16") == ["15 r 80001000 1 f0"]
    named = judge.Reading(judge.parser().parse_args(NAMED)).rows(TABLE)
    why = "access 3 (line 9): core 1 read 00000001, and memory has 00000005, which access 1 wrote last"
    assert judge.told(named, 3, why) == f"refused: line 5: 4,1,atomic,0x1000,4,5,0xffffffff\n  {why}\n  access 1 is line 2: 1,0,WriteReq,0x1000,4,-1,"
    assert judge.told(named, 2, "expected 0000 since 0") == "refused: line 4: 3,1,ReadReq,4096,2,0xffff,\n  expected 0000 since 0"


@pytest.mark.parametrize(
    "old, new, told",
    [("ReadReq", "WhatReq", "line 4: 'WhatReq' is no op"), ("4096", "word", "line 4: "), (",bytes,", ",size,", "line 1: there is no column bytes"), ("0xffffffff", "", "line 5: ")],
)
def test_a_row_that_is_no_access_is_named(old: str, new: str, told: str) -> None:
    with pytest.raises(judge.TableError, match=f"^{told}"):
        rows_of(TABLE.replace(old, new), *NAMED)


def test_the_row_that_no_memory_gives_is_named(tmp_path: Path) -> None:
    text = done("judge", status=1).stdout
    assert text.startswith("refused: line 5: 18,1,load,0x80001000,4,0,\n") and text.endswith("access 1 is line 2: 10,0,store,0x80001000,4,42,\n")
    file = tmp_path / "table.csv"
    file.write_text(TABLE)
    assert said("judge", str(file), *NAMED) == "legal: 3 accesses\n"
    file.write_text(TABLE.replace("0xffff,", "7,"))
    assert said("judge", str(file), *NAMED[:-2], "--offset", "2147483648", "--init", "80001000=7", "--skip", "WriteReq,FenceReq,atomic") == "legal: 1 accesses\n"


def test_the_flat_memory() -> None:
    trace = Trace([Record(0, 0)] * 2 + [Record(0, 0), Record(1, 0), Record(1, 0), Record(1, 1), Record(0, 0), Record(0, 2)])
    assert fuzz.flat(trace) == 3
    with pytest.raises(AssertionError):
        fuzz.flat(Trace([Record(0, 0)] * 5))


def test_the_fuzz_passes(capsys: pytest.CaptureFixture[str]) -> None:
    fuzz.main(["--examples", "4", "--steps", "5"])
    assert "every recovery point is a consistent cut" in capsys.readouterr().out


def test_the_fuzz_finds_a_wrong_memory(monkeypatch: pytest.MonkeyPatch, capsys: pytest.CaptureFixture[str]) -> None:
    monkeypatch.setattr(fuzz, "flat", lambda trace: min(len(trace) // 4, 1))
    with pytest.raises(AssertionError, match="a flat memory"):
        fuzz.main(["--examples", "40", "--steps", "6"])
