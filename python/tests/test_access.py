"""The accesses of a committed trace, and many runs by one call: read exactly."""
from __future__ import annotations

from typing import Any, Callable, Dict

import pytest

from safetynet import Access, Machine, ReportError, SafetyNetError, accesses, replay, run, runs
from safetynet.access import HEADER, parse_accesses
from stored import SHARED

COUNT = SHARED / "count.hex"
SCRIPT = SHARED / "shared_word.script"
TEXT = f"""{HEADER}
0,80000000,"lui x5, 524289",,,,,
1,80000008,"amoadd.w x7, x6, (x5)",80001000,4,00000000,00000001,
0,80000008,"sh x6, 2(x5)",80001002,2,,fffe,
0,8000000c,"lb x6, 3(x5)",80001003,1,80,,
0,80000014,"sc.w x9, x6, (x5)",80001000,4,,fffffffe,1
15,80000018,"sc.w x9, x6, (x5)",80001000,4,,,0
0,8000001c,"",,,,,
"""
BLOCKS = """seed 7
events 2
point 1
committed 1
released 1
core 0 80000004 exited 65 x10=00000041
end done
seed 8
events 9
point 0
committed 0
released 2
core 0 80000000 running
stat events 9
end trapped 0 illegal
"""


def test_each_field_has_its_place() -> None:
    found = parse_accesses(TEXT)
    assert HEADER + "\n" + "".join(f"{one}\n" for one in found) == TEXT
    assert found[1] == Access(1, 0x80000008, "amoadd.w x7, x6, (x5)", 0x80001000, 4, 0, 1, None)
    assert (found[0].address, found[2].written, found[3].read, found[4].done, found[5].done) == (None, 0xFFFE, 0x80, True, False)
    assert found[6].instruction == "" and parse_accesses(HEADER + "\n") == ()


SUMMARY = "# events 9\n# point 1\n# committed 7\n# released 0\n# core 0 80000020 running\n# probe 0 0 9\n"


def test_they_stand_above_a_summary(made: Callable[[str], str]) -> None:
    said = TEXT + SUMMARY
    assert accesses([0x73], [], command=made(f"cat >&2 <<'END'\n{said}END")) == parse_accesses(TEXT)
    for other in (TEXT, said.replace("committed 7", "committed 6"), SUMMARY):
        with pytest.raises(ReportError):
            accesses([0x73], [], command=made(f"cat >&2 <<'END'\n{other}END"))


@pytest.mark.parametrize(
    "old,new",
    [
        (HEADER, "core,pc"),
        (HEADER + "\n", ""),
        ('"lui x5, 524289"', "lui x5"),
        ("80000000", "8000000"),
        (',"lui x5, 524289",,,,,', ',"lui x5, 524289",,,,'),
        ("80001002,2,,fffe,", "80001002,2,,fffffffe,"),
        ("80001002,2,,fffe,", "80001002,3,,fffe,"),
        ("80001002,2,,fffe,", "80001002,2,,FFFE,"),
        ("fffffffe,1", "fffffffe,2"),
        ("1,80000008", "01,80000008"),
        ('"",,,,,\n', '"",,,,,'),
        ('"",,,,,\n', '"",,,,,\n\n'),
    ],
)
def test_another_form_is_told(old: str, new: str) -> None:
    assert old in TEXT
    with pytest.raises(ReportError):
        parse_accesses(TEXT.replace(old, new, 1))


def test_a_run_has_its_accesses(made: Callable[[str], str]) -> None:
    said = TEXT + SUMMARY
    given = run([0x73], accesses=True, command=made(f"[ \"$*\" = \"run --nodes=4 --sets=16 --ways=4 --log=256 --interval=100 --wait=20000 --budget=1000000 --lose-every=0 --seed=1 --accesses program\" ] && cat >&2 <<'END'\n{said}END"))
    assert given.accesses == parse_accesses(TEXT) and given.trace is given.journal is None and given.summary.committed == 7
    with pytest.raises(ReportError):
        run([0x73], accesses=True, command=made(f"cat >&2 <<'END'\n{SUMMARY}END"))


def test_each_run_has_its_block_and_its_bytes(made: Callable[[str], str]) -> None:
    blocks = BLOCKS.replace("stat events 9\n", "")
    first, second = runs([0x73], range(7, 9), command=made(f"printf ABC; printf '{blocks}' >&2"))
    assert (first.seed, first.status, first.words, first.console, first.summary.point) == (7, 0, "done", b"A", 1)
    assert (second.seed, second.status, second.words, second.console) == (8, 10, "trapped 0 illegal", b"BC")
    counted = BLOCKS.replace("end done", "stat events 2\nend done")
    given = runs([0x73], [7, 8], statistics=True, command=made(f"printf ABC; printf '{counted}' >&2"))
    assert [one.statistics and one.statistics["events"] for one in given] == [2, 9]


@pytest.mark.parametrize(
    "old,new",
    [("seed 7", "seed 6"), ("seed 8", "seed 9"), ("end done\n", ""), ("end done", "end well"), ("end done", "done"), ("released 2", "released 1"),
     ("core 0 80000000 running", "core 0"), ("seed 7\n", "hello\nseed 7\n")],
)
def test_blocks_of_another_form_are_told(made: Callable[[str], str], old: str, new: str) -> None:
    blocks = BLOCKS.replace("stat events 9\n", "")
    assert old in blocks
    with pytest.raises(ReportError):
        runs([0x73], [7, 8], command=made(f"printf ABC; printf '{blocks.replace(old, new, 1)}' >&2"))


@pytest.mark.parametrize("seeds", [[], [1, 3], [2, 1], range(1, 9, 2), [1, 1]])
def test_seeds_follow_each_other(seeds: Any) -> None:
    with pytest.raises(ValueError, match="follow each other"):
        runs(COUNT, seeds, command="/nowhere/safetynet")


# Over the real program, where it has these options.


def known(call: Callable[[], Any]) -> Any:
    """What a call gives; the test is skipped where the program is older than its option."""
    try:
        return call()
    except SafetyNetError as error:
        if error.words == "usage" and "no such option" in (error.why or ""):
            pytest.skip(str(error.why))
        raise


def test_the_accesses_of_a_stored_run() -> None:
    found = known(lambda: accesses(COUNT, SCRIPT, nodes=2))
    trace = replay(COUNT, SCRIPT, nodes=2, trace=True).trace
    assert trace is not None and [one.core for one in found] == [record.core for record in trace]
    assert [one.read for one in found if one.read is not None] == [record.seen for record, one in zip(trace, found) if one.read is not None]
    assert sum(one.instruction.startswith("amoadd.w") for one in found) == 2
    with Machine(COUNT, nodes=2) as machine:
        machine.apply_all(answer.event for answer in replay(COUNT, SCRIPT, nodes=2).answers)
        assert machine.accesses() == found and machine.summary().committed == len(found)


@pytest.mark.parametrize("order", ["threads", "drawn"])
def test_the_accesses_of_a_run(order: str) -> None:
    small: Dict[str, Any] = {"nodes": 2, "interval": 10, "wait": 200, "budget": 2000, "order": order}
    given = known(lambda: run(COUNT, accesses=True, **small))
    assert given.accesses is not None and len(given.accesses) == given.summary.committed == 10
    trace = run(COUNT, trace=True, **small).trace
    assert trace is not None and sorted(one.core for one in given.accesses) == sorted(record.core for record in trace)
    if order == "drawn":
        assert [one.core for one in given.accesses] == [record.core for record in trace]


@pytest.mark.parametrize("order", ["round", "drawn"])
def test_runs_are_each_run_alone(order: str) -> None:
    small: Dict[str, Any] = {"nodes": 2, "interval": 10, "wait": 200, "budget": 2000, "lose_every": 40, "order": order, "watch": 0x80001000, "statistics": True}
    for one in known(lambda: runs(COUNT, range(3, 8), **small)):
        alone = run(COUNT, seed=one.seed, **small)
        assert (one.status, one.words, one.console, one.statistics) == (alone.status, alone.words, alone.console, alone.statistics)
        assert one.summary.cores == alone.summary.cores and one.summary.watches == alone.summary.watches and one.summary.probes == ()
