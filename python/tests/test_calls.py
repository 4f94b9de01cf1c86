"""The program's commands as functions, over the real program."""
from __future__ import annotations

import base64
import inspect
import re
from pathlib import Path
from typing import Any, Callable, Dict, List, Tuple, Union

import pytest

import safetynet
from conftest import Counted
from safetynet import ProgramMissing, Replay, ReportError, Run, SafetyNetError, Step, Trace, assemble, check, demo, disassemble, judge, replay, run
from safetynet.files import ProgramLike
from stored import CHECKOUT, EXAMPLES, SHARED, options_of, words_of

COUNT = SHARED / "count.hex"
WORD = 0x80001000
SMALL: Dict[str, Any] = {"nodes": 2, "interval": 10, "wait": 200, "budget": 2000}


def test_a_program_is_a_path_bytes_or_words() -> None:
    words = [int(line, 16) for line in COUNT.read_text().splitlines() if not line.startswith("#")]
    programs: List[ProgramLike] = [COUNT, str(COUNT), COUNT.read_bytes(), words]
    given = [replay(one, [Step(0), "step 1"], nodes=2) for one in programs]
    assert given == [given[0]] * 4 and len(given[0].answers) == 2


def test_a_replay_with_its_trace() -> None:
    given = replay(COUNT, SHARED / "shared_word.script", nodes=2, watch=WORD, trace=True)
    assert given.trace is not None and len(given.trace) == given.summary.committed == 6 and given.answers == ()
    assert given.summary.watches[0].word == 2
    assert check(COUNT, given.trace, nodes=2).records == 6


@pytest.mark.parametrize("file", sorted((EXAMPLES / "traces").glob("*.trace")), ids=lambda file: file.stem)
def test_a_stored_trace_has_its_verdict(file: Path) -> None:
    words, report = words_of(file), file.with_suffix(".report").read_text()
    # the programs stand beside the traces' folder, as the words say
    verdict = check(file.parent / words[-1], file, **options_of(words))
    word, number = report.split("\n")[0].split(" ")
    assert bool(verdict) == (word == "legal")
    assert (verdict.records if verdict.legal else verdict.place) == int(number)


@pytest.mark.parametrize("file", sorted((EXAMPLES / "judge").glob("*.accesses")), ids=lambda file: file.stem)
def test_a_stored_list_of_accesses_has_its_verdict(file: Path) -> None:
    report = file.with_suffix(".report").read_text()
    verdict = judge(file)
    word, number = report.split("\n")[0].split(" ")
    assert bool(verdict) == (word == "legal")
    assert (verdict.records if verdict.legal else verdict.place) == int(number)
    assert judge(file.read_bytes()) == verdict


@pytest.mark.parametrize("order", ["round", "drawn"])
def test_a_run_in_an_order_is_the_same_each_time(order: str) -> None:
    given = run(COUNT, journal=True, order=order, **SMALL)
    assert given.journal is not None and run(COUNT, journal=True, order=order, **SMALL) == given


def test_a_journal_replays_to_the_same_end() -> None:
    given = run(COUNT, journal=True, watch=WORD, **SMALL)
    assert given.journal is not None and given.status == 0 and given.words == "done"
    again = replay(COUNT, given.journal.events, nodes=2, watch=WORD)
    assert again.summary == given.summary and again.console == given.console
    assert again == replay(COUNT, str(given.journal).encode(), nodes=2, watch=WORD)
    assert sum(len(given.journal.of_worker(worker)) for worker in range(2)) == len(given.journal) == given.summary.events
    assert safetynet.Journal.parse(str(given.journal)).events == given.journal.events


def test_a_run_with_its_trace_and_one_without() -> None:
    given = run(COUNT, trace=True, **SMALL)
    assert given.trace is not None and check(COUNT, given.trace, nodes=2)
    assert run(COUNT, **SMALL).summary.committed == 10


def test_a_run_is_shown_as_its_picture() -> None:
    given = run(COUNT, journal=True, **SMALL)
    assert given.journal is not None
    again = replay(COUNT, given.journal.events, nodes=2)
    both: List[Tuple[Union[Run, Replay], str]] = [(given, "run"), (again, "replay")]
    for one, what in both:
        svg = one.picture()
        assert svg.startswith("<svg ") and f">A {what} of {given.summary.events} events</title>" in svg
        assert f'src="data:image/svg+xml;base64,{base64.b64encode(svg.encode()).decode()}"' in one._repr_html_()
    assert again.picture().count(' id="event-') == given.summary.events


def test_what_has_no_picture_is_shown_as_a_table(monkeypatch: pytest.MonkeyPatch) -> None:
    without: List[Union[Run, Replay]] = [run(COUNT, **SMALL), demo(10)]
    without += [replay(COUNT, ["step 0"], nodes=2, trace=True), replay(COUNT, ["step 0"] * 2001, nodes=2)]
    monkeypatch.setattr("safetynet.notebook.find_diagram", find_none)
    for one in [*without, replay(COUNT, ["step 0"], nodes=2)]:
        with pytest.raises(SafetyNetError):
            one.picture()
        assert f"<caption>{one.summary.events} events" in one._repr_html_()
    monkeypatch.undo()
    with pytest.raises(SafetyNetError, match="2001 events are more than 2000 rows"):
        without[3].picture()


def find_none(program: Path) -> Path:
    raise ProgramMissing("it isn't there")


def test_a_picture_is_drawn_of_the_program_as_it_was(tmp_path: Path) -> None:
    file = tmp_path / "program"
    file.write_bytes(COUNT.read_bytes())
    given = replay(file, ["step 0", "step 0"], nodes=2)
    before = given.picture()
    file.write_text("00000073\n")
    assert given.picture() == before and replay(file, ["step 0", "step 0"], nodes=2).picture() != before


def test_how_a_run_may_end() -> None:
    assert run(COUNT, nodes=2, budget=10).words == "budget"
    assert re.fullmatch("cutoff [01] [01]", run(COUNT, nodes=2, kill="a1@5", journal=True).words)
    assert run([0xFFFFFFFF], nodes=1).words == "trapped 0 illegal"


def test_a_text_becomes_a_program_and_back() -> None:
    for text in sorted((EXAMPLES / "asm").glob("*.s")):
        words = assemble(text)
        assert [f"{word:08x}" for word in words] == text.with_suffix(".hex").read_text().split()
        assert words == assemble(text.read_text()) == assemble(disassemble(words))


def test_a_demo_is_one_run() -> None:
    given = demo(1000)
    assert given == demo(1000) and given.summary.events == 1000 and len(given.summary.cores) == 4


@pytest.mark.parametrize(
    "call,status,words",
    [
        (lambda: replay("/nowhere/program", b""), 2, "store"),
        (lambda: replay(COUNT, Path("/nowhere/script")), 2, "store"),
        (lambda: replay([], b""), 3, "program empty"),
        (lambda: replay(b"hello\n", b""), 3, "program badhexline"),
        (lambda: replay(COUNT, b"stepp 0\n"), 4, "script badline"),
        (lambda: replay(COUNT, ["step 4"]), 4, "script outofrange"),
        (lambda: replay(COUNT, ["step 0"], nodes=17), 1, "usage"),
        (lambda: replay(COUNT, ["step 0"], nodes=-1), 1, "usage"),
        (lambda: replay(COUNT, [], watch=0), 1, "usage"),
        (lambda: run(COUNT, kill="a7@5"), 1, "usage"),
        (lambda: run(b"\x7fELF"), 3, "program truncated"),
        (lambda: check(COUNT, b"step 0\n"), 4, "script badline"),
        (lambda: check(COUNT, Trace([(9, 0)]), nodes=2), 4, "script outofrange"),  # type: ignore[list-item]
        (lambda: judge(b"0 x 80001000 4 00000000\n"), 4, "script badline"),
        (lambda: assemble("li x1, 3"), 13, "asm badline"),
        (lambda: assemble("\u00e9"), 13, "asm badline"),
        (lambda: disassemble(b"\n"), 3, "program badentry"),
        (lambda: demo(0), 1, "usage"),
    ],
)
def test_what_the_program_refuses_is_told(call: Callable[[], Any], status: int, words: str) -> None:
    with pytest.raises(SafetyNetError) as found:
        call()
    assert (found.value.status, found.value.words) == (status, words)


BAD: "list[Callable[[Any], Any]]" = [
    lambda it: replay(COUNT, ["stepp 0"], command=it),
    lambda it: replay(COUNT, ["step 0\nstep 1"], command=it),
    lambda it: replay(COUNT, 3, command=it),  # type: ignore[arg-type]
    lambda it: replay(3, b"", command=it),  # type: ignore[arg-type]
    lambda it: replay([2**32], b"", command=it),
    lambda it: replay([True], b"", command=it),
    lambda it: replay("a\0b", b"", command=it),
    lambda it: replay(COUNT, b"", nodes="2", command=it),  # type: ignore[arg-type]
    lambda it: replay(COUNT, b"", watch=-4, command=it),
    lambda it: run(COUNT, journal=True, trace=True, command=it),
    lambda it: run(COUNT, journal=True, accesses=True, command=it),
    lambda it: run(COUNT, trace=True, accesses=True, command=it),
    lambda it: replay(COUNT, [], statistics=True, trace=True, command=it),
    lambda it: run(COUNT, kill="c1@3", command=it),
    lambda it: run(COUNT, kill="a1", command=it),
    lambda it: run(COUNT, order="slow", command=it),
    lambda it: run(COUNT, seed=1.5, command=it),  # type: ignore[arg-type]
    lambda it: check(COUNT, 3, command=it),  # type: ignore[arg-type]
    lambda it: demo("9", command=it),  # type: ignore[arg-type]
]


@pytest.mark.parametrize("place", range(len(BAD)))
def test_a_bad_argument_is_refused_before_anything_is_called(counted: Counted, place: int) -> None:
    with pytest.raises(ValueError):
        BAD[place](counted.command)
    assert counted.calls() == 0


@pytest.mark.parametrize(
    "call,said",
    [
        (lambda it: check(COUNT, Trace(), command=it), "legal 01"),
        (lambda it: check(COUNT, Trace(), command=it), ""),
        (lambda it: run(COUNT, command=it), "done 3"),
        (lambda it: run(COUNT, journal=True, command=it), "# worker 0"),
        (lambda it: replay(COUNT, [], trace=True, command=it), "0 00000000 0"),
        (lambda it: replay(COUNT, [], command=it), "events 0"),
    ],
)
def test_a_report_of_another_form_is_told(made: Callable[[str], str], call: Callable[[str], Any], said: str) -> None:
    with pytest.raises(ReportError):
        call(made(f"echo '{said}' >&2"))


def test_the_defaults_are_those_of_the_pages() -> None:
    functions: List[Tuple[str, Callable[..., Any]]] = [("replay", replay), ("run", run), ("check", check)]
    for name, function in functions:
        page = (CHECKOUT / f"crates/safetynet_program/pages/{name}.txt").read_text()
        for option, default in re.findall(r"^  --([a-z-]+) [A-Z][^[]*?\[default: ([0-9]+)\]", page, re.M | re.S):
            found = inspect.signature(function).parameters[option.replace("-", "_")].default
            assert found == int(default), (name, option)
