"""A machine that goes back, what is due of it, and forks of it: held against replays of its script, and by programs that don't go back as they should."""
from __future__ import annotations

import re
from typing import Callable, List, Tuple

import pytest
from hypothesis import HealthCheck, given, settings
from hypothesis import strategies as some

from conftest import Counted
from safetynet import Event, Input, Machine, ProgramKilled, ReportError, SafetyNetError, Step, assemble, replay, run
from safetynet.backends import Driven, Released
from safetynet.drive import Drive
from safetynet.program import find_program
from schedules import InFlight, checkpoint_events
from stored import PROGRAM, SHARED
from test_drive import RETIRES, alive, process_of

COUNT = SHARED / "count.hex"
# Each core reads a byte and puts it out, for ever: li a7, 2; ecall; li a7, 1; ecall; back to the first.
ECHOES = [0x00200893, 0x00000073, 0x00100893, 0x00000073, 0xFF1FF06F]


def round_of(machine: Machine, byte: int) -> List[Event]:
    """A core reads a byte and puts it out, and a checkpoint releases it."""
    return [Input(0, byte), *[Step(0)] * 5, *checkpoint_events(InFlight.of(machine), machine.nodes)]


def is_its_replay(machine: Machine) -> None:
    """What the machine says is what a replay of its script does."""
    whole = replay(machine._loaded.program, machine.script().encode(), nodes=machine.nodes)
    assert (machine.answers, machine.console, machine.mark()) == (whole.answers, whole.console, whole.summary.events)
    controller = machine.state.controller
    assert (controller.point, controller.committed, controller.released) == (whole.summary.point, whole.summary.committed, whole.summary.released)


# Over the real program.

LINES = ["step 0", "step 1", "step 0", "deliver 1", "hop 1", "hop 2", "deliver 2", "deliver 3", "edge 0", "edge 1", "lose 2", "input 0 41", "evict 0 64"]
LINES += ["report 0", "validate", "recover", "kill b1"]
USES = some.lists(
    some.one_of(
        some.tuples(some.just("events"), some.lists(some.sampled_from(LINES), max_size=8)),
        some.tuples(some.just("rounds"), some.binary(min_size=1, max_size=3)),
        some.tuples(some.just("refused"), some.binary(max_size=1)),
        some.tuples(some.just("back"), some.integers(0, 99)),
        some.tuples(some.just("due"), some.integers(0, 2**32 - 1)),
        some.tuples(some.just("fork"), some.just(None)),
    ),
    max_size=8,
)


@pytest.fixture(scope="module")
def kept() -> "dict[str, Machine]":
    """A machine for many uses one after another; each begins by going back to the start."""
    return {"machine": Machine(ECHOES, nodes=2, command=PROGRAM)}


@given(uses=USES)
@settings(max_examples=50, suppress_health_check=[HealthCheck.too_slow])
def test_uses_with_mark_and_back_agree_with_the_replay_of_the_script(kept: "dict[str, Machine]", uses: List[Tuple[str, object]]) -> None:
    machine = kept["machine"]
    machine.back(0)
    lines: List[str] = []
    for kind, given_with in uses:
        events: List[Event] = []
        if kind == "events":
            assert isinstance(given_with, list)
            lines += map(str, machine.apply_all(given_with) and given_with)
        elif kind in ("rounds", "refused"):
            assert isinstance(given_with, bytes)
            events = [event for byte in given_with for event in round_of(machine, byte)]
            if kind == "rounds":
                machine.apply_all(events)
                lines += map(str, events)
            else:
                with pytest.raises(ValueError, match="outofrange"):
                    machine.apply_all([*events, Step(2), Step(0)])
        elif kind == "back":
            assert isinstance(given_with, int)
            mark = machine.mark() * given_with // 99
            machine.back(mark)
            del lines[mark:]
        elif kind == "due":
            assert isinstance(given_with, int)
            event = machine.due(given_with % 2, given_with)
            lines += [str(machine.apply(event).event)] if event else []
        else:
            # the one that was there goes on, and changes nothing of the other
            machine, other = machine.fork(), machine
            other.step(0)
            other.close()
            kept["machine"] = machine
        assert machine.mark() == len(lines)
    assert machine.script() == "".join(f"{line}\n" for line in lines)
    is_its_replay(machine)


def test_bytes_of_events_that_are_taken_back_come_again(command: str) -> None:
    with Machine(ECHOES, nodes=1, command=command) as machine:
        # one question, whose bytes come at places that nobody has seen
        machine.apply_all([*round_of(machine, 65), *round_of(machine, 66), *round_of(machine, 67)])
        assert machine.console == b"ABC"
        script = machine.script().splitlines()
        ends = [answer.place for answer in machine.answers if answer.name == "validated"]
        for mark in sorted({0, *ends, *(end - 1 for end in ends)}, reverse=True):
            machine.back(mark)
            assert machine.script().splitlines() == script[:mark]
            assert machine.console == replay(ECHOES, machine.script().encode(), nodes=1).console
        machine.apply_all(script[: ends[1]])
        assert machine.console == b"AB"
        machine.back(ends[0])
        machine.apply_all(script[ends[0] :])
        assert machine.console == b"ABC" and machine.summary().released == 3


def test_another_way_has_other_bytes() -> None:
    with Machine(ECHOES, nodes=1) as machine:
        machine.apply_all(round_of(machine, 65))
        mark = machine.mark()
        machine.apply_all(round_of(machine, 66))
        assert machine.console == b"AB"
        machine.back(0)
        # nothing is put out on this way, and nothing is known of it by the other
        machine.apply_all(["validate"] * (mark + 5))
        machine.back(mark)
        assert machine.console == b"" and machine.summary().released == 0


def test_a_process_goes_back(counted: Counted) -> None:
    with Machine(COUNT, nodes=2, command=counted.command) as machine:
        process = process_of(machine)
        machine.apply_all(["step 1"] * 3)
        mark, missed = machine.mark(), machine.answers[2]
        for second in ("hop 1", "lose 1", "step 0"):
            machine.apply(second)
            machine.apply("recover")
            machine.back(mark)
            # to go back twice, and to no other place, is nothing more
            machine.back(mark)
        assert [machine.mark(), *machine.flights()[0].message.__dict__.values()] == [3, *missed.sent[0].__dict__.values()]
        machine.back(2)
        assert machine.step(1) == missed and machine.foresee("hop 1").place == 4
        assert process_of(machine) == process and counted.calls() == 1


def test_what_was_refused_among_others_is_taken_back(counted: Counted) -> None:
    with Machine(ECHOES, nodes=1, command=counted.command) as machine:
        with pytest.raises(ValueError, match="^step 1, one of [0-9]+ events: script outofrange$"):
            machine.apply_all([*round_of(machine, 65), Step(1), *round_of(machine, 66)])
        assert (machine.mark(), machine.console, machine.script()) == (0, b"", "")
        machine.apply_all(round_of(machine, 67))
        assert machine.console == b"C" and counted.calls() == 1


def test_the_program_counts_the_events_as_the_machine_does() -> None:
    drive = Drive(find_program(PROGRAM), ("--nodes=2",), COUNT.read_bytes(), 60.0)
    try:
        drive.answers(["step 0", "stepp 0", "step 9", "foresee step 0", "step 1"])
        assert drive.line("mark") == '{"mark":2}\n'
        assert drive.line("back 3") == f"outofrange {drive.lines}\n" and drive.line("mark") == '{"mark":2}\n'
        assert drive.line("back 2") == '{"back":2}\n' and drive.line("back 1") == '{"back":1}\n' and drive.line("mark") == '{"mark":1}\n'
        for no_line in ("back", "back 01", "back -1", "back x", "mark 0", "due", "due 0", "due 0 x", "due 0 1 2"):
            assert drive.line(no_line) == f"badline {drive.lines}\n", no_line
        assert drive.line("due 2 0") == f"outofrange {drive.lines}\n"
        assert drive.answers(["step 1"]).startswith("2 step 1: ") and drive.line("mark") == '{"mark":2}\n'
    finally:
        drive.kill()


def test_a_run_s_journal_is_due_turn_by_turn() -> None:
    given = run(COUNT, nodes=2, journal=True)
    assert given.journal is not None and given.words == "done" and len(given.journal) > 20
    with Machine(COUNT, nodes=2) as machine:
        for turn in given.journal:
            # which number was drawn no journal says; each that is below the length of the list picks another of its events
            assert turn.event in {machine.due(turn.worker, pick) for pick in range(24)}
            machine.apply(turn.event)
        assert [machine.due(worker, 0) for worker in range(2)] == [None, None]
        assert machine.summary() == given.summary


def test_what_is_due_leads_to_a_run_s_end(counted: Counted) -> None:
    program = assemble("addi a7, zero, 93\necall\n")
    with Machine(program, nodes=3, command=counted.command) as machine:
        for turn in range(1000):
            event = machine.due(turn % 3, turn * 7919)
            if event is None:
                break
            mark = machine.mark()
            assert machine.mark() == mark and machine.foresee(event).name not in ("waits", "ended", "notarrived", "held", "notready")
            machine.apply(event)
        assert event is None and counted.calls() == 1
        assert {core.state for core in machine.summary().cores} == {"exited"}
        machine.back(0)
        assert machine.due(1, 0) == Step(1)


@pytest.mark.parametrize("worker, pick", [(2, 0), (-1, 0), (True, 0), ("0", 0), (0, -1), (0, 2**32), (0, 1.0), (0, None)])
def test_what_is_no_turn_is_refused(worker: int, pick: int) -> None:
    with Machine(COUNT, nodes=2) as machine:
        with pytest.raises(ValueError, match="is a number from 0 to"):
            machine.due(worker, pick)
        assert machine.due(0, 2**32 - 1) == Step(0)


def test_a_program_that_is_older_says_nothing_of_turns(older: str, older_drive: str) -> None:
    for command in (older, older_drive):
        with Machine(COUNT, nodes=2, command=command) as machine:
            machine.step(0)
            for _ in range(2):
                with pytest.raises(SafetyNetError, match="due: this program is older"):
                    machine.due(0, 0)
            assert machine.step(0).place == 2


def test_a_fork_lives_beside_its_machine(counted: Counted) -> None:
    with Machine(COUNT, nodes=2, command=counted.command) as machine:
        machine.apply_all(["step 1"] * 3)
        with machine.fork() as other:
            assert other.script() == machine.script() and counted.calls() == 1
            assert other.lose(1).name == "lost" and machine.hop(1).name == "hopped"
            assert process_of(other) != process_of(machine) and alive(process_of(other)) and counted.calls() == 2
            is_its_replay(other)
            third = other.fork()
            other.back(0)
            assert third.recover().name == "recovered" and machine.deliver(1).name == "delivered"
        is_its_replay(third)
        is_its_replay(machine)
        assert [one.mark() for one in (machine, other, third)] == [5, 0, 5]


# By programs in place of the real one.

Make = Callable[[str], str]


@pytest.mark.parametrize("told", ['{"back":2}', '{"back":"1"}', '{"mark":1}', "{}", "[1]", "1", "back 1", "outofrange {}", "", "{"])
def test_a_process_that_does_not_go_back_is_told(answering: Make, told: str) -> None:
    otherwise = f"    if line == 'back 1': return {told + chr(10)!r}.replace('{{}}', str(number)).encode()\n"
    machine = Machine(COUNT, command=answering(RETIRES.replace("line):\n", "line):\n" + otherwise, 1)))
    machine.apply_all(["step 0"] * 3)
    process = process_of(machine)
    machine.back(1)
    with pytest.raises(ReportError):
        machine.step(0)
    assert machine.mark() == 1 and not alive(process)
    # another process begins at the start
    assert machine.step(0).place == 2 and machine.script() == "step 0\n" * 2


def test_a_process_that_ends_as_it_goes_back_is_told(answering: Make) -> None:
    ends = "    if line == 'back 1': os.kill(os.getpid(), 9)\n"
    machine = Machine(COUNT, command=answering(RETIRES.replace("line):\n", "line):\n" + ends, 1)))
    machine.apply_all(["step 0"] * 3)
    machine.back(1)
    asks: List[Callable[[], object]] = [lambda: machine.console, lambda: machine.apply_all(["step 0", "step 1"])]
    for ask in asks:
        with pytest.raises(ProgramKilled):
            ask()
        machine.apply_all(["step 0"] * 2)
        machine.back(1)
    assert machine.mark() == 1


def test_a_process_that_cannot_go_back_is_left(answering: Make) -> None:
    # an older program says so, and is asked that once
    asked = "    if line.startswith('back '): return f'badline {number}\\n'.encode()\n"
    machine = Machine(COUNT, command=answering(RETIRES.replace("line):\n", "line):\n" + asked, 1)))
    processes = set()
    for _ in range(3):
        machine.apply_all(["step 0"] * 3)
        processes.add(process_of(machine))
        machine.back(1)
        assert machine.step(0).place == 2
        machine.back(1)
    backend = machine._backend
    assert len(processes) == 3 and isinstance(backend, Driven) and backend._lacking == {"back"}


@pytest.mark.parametrize("event", ['"stepp 0"', "3", "[]", '""'])
def test_what_is_no_event_is_not_due(answering: Make, event: str) -> None:
    machine = Machine(COUNT, command=answering(f"def answer(number, line):\n    return b'{{\"event\":{event}}}\\n'\n"))
    with pytest.raises(ReportError, match="due"):
        machine.due(0, 0)


def test_how_many_bytes_were_put_out_is_known_where_somebody_looked() -> None:
    released = Released()
    for events, size in ((3, 0), (5, 0), (9, 0), (9, 0), (12, 4), (12, 4), (20, 4), (25, 6)):
        released.note(events, size)
    sizes = [released.at(events) for events in range(26)]
    assert sizes == [0] * 10 + [None] * 2 + [4] * 9 + [None] * 4 + [6]
    assert len(released._known) <= 6
    released.back(23, 5)
    assert [released.at(events) for events in (9, 10, 20, 21, 23)] == [0, None, 4, None, 5]
    released.back(15, 4)
    released.back(0, 0)
    assert released.at(0) == 0 and re.fullmatch(r"\[\(0, 0\).*\]", str(released._known))
    released.note(1, 1)
    assert released.at(1) == 1
