"""A machine that is driven, against the replay of what was done."""
from __future__ import annotations

import os
import random
from dataclasses import replace
from pathlib import Path
from typing import Callable, List

import pytest

from conftest import NO_DRIVE, Counted
from safetynet import Deliver, Edge, Event, Evict, Hop, Input, Kill, Lose, Machine, ProgramKilled, Recover, Report, ReportError, SafetyNetError, Step, Validate
from safetynet import check, parse_script, replay
from schedules import InFlight, checkpoint
from stored import PROGRAM, SHARED

COUNT = SHARED / "count.hex"
ECHO = SHARED / "echo.hex"
WORD = 0x80001000
# How many random uses; the gate has them all.
USES = int(os.environ.get("SAFETYNET_USES", "200"))


def any_event(drawn: random.Random, machine: Machine) -> Event:
    """Any event at all, mostly one that can happen."""
    flight = InFlight.of(machine)
    id = drawn.choice([*flight.messages, flight.last + 1])
    node = drawn.randrange(machine.nodes)
    some: List[Event] = [Step(node)] * 4 + [Deliver(id), Hop(id)] * 3 + [Edge(node), Report(node), Validate(), Lose(id)]
    return drawn.choice(some + [Evict(node, 64), Recover(), Input(node, 65), Kill(f"b{node}")])


def use(drawn: random.Random, command: str) -> Machine:
    """A machine after a few uses of every kind."""
    machine = Machine(drawn.choice([COUNT, ECHO]), nodes=drawn.choice([1, 2, 3]), command=command)
    for _ in range(drawn.randrange(1, 6)):
        done, mark = machine.script(), machine.mark()
        kind = drawn.choice(["one", "many", "many", "checkpoint", "back", "fork", "foresee", "refused", "killed", "summary", "state"])
        if kind == "one":
            machine.apply(any_event(drawn, machine))
        elif kind == "many":
            machine.apply_all([any_event(drawn, machine) for _ in range(drawn.randrange(12))])
        elif kind == "checkpoint":
            checkpoint(machine)
        elif kind == "back":
            machine.back(drawn.randrange(mark + 1))
        elif kind == "fork":
            other = machine.fork()
            other.apply(any_event(drawn, machine))
            assert machine.script() == done
            machine = drawn.choice([machine, other])
        elif kind == "refused":
            events = [any_event(drawn, machine) for _ in range(drawn.randrange(3))]
            with pytest.raises(ValueError, match="outofrange"):
                machine.apply_all([*events, Step(machine.nodes)])
            assert (machine.mark(), machine.script()) == (mark, done)
        elif kind == "killed":
            kill(machine)
        elif kind == "summary":
            assert machine.summary().events == mark
        elif kind == "state":
            assert machine.state.controller.released == len(machine.console)
        else:
            event = any_event(drawn, machine)
            foreseen = machine.foresee(event)
            assert machine.mark() == mark and machine.script() == done
            assert str(machine.apply(event)).split("\n")[0] == str(foreseen)
    return machine


def kill(machine: Machine) -> None:
    """Kills the process that keeps a machine, if one does; the next question then says so, and the one behind it is answered."""
    drive = getattr(machine._backend, "_drive", None)
    if drive is not None:
        drive._process.kill()
        with pytest.raises(ProgramKilled):
            machine.step(0)


@pytest.mark.parametrize("seed", range(USES))
def test_a_machine_is_the_replay_of_its_script(seed: int, older: str) -> None:
    # a quarter of them by a program without `drive`
    machine = use(random.Random(seed), older if seed % 4 == 3 else PROGRAM)
    whole = replay(machine._loaded.program, machine.script().encode(), nodes=machine.nodes)
    assert (machine.answers, machine.console) == (whole.answers, whole.console)
    # The probes of a process were told the events that it took back, too.
    assert replace(machine.summary(), probes=()) == replace(whole.summary, probes=())
    if seed % 8 == 0:
        assert len(machine.committed()) == whole.summary.committed
        assert check(machine._loaded.program, machine.committed(), nodes=machine.nodes)


def test_each_method_is_its_event(command: str) -> None:
    with Machine(ECHO, nodes=2, command=command) as machine:
        names = [
            machine.step(0).name,
            machine.step(0).name,
            machine.input(0, 65).name,
            machine.step(0).name,
            machine.evict(0, 7).name,
            machine.edge(0).name,
            machine.report(1).name,
            machine.hop(1).name,
            machine.deliver(1).name,
            machine.lose(1).name,
            machine.validate().name,
            machine.kill("b1").name,
            machine.recover().name,
        ]
        script = machine.script()
    assert names[:6] == ["retired", "noinput", "given", "retired", "notcached", "edged"]
    assert names[6:] == ["reported", "hopped", "delivered", "nomessage", "notready", "killed", "recovered"]
    assert script.split("\n")[:6] == ["step 0", "step 0", "input 0 41", "step 0", "evict 0 7", "edge 0"]


def test_a_stored_schedule_gives_word_and_trace() -> None:
    with Machine(COUNT, nodes=2) as machine:
        machine.apply_all(parse_script((SHARED / "shared_word.script").read_text()))
        assert machine.watch(WORD) == 2
        assert len(machine.committed()) == machine.summary().committed == 6
        assert check(COUNT, machine.committed(), nodes=2)


def test_what_was_answered_is_not_asked_again(tmp_path: Path, older: str) -> None:
    counted = Counted(tmp_path, older)
    with Machine(COUNT, nodes=2, command=counted.command) as machine:
        begun = counted.calls()
        machine.foresee("step 0")
        machine.step(0)
        assert counted.calls() == begun + 1
        machine.apply_all(["step 0"] * 50)
        assert counted.calls() == begun + 2
        assert machine.summary().events == 51 and machine.console == b"" and machine.mark() == 51
        machine.fork().back(3)
        machine.back(51)
        assert counted.calls() == begun + 2
        machine.watch(WORD), machine.watch(WORD), machine.committed()
        assert counted.calls() == begun + 3
        machine.back(1)
        assert machine.summary().events == 1
        assert counted.calls() == begun + 4
    # that it has no `drive` was found out once
    with Machine(COUNT, nodes=2, command=counted.command):
        assert counted.calls() == begun + 5


def test_a_process_keeps_the_machine(counted: Counted) -> None:
    with Machine(COUNT, nodes=2, command=counted.command) as machine:
        for _ in range(20):
            machine.foresee("step 0")
            machine.step(0)
        machine.apply_all(["step 0"] * 50)
        with pytest.raises(ValueError):
            machine.step(2)
        assert machine.console == b"" and counted.calls() == 1
        machine.fork().back(3)
        machine.back(70)
        assert counted.calls() == 1
        # the process tells it as it ends
        assert machine.summary().events == 70 and counted.calls() == 1
        machine.watch(WORD), machine.watch(WORD), machine.committed(), machine.summary()
        assert counted.calls() == 2
        machine.step(0)
        assert counted.calls() == 3
        machine.back(1)
        other = machine.fork()
        assert counted.calls() == 3
        assert machine.step(0).place == 2 and counted.calls() == 3
        assert other.step(0).place == 2 and counted.calls() == 4
    assert machine.summary().events == 2 and counted.calls() == 4


def test_a_refused_event_leaves_the_machine_as_it_was(command: str) -> None:
    with Machine(COUNT, nodes=2, command=command) as machine:
        machine.apply_all(["step 0", "step 1"])
        before = (machine.script(), machine.answers, machine.summary())
        for refused in ("step 2", "evict 0 65536", "kill a2", "report 99", "input 2 00"):
            with pytest.raises(ValueError, match=f"{refused}: script outofrange"):
                machine.apply(refused)
            with pytest.raises(ValueError, match="outofrange"):
                machine.foresee(refused)
        with pytest.raises(ValueError, match="one of 2 events"):
            machine.apply_all(["step 0", "step 2"])
        for bad in ("", "# step 0", "step", "stepp 0", "step 0\n"):
            with pytest.raises(ValueError, match="no event"):
                machine.apply(bad)
        with pytest.raises(ValueError):
            machine.apply_all(["step 0", "stepp 0"])
        assert (machine.script(), machine.answers, machine.summary()) == before
        assert machine.step(0).place == 3


def test_a_change_of_the_file_changes_nothing(tmp_path: Path) -> None:
    file = tmp_path / "program"
    file.write_bytes(ECHO.read_bytes())
    machine = Machine(file, nodes=1)
    file.write_bytes(COUNT.read_bytes())
    machine.apply_all(["step 0", "step 0"])
    file.unlink()
    assert machine.answers[1].name == "noinput" and machine.step(0).name == "noinput"


@pytest.mark.parametrize("mark", [-1, 3, True, "1", None])
def test_back_takes_a_mark_alone(mark: int) -> None:
    with Machine(COUNT, nodes=2) as machine:
        machine.apply_all(["step 0", "step 1"])
        with pytest.raises(ValueError):
            machine.back(mark)
        assert machine.mark() == 2


@pytest.mark.parametrize(
    "make",
    [
        lambda: Machine(COUNT, nodes="2"),  # type: ignore[arg-type]
        lambda: Machine(3),  # type: ignore[arg-type]
        lambda: Machine([2**32]),
        lambda: Machine(COUNT).watch(-1),
        lambda: Machine(COUNT).watch("80001000"),  # type: ignore[arg-type]
        lambda: Machine(COUNT).step(-1),
        lambda: Machine(COUNT).kill("0"),
    ],
)
def test_a_bad_argument_is_refused(make: Callable[[], object]) -> None:
    with pytest.raises(ValueError):
        make()


def test_what_cannot_begin_is_told() -> None:
    with pytest.raises(SafetyNetError) as found:
        Machine([])
    assert found.value.words == "program empty"
    with pytest.raises(SafetyNetError) as found:
        Machine(COUNT, nodes=17)
    assert found.value.words == "usage"
    with pytest.raises(OSError):
        Machine("/nowhere/program")
    with pytest.raises(SafetyNetError) as found:
        Machine(COUNT).watch(2)
    assert found.value.words == "usage"


def test_a_closed_machine_can_be_read_and_not_driven(command: str) -> None:
    with Machine(COUNT, nodes=2, command=command) as machine:
        machine.step(0)
    assert machine.script() == "step 0\n" and machine.summary().events == 1
    asks: List[Callable[[], object]] = [lambda: machine.step(0), machine.fork, machine.committed, lambda: machine.watch(WORD)]
    asks += [machine.statistics, machine.flights, lambda: machine.core(0), lambda: machine.state, lambda: machine.foresee("step 0")]
    for ask in asks:
        with pytest.raises(ValueError, match="closed"):
            ask()
    machine.close()
    assert "closed" in repr(machine)


def test_a_notebook_shows_a_table() -> None:
    with Machine(COUNT, nodes=2) as machine:
        shown = machine._repr_html_()
    assert "0 events, recovery point 0" in shown and shown.count("<tr>") == 3 and "x10=00000001" in shown


@pytest.mark.parametrize("without", ["", NO_DRIVE], ids=["driven", "replayed"])
def test_a_program_that_answers_otherwise_is_told(made: Callable[[str], str], tmp_path: Path, without: str) -> None:
    turn = tmp_path / "turn"
    lines = f"{without}'{PROGRAM}' \"$@\" 2>report; s=$?; [ -e {turn} ] && sed -i s/retired/waits/ report; cat report >&2; exit $s"
    driven = f"[ -e {turn} ] || exec '{PROGRAM}' \"$@\"; '{PROGRAM}' \"$@\" 2>&1 >&3 3>&- | sed -u s/retired/waits/ >&2"
    machine = Machine(COUNT, nodes=2, command=made(lines if without else f"exec 3>&1; {driven}"))
    machine.apply_all(["step 0", "step 0"])
    # what keeps it ends, so that another is begun
    machine.summary()
    turn.touch()
    machine.back(1)
    with pytest.raises(ReportError, match="other answers"):
        machine.step(0)
    turn.unlink()
    assert machine.mark() == 1 and machine.step(0).name == "retired"


@pytest.mark.parametrize("without", ["", NO_DRIVE], ids=["driven", "replayed"])
def test_a_call_that_fails_leaves_the_machine_as_it_was(made: Callable[[str], str], tmp_path: Path, without: str) -> None:
    turn = tmp_path / "turn"
    machine = Machine(COUNT, nodes=2, command=made(f"{without}[ ! -e {turn} ] || kill -KILL $$; exec '{PROGRAM}' \"$@\""))
    machine.apply_all(["step 0", "step 0"])
    machine.summary()
    machine.back(1)
    turn.touch()
    with pytest.raises(SafetyNetError, match="SIGKILL"):
        machine.step(0)
    turn.unlink()
    assert machine.mark() == 1 and machine.step(0).place == 2
