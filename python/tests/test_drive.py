"""The process that keeps a machine: where an answer ends, what ends the process, and that nothing is waited for that can't come.

Most tests have a program of their own in place of the real one, since the real one ends in none of these ways.
"""
from __future__ import annotations

import copy
import gc
import os
import pickle
import signal
import subprocess
import sys
import threading
import time
from pathlib import Path
from typing import Callable, Iterator, List

import pytest

from safetynet import Machine, ProgramKilled, ProgramMissing, ProgramTimeout, ReportError, ReplayReport, SafetyNetError, Step, parse_report, parse_script
from safetynet.backends import MOST_PROCESSES, Driven
from safetynet.drive import Drive
from stored import CHECKOUT, NAMES, PROGRAM, SHARED, STORED, Stored

COUNT = SHARED / "count.hex"
Make = Callable[[str], str]

# Answers an event by its line alone, as the place says, and goes back.
RETIRES = """
def answer(number, line):
    if line.startswith("back "):
        answer.done = int(line[5:])
        return b'{"back":%d}\\n' % answer.done
    place = answer.done = getattr(answer, "done", 0) + (not line.startswith("foresee "))
    return f"{place + line.startswith('foresee ')} {line.replace('foresee ', '')}: retired\\n".encode()
"""


def alive(process: int) -> bool:
    """Whether a process is there and hasn't ended."""
    try:
        return Path(f"/proc/{process}/stat").read_text().rpartition(")")[2].split()[0] != "Z"
    except FileNotFoundError:
        return False


def process_of(machine: Machine) -> int:
    """The process that keeps a machine."""
    backend = machine._backend
    assert isinstance(backend, Driven) and backend._drive is not None
    return backend._drive._process.pid


def is_impatient(machine: Machine) -> None:
    """Makes the time limit of the process that is there now half a second; the next one has the usual limit."""
    backend = machine._backend
    assert isinstance(backend, Driven) and backend._drive is not None
    backend._drive._timeout = 0.5


@pytest.fixture
def soon() -> Iterator[None]:
    """What is tested ends long before its time limits do."""
    begun = time.monotonic()
    yield
    assert time.monotonic() - begun < 100


pytestmark = pytest.mark.usefixtures("soon")


# Where an answer ends.


@pytest.mark.parametrize("stored", STORED, ids=NAMES)
def test_a_recorded_report_is_read_event_by_event(answering: Make, stored: Stored) -> None:
    groups = [f"{answer}\n" for answer in parse_report(stored.report).answers]
    # each line by itself, so that an answer comes in pieces
    fake = answering(f"groups = {groups!r}\ndef answer(number, line):\n    return groups.pop(0).encode()\n")
    sizes = {name: value for name, value in stored.options.items() if name != "watch"}
    events = parse_script(stored.script.read_text())
    with Machine(stored.program, **sizes, command=fake) as machine:
        half = len(events) // 2
        for event in events[:half]:
            machine.apply(event)
        machine.apply_all(events[half:])
        assert "".join(f"{answer}\n" for answer in machine.answers) == "".join(groups)


def test_an_answer_may_come_in_any_pieces(answering: Make) -> None:
    recorded = [f"{answer}\n" for answer in parse_report((SHARED / "shared_word.report").read_text()).answers]
    pieces = """
import time
def answer(number, line):
    for byte in groups.pop(0).encode():
        os.write(2, bytes([byte]))
        byte == 10 and time.sleep(0.003)
    return b""
"""
    machine = Machine(COUNT, nodes=2, command=answering(f"groups = {recorded!r}{pieces}"))
    for event in parse_script((SHARED / "shared_word.script").read_text()):
        machine.apply(event)
    assert "".join(f"{answer}\n" for answer in machine.answers) == "".join(recorded)


def test_a_foreseen_event_has_one_line(answering: Make) -> None:
    with Machine(COUNT, command=answering(RETIRES)) as machine:
        assert str(machine.foresee("step 0")) == "1 step 0: retired" and machine.mark() == 0
        assert machine.step(0).place == 1 and machine.foresee(Step(1)).place == 2


def test_what_is_put_out_is_read_with_its_answer(answering: Make) -> None:
    # more than a pipe holds, before the answer and on the other pipe
    loud = "def answer(number, line):\n    sys.stdout.buffer.write(b'x' * 300_000); sys.stdout.flush()\n    return f'{number} {line}: retired\\n'.encode()\n"
    drive = Drive(Path(answering(loud)), (), COUNT.read_bytes(), 20.0)
    assert drive.answers(["step 0"]) == "2 step 0: retired\n"
    assert len(drive.console) == 300_000
    drive.answers(["step 0"] * 5)
    assert len(drive.console) == 1_800_000
    drive.kill()


def test_neither_side_waits_for_the_other(answering: Make) -> None:
    # the answers to many lines fill the pipe while most lines aren't given yet
    drive = Drive(Path(answering("def answer(number, line):\n    return b'y' * 100 + b'\\n'\n")), (), b"", 20.0)
    assert len(drive.answers(["step 0"] * 40_000)) == 40_000 * 101
    drive.kill()


def test_a_refusal_is_of_its_event(answering: Make) -> None:
    refuses = "    if line.endswith('step 3'): return f'outofrange {number}\\n'.encode()\n"
    machine = Machine(COUNT, command=answering(RETIRES.replace("line):\n", "line):\n" + refuses, 1)))
    with pytest.raises(ValueError, match="^step 3: script outofrange$"):
        machine.step(3)
    with pytest.raises(ValueError, match="^step 3: script outofrange$"):
        machine.foresee("step 3")
    assert machine.step(0).place == 1
    with pytest.raises(ValueError, match="^step 3, one of 3 events: script outofrange$"):
        machine.apply_all(["step 0", "step 3", "step 1"])
    assert machine.mark() == 1 and machine.step(2).place == 2


@pytest.mark.parametrize(
    "answer",
    ["b'hello\\n'", "b'2 step 0: retired\\n'", "b'1 step 1: retired\\n'", "b''", "b'1 step 0: retired\\n1 step 0: retired\\n'", "b'outofrange 9\\n'", "b'badline 0\\n'", "'1 step 0: retir\u00e9d\\n'.encode()"],
)
def test_an_answer_of_another_form_is_told(answering: Make, answer: str) -> None:
    machine = Machine(COUNT, command=answering(f"def answer(number, line):\n    return {answer}\n"))
    with pytest.raises(ReportError):
        machine.step(0)
    assert machine.mark() == 0


# How a process ends.


@pytest.mark.parametrize(
    "ends,error,words",
    [
        ("os.kill(os.getpid(), 9)", ProgramKilled, "killed"),
        ("os.write(2, b'# why: too little\\n# safetynet: memory\\n'); os._exit(7)", SafetyNetError, "memory"),
        ("os.write(2, b'1 step 0: retired\\n# safetynet: sink\\n'); os._exit(5)", SafetyNetError, "sink"),
        ("os.write(2, b'half'); os._exit(3)", ReportError, "report"),
        ("os._exit(0)", ReportError, "report"),
        ("os.write(2, b'1 step 0: retired\\nevents 1\\n'); os._exit(0)", ReportError, "report"),
        ("os.close(2); os.close(0); time.sleep(60)", ProgramTimeout, "timeout"),
        ("time.sleep(60)", ProgramTimeout, "timeout"),
        ("[os.write(2, b'more and more\\n') for _ in iter(int, 1)]", ProgramTimeout, "timeout"),
        ("[os.write(1, b'more and more\\n') for _ in iter(int, 1)]", ProgramTimeout, "timeout"),
    ],
)
def test_a_process_that_ends_or_hangs_is_told(answering: Make, tmp_path: Path, ends: str, error: "type[SafetyNetError]", words: str) -> None:
    turn = tmp_path / "turn"
    fake = answering(f"import time\ndef answer(number, line):\n    if os.path.exists({str(turn)!r}):\n        {ends}\n    return b'1 step 0: retired\\n'\n")
    machine = Machine(COUNT, command=fake)
    process = process_of(machine)
    is_impatient(machine)
    turn.touch()
    with pytest.raises(error) as found:
        machine.step(0)
    assert found.value.words == words and not alive(process)
    turn.unlink()
    assert machine.mark() == 0 and machine.step(0).name == "retired"


def test_a_process_that_takes_no_more_lines_is_told(answering: Make) -> None:
    # its input is closed, and it is there still: the answer never comes
    machine = Machine(COUNT, command=answering("def answer(number, line):\n    os.close(0)\n    import time; time.sleep(60)\n"))
    is_impatient(machine)
    with pytest.raises(ProgramTimeout, match="didn't answer within 0.5 s"):
        machine.apply_all(["step 0"] * 100_000)


@pytest.mark.parametrize("last,status", [("", 0), ("# why: it is full\n# safetynet: budget\n", 6)], ids=["done", "budget"])
def test_a_million_events_are_too_many(answering: Make, last: str, status: int) -> None:
    said = f"toomany\nevents 1\npoint 0\n{last}".encode()
    full = f"    if line == 'step 1':\n        os.write(2, {said!r}); os._exit({status})\n"
    machine = Machine(COUNT, command=answering(RETIRES.replace("line):\n", "line):\n" + full, 1)))
    machine.step(0)
    with pytest.raises(ValueError, match="^step 1: script toomany"):
        machine.step(1)
    assert machine.mark() == 1 and machine.step(0).place == 2


@pytest.mark.parametrize(
    "lines,status,words",
    [
        ("printf '# why: the file is empty\\n# safetynet: program empty\\n' >&2; exit 3", 3, "program empty"),
        ("printf '# why: --nodes 17: a machine has 1 to 16 nodes\\n# safetynet: usage\\n' >&2; exit 1", 1, "usage"),
        ("kill -SEGV $$", -11, "killed"),
        ("exit 0", 0, "report"),
    ],
)
def test_a_process_that_does_not_begin_is_told(made: Make, lines: str, status: int, words: str) -> None:
    with pytest.raises(SafetyNetError) as found:
        Machine(COUNT, command=made(lines))
    assert (found.value.status, found.value.words) == (status, words)


def test_a_program_that_cannot_be_started_is_told(tmp_path: Path) -> None:
    file = tmp_path / "file"
    file.write_text("#!/nowhere/shell\n")
    file.chmod(0o755)
    with pytest.raises(ProgramMissing):
        Machine(COUNT, command=file)


def test_a_process_ends_with_its_machine() -> None:
    machine = Machine(COUNT, nodes=2)
    first = process_of(machine)
    machine.step(0)
    machine.close()
    machine.close()
    assert not alive(first) and machine.summary().events == 1
    machine = Machine(COUNT, nodes=2)
    second = process_of(machine)
    machine.step(0)
    machine.back(0)
    assert alive(second) and machine.step(1).place == 1 and process_of(machine) == second
    machine.summary()
    assert not alive(second)
    machine.step(0)
    third = process_of(machine)
    del machine
    gc.collect()
    assert not alive(third)


def test_a_process_ends_with_python() -> None:
    lines = "from safetynet import Machine; m = Machine([0x73]); m.step(0); print(m._backend._drive._process.pid, flush=True); "
    for ends in ("", "import os; os.kill(os.getpid(), 9)", "raise SystemExit(3)"):
        given = subprocess.run([sys.executable, "-c", lines + ends], env=with_package(), capture_output=True, text=True, timeout=60)
        for _ in range(100):
            if not alive(int(given.stdout)):
                break
            time.sleep(0.1)
        assert not alive(int(given.stdout)), ends


def with_package() -> "dict[str, str]":
    return {**os.environ, "PYTHONPATH": str(CHECKOUT / "python"), "SAFETYNET": PROGRAM}


def test_a_machine_that_ends_waits_for_no_process(answering: Make) -> None:
    # it doesn't end as its input ends
    fake = answering(RETIRES + "\nimport atexit, time\natexit.register(time.sleep, 60)\n")
    with Machine(COUNT, command=fake) as machine:
        machine.step(0)
        process = process_of(machine)
    assert not alive(process)
    with pytest.raises(ValueError, match="closed"):
        machine.summary()


def test_an_interrupt_ends_the_question_and_the_process(answering: Make, tmp_path: Path) -> None:
    fake = answering("import time\ndef answer(number, line):\n    time.sleep(0 if line == 'step 1' else 60)\n    return b'1 step 1: retired\\n'\n")
    file = tmp_path / "asks.py"
    file.write_text(
        "import os, signal, sys\nfrom safetynet import Machine\nsignal.signal(signal.SIGINT, signal.default_int_handler)\n"
        f"machine = Machine({str(COUNT)!r}, command={fake!r})\nprint(machine._backend._drive._process.pid, flush=True)\n"
        "try:\n    machine.step(0)\nexcept KeyboardInterrupt:\n    print('interrupted', machine.mark(), machine.step(1).place, flush=True)\n"
    )
    asks = subprocess.Popen([sys.executable, str(file)], env=with_package(), stdout=subprocess.PIPE, text=True)
    assert asks.stdout is not None
    process = int(asks.stdout.readline())
    time.sleep(0.3)
    asks.send_signal(signal.SIGINT)
    said, _ = asks.communicate(timeout=20)
    assert said == "interrupted 0 1\n" and asks.returncode == 0 and not alive(process)


# Several machines.


def test_an_interrupt_of_the_terminal_is_not_the_program_s() -> None:
    with Machine(COUNT, nodes=2) as machine:
        assert os.getpgid(process_of(machine)) != os.getpgid(0)


def test_there_are_never_more_processes_than_so_many() -> None:
    first = Machine(COUNT, nodes=2)
    machines: List[Machine] = [first, *(first.fork() for _ in range(2 * MOST_PROCESSES))]
    for turn in range(2):
        for machine in machines:
            machine.step(0)
        kept = [machine for machine in machines if machine._backend._drive is not None]  # type: ignore[attr-defined]
        assert len(kept) <= MOST_PROCESSES and kept[-1] is machines[-1]
    assert all(machine.script() == "step 0\n" * 2 and machine.answers[1].name for machine in machines)


def test_nothing_is_left_of_machines_that_went() -> None:
    def files() -> int:
        return len(os.listdir("/proc/self/fd"))

    with Machine(COUNT, nodes=2) as machine:
        before = files()
        for turn in range(30):
            other = machine.fork()
            other.step(0)
            if turn % 3 == 0:
                other.close()
            elif turn % 3 == 1:
                other.back(0)
                other.summary()
        del other
        gc.collect()
        assert files() == before and machine.step(0).place == 1


def test_threads_have_machines_of_their_own() -> None:
    errors: List[BaseException] = []

    def drives(seed: int) -> None:
        try:
            # more than there are processes, so that each ends others' again and again
            machines = [Machine(COUNT, nodes=2) for _ in range(MOST_PROCESSES // 2)]
            for turn in range(3):
                for machine in machines:
                    assert machine.step(seed % 2).place == turn + 1
        except BaseException as error:
            errors.append(error)

    threads = [threading.Thread(target=drives, args=(seed,)) for seed in range(4)]
    for thread in threads:
        thread.start()
    for thread in threads:
        thread.join()
    assert not errors


def test_a_machine_goes_between_processes() -> None:
    with Machine(COUNT, nodes=2) as machine:
        machine.apply_all(["step 0"] * 5)
        for other in (pickle.loads(pickle.dumps(machine)), copy.deepcopy(machine), copy.copy(machine)):
            assert other.answers == machine.answers and other.step(1) == machine.fork().step(1)
            assert process_of(other) != process_of(machine)


def test_a_process_that_was_forked_has_a_machine_of_its_own() -> None:
    with Machine(COUNT, nodes=2) as machine:
        machine.step(0)
        ours = process_of(machine)
        child = os.fork()
        if child == 0:
            try:
                is_so = machine.step(1).place == 2 and process_of(machine) != ours
                machine.close()
                os._exit(0 if is_so else 1)
            finally:
                os._exit(2)
        assert os.waitstatus_to_exitcode(os.waitpid(child, 0)[1]) == 0
        assert alive(ours) and process_of(machine) == ours and machine.step(0).place == 2


# Over the real program.


@pytest.mark.parametrize("stored", STORED, ids=NAMES)
def test_a_stored_run_comes_out_line_by_line(stored: Stored) -> None:
    sizes = {name: value for name, value in stored.options.items() if name != "watch"}
    report = parse_report(stored.report)
    with Machine(stored.program, **sizes) as machine:
        for answer in report.answers:
            foreseen = machine.foresee(answer.event)
            assert (foreseen.name, foreseen.fields) == (answer.name, answer.fields)
            given = machine.apply(answer.event)
            assert str(given) == str(answer) or answer.watches
    assert machine.console == stored.console
    if "watch" not in stored.options:
        assert str(ReplayReport(machine.answers, machine.summary())) == stored.report


def test_many_events_by_one_question() -> None:
    with Machine(COUNT, nodes=2) as machine:
        answers = machine.apply_all(Step(number % 2) for number in range(60_000))
        assert len(answers) == 60_000 and answers[-1].place == 60_000
        machine.back(59_999)
        assert machine.step(1) == answers[-1]
