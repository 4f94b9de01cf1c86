"""How `drive` ends, and what it is given at its limits: lines, ends of the input, pipes that close, signals, and too many events."""
import os
import re
import signal
import subprocess
import time
from pathlib import Path
from typing import Any, Callable, List, Tuple

from driven import LONGEST, Driven, Outcome, called, driven

LINE_MOST = 1 << 20
EVENTS = 1_000_000
# A core that puts a byte out again and again, with two steps for each; one that puts nothing out; and what a core does first.
LOUD = "04100513\n00100893\n00000073\nffdff06f\n"
SPIN = "0000006f\n"
FIRST = b"step 0\nstep 0\n"

Must = Callable[[str, Path], None]


def put_program(folder: Path, text: str = SPIN) -> List[str]:
    """Writes a program, and gives the words that load it on one node."""
    Path(folder, "program").write_text(text)
    return ["--nodes", "1", "program"]


def released(number: int) -> bytes:
    """The events of checkpoint 1, 2 and so on, which release a byte."""
    return b"step 0\nstep 0\nedge 0\nreport 0\ndeliver %d\nvalidate\ndeliver %d\n" % (2 * number - 1, 2 * number)


def report_of(built: str, folder: Path, events: bytes) -> bytes:
    """The report of a replay."""
    Path(folder, "events.script").write_bytes(events)
    return called(built, ["replay", *put_program(folder), "events.script"], folder).report


def gives(built: str, folder: Path, text: bytes, events: bytes, refused: bytes) -> None:
    """A text is answered by a replay of these events, with these refusals before its summary."""
    found = driven(built, put_program(folder), folder, text)
    report = report_of(built, folder, events)
    place = report.index(b"events ")
    assert found == Outcome(0, b"", report[:place] + refused + report[place:]), (found.status, found.report[-300:])


def no_input(built: str, folder: Path) -> None:
    gives(built, folder, b"", b"", b"")


def no_line_end(built: str, folder: Path) -> None:
    gives(built, folder, b"step 0\nstep 0", b"step 0\nstep 0\n", b"")
    gives(built, folder, b"step 0\nstep 0\r", b"step 0\n", b"badline 2\n")
    gives(built, folder, b"step 0\nstep", b"step 0\n", b"badline 2\n")
    gives(built, folder, b"step 0\n#", b"step 0\n", b"")


def strange_bytes(built: str, folder: Path) -> None:
    gives(built, folder, b"step 0\n\0\n", b"step 0\n", b"badline 2\n")
    gives(built, folder, bytes(range(256)).replace(b"\n", b"") + b"\n", b"", b"badline 1\n")
    gives(built, folder, b"step 0\n" + b"\0" * 5_000_000, b"step 0\n", b"badline 2\n")


def longest_lines(built: str, folder: Path) -> None:
    """A comment of the greatest length is one; a byte more, and the line is none, wherever its end stands."""
    for size in (LINE_MOST - 1, LINE_MOST):
        gives(built, folder, b"#" * size + b"\nstep 9\n", b"", b"outofrange 2\n")
        gives(built, folder, b"#" * size + b"\r\nstep 9\r\n", b"", b"outofrange 2\n")
        gives(built, folder, b"#" * size, b"", b"")
    for size in (LINE_MOST + 1, LINE_MOST + 2, 40 * LINE_MOST):
        gives(built, folder, b"#" * size + b"\nstep 9\n", b"", b"badline 1\noutofrange 2\n")
        gives(built, folder, b"#" * size, b"", b"badline 1\n")
    gives(built, folder, b"step " + b"7" * 1_000_000 + b"\n", b"", b"badline 1\n")
    gives(built, folder, b"step 0\n\n" + b"s" * 1_000_000 + b"\nstep 1", b"step 0\n", b"badline 3\noutofrange 4\n")


def long_line_in_pieces(built: str, folder: Path) -> None:
    """A line that comes slowly and never ends is waited for, and no line is answered before its end is there."""
    with Driven(built, put_program(folder), folder) as it:
        it.give(b"ste")
        time.sleep(0.2)
        assert not it.report
        it.give(b"p 0\nst")
        it.read(1)
        time.sleep(0.2)
        assert it.report == b"1 step 0: retired\n", it.report
        assert it.end().report.startswith(b"1 step 0: retired\nbadline 2\nevents 1\n")


def too_many_events(built: str, folder: Path) -> None:
    """After a million events one more ends it, and what stands behind that isn't read; other lines are still answered before it."""
    events = b"validate\n" * EVENTS
    report = report_of(built, folder, events)
    place = report.rindex(b"\nevents ") + 1
    with Driven(built, put_program(folder), folder) as it:
        it.give(events + b"?\nforesee step 0\nstep 0\nstep 0\nstep 0\n")
        found = it.ended()
    said = b"badline %d\n%d step 0: retired\ntoomany\n" % (EVENTS + 1, EVENTS + 1)
    # it ends as a run does that has spent its budget
    told = b"".join(line for line in found.report.splitlines(keepends=True) if not line.startswith(b"# "))
    why = b"\n# why: the drive has 1000000 events, and there is room for no more\n# safetynet: budget\n"
    assert found.status == 6 and found.report.endswith(why), (found.status, found.report[-300:])
    assert told == report[:place] + said + report[place:], found.report[-300:]


def closed_outputs(built: str, folder: Path) -> None:
    """Where nobody reads the console or the report, it ends as soon as it has something to put there."""
    for closed in ("stdout", "stderr"):
        with Driven(built, put_program(folder, LOUD), folder) as it:
            pipe = getattr(it.process, closed)
            del it.open[pipe.fileno()]
            pipe.close()
            it.give(FIRST + b"".join(map(released, range(1, 2000))))
            found = it.ended()
        assert found.status == 5, found.status
        assert closed == "stderr" or found.report.endswith(b"\n# safetynet: sink\n"), found.report[-200:]


def full_outputs(built: str, folder: Path) -> None:
    """A full disk is told."""
    for which in (1, 2):
        with open("/dev/full", "wb") as full:
            outputs: List[Any] = [full if which == number else subprocess.PIPE for number in (1, 2)]
            text = FIRST + released(1)
            words = [built, "drive", *put_program(folder, LOUD)]
            done = subprocess.run(words, cwd=folder, input=text, stdout=outputs[0], stderr=outputs[1], timeout=LONGEST)
        assert done.returncode == 5, done.returncode
        assert which == 2 or done.stderr.endswith(b"# safetynet: sink\n"), done.stderr[-200:]


def outputs_that_nobody_reads(built: str, folder: Path) -> None:
    """Full pipes hold it up, and it goes on where it stood once they are read."""
    text = b"step 0\n" * 200_000
    with Driven(built, put_program(folder), folder) as it:
        written = 0
        while written < len(text):
            try:
                written += os.write(it.stdin, text[written : written + 4096])
            except BlockingIOError:
                time.sleep(0.3)
                try:
                    written += os.write(it.stdin, text[written : written + 4096])
                except BlockingIOError:
                    break
        assert written < len(text), "it took all lines, and nobody read their answers"
        it.give(text[written:])
        found = it.end()
    assert found.status == 0 and found.report == report_of(built, folder, text)


def input_that_cannot_be_read(built: str, folder: Path) -> None:
    """A folder as standard input, and none at all: it ends, and says that it isn't done."""
    words = [built, "drive", *put_program(folder)]
    place = os.open(folder, os.O_RDONLY)
    try:
        done = subprocess.run(words, cwd=folder, stdin=place, capture_output=True, timeout=LONGEST)
    finally:
        os.close(place)
    shut = subprocess.run(["sh", "-c", 'exec "$@" <&-', "sh", *words], cwd=folder, capture_output=True, timeout=LONGEST)
    for it in (done, shut):
        assert it.returncode == 14 and it.stderr.endswith(b"\n# safetynet: input\n"), (it.returncode, it.stderr[-300:])


def interrupted(built: str, folder: Path) -> None:
    """A signal ends it: while it waits for a line, within a line, and while it answers many."""
    for text in (b"", b"step", b"step 0\n" * 300_000):
        for number in (signal.SIGINT, signal.SIGTERM):
            with Driven(built, put_program(folder), folder) as it:
                it.give(b"step 0\n")
                it.read(1)
                it.give(text[:60_000])
                it.process.send_signal(number)
                found = it.ended()
            assert found.status in (-number, 128 + number), found.status
            assert found.report.startswith(b"1 step 0: retired\n")


def shared_input(built: str, folder: Path) -> None:
    """Two on one input: each answers what it gets of that, and both end."""
    words = [built, "drive", *put_program(folder)]
    inside, outside = os.pipe()
    both = [subprocess.Popen(words, cwd=folder, stdin=inside, stdout=subprocess.PIPE, stderr=subprocess.PIPE) for _ in range(2)]
    os.close(inside)
    try:
        with open(outside, "wb", buffering=0) as text:
            for _ in range(500):
                text.write(b"step 0\n")
        reports = [it.communicate(timeout=LONGEST)[1] for it in both]
    finally:
        for it in both:
            it.kill()
    told = [re.search(rb"^events (\d+)$", report, re.M) for report in reports]
    events = [int(it[1]) for it in told if it]
    assert [it.returncode for it in both] == [0, 0] and len(events) == 2 and sum(events) <= 500, (events, reports[0][-300:])
    for count, report in zip(events, reports):
        # a line that came in two parts may have gone to both
        own = b"".join(line for line in report.splitlines(keepends=True) if not line.startswith(b"badline "))
        assert own == report_of(built, folder, b"step 0\n" * count), own[-300:]


def refused_words(built: str, folder: Path) -> None:
    """What is refused is so before a line is read: nothing waits for the input."""
    put_program(folder)
    Path(folder, "bad").write_text("hello\n")
    calls: List[Tuple[List[str], int]] = [([], 1), (["program", "program"], 1), (["--nodes", "17", "program"], 1), (["--seed", "1", "program"], 1),
                                          (["--trace", "program"], 1), (["lacking"], 2), (["bad"], 3)]
    for words, status in calls:
        with Driven(built, words, folder) as it:
            found = it.ended()
        lines = found.report.splitlines()
        assert found.status == status and found.console == b"" and len(lines) == 2, (words, found)
        assert lines[0].startswith(b"# why: ") and lines[1].startswith(b"# safetynet: "), found.report


def nothing_is_left_unflushed(built: str, folder: Path) -> None:
    """What a validation releases is there before its answer is."""
    with Driven(built, put_program(folder, LOUD), folder) as it:
        it.give(FIRST)
        for number in range(1, 40):
            it.give(released(number))
            while b": validated %d\n" % number not in it.report:
                it.read(len(it.report) + 1)
            it.read(0, number)
            assert len(it.console) == number, (number, len(it.console))
        assert it.end().console == b"A" * 39


def outputs_in_one_pipe(built: str, folder: Path) -> None:
    """Where one pipe takes both outputs, each byte of the console stands before the answer of the event that released it, though all lines come together."""
    events = FIRST + b"".join(map(released, range(1, 40)))
    Path(folder, "events.script").write_bytes(events)
    words = put_program(folder, LOUD)
    report = called(built, ["replay", *words, "events.script"], folder).report
    done = subprocess.run([built, "drive", *words], cwd=folder, input=events, stdout=subprocess.PIPE, stderr=subprocess.STDOUT, timeout=LONGEST)
    wanted = re.sub(rb"(?m)^(?=\d+ validate: validated )", b"A", report)
    assert done.returncode == 0 and done.stdout == wanted, (done.returncode, done.stdout[:300])


ENDS: List[Tuple[str, Must]] = [
    ("no input", no_input),
    ("no line end", no_line_end),
    ("strange bytes", strange_bytes),
    ("the longest lines", longest_lines),
    ("a long line in pieces", long_line_in_pieces),
    ("too many events", too_many_events),
    ("closed outputs", closed_outputs),
    ("full outputs", full_outputs),
    ("outputs that nobody reads", outputs_that_nobody_reads),
    ("an input that can't be read", input_that_cannot_be_read),
    ("signals", interrupted),
    ("two on one input", shared_input),
    ("words and files that are refused", refused_words),
    ("nothing is left unflushed", nothing_is_left_unflushed),
    ("outputs in one pipe", outputs_in_one_pipe),
]
