"""The program's commands as functions: replay, accesses, run, runs, check, judge, assemble, disassemble, demo.

Each is one call of the program. A program is a path, bytes (a file's content) or a list of words; `command` says where `safetynet` is
(`safetynet.program.find_program`), `timeout` is the time limit in seconds. All of them raise `SafetyNetError` where the program refuses its words
or files, and the errors of `safetynet.program.call`.
"""
from __future__ import annotations

import os
import re
from dataclasses import replace
from typing import List, Optional, Pattern, Sequence, Tuple, Union

from .access import Access, parse_accesses
from .backends import Loaded
from .errors import ReportError
from .files import Files, ProgramLike, ScriptLike, TraceLike, options, program_bytes, watch_option
from .journal import Journal
from .program import DEFAULT_TIMEOUT, Called, PathLike, call, find_program
from .report import Summary, parse_report, parse_summary, parted_summary
from .results import Replay, Run, Verdict
from .statistics import parted_statistics
from .trace import Trace

_LEGAL = re.compile(r"legal (0|[1-9][0-9]*)\n")
# The verdict on a trace, and that on accesses, whose second line says why.
_REFUSED = re.compile(r"refused ([1-9][0-9]*)\n()")
_REFUSED_ACCESS = re.compile(r"refused ([1-9][0-9]*)\n((?:expected (?:[0-9a-f]{2}|[0-9a-f]{4}|[0-9a-f]{8})|unreserved) since (?:0|[1-9][0-9]*))\n")
_WORD = re.compile(r"[0-9a-f]{8}")
_SWITCH_AT = re.compile(r"[ab](0|[1-9][0-9]*)@(0|[1-9][0-9]*)")
# The statuses with which a run's report is whole: done, its budget spent, two nodes cut off, a core trapped.
_RUN_ENDS = (0, 6, 8, 10)
_ENDS = {"done": 0, "budget": 6, "cutoff": 8, "trapped": 10}
_ORDERS = ("threads", "round", "drawn")


def read_traced(text: str) -> Tuple[Trace, Summary]:
    """The trace of a report with ``--trace``, and the summary below it.

    Raises
    ------
    ReportError
        It isn't such a report.
    """
    above, summary = parted_summary(text)
    try:
        trace = Trace.parse(above)
    except ValueError as error:
        raise ReportError(str(error)) from None
    if str(trace) != above or len(trace) != summary.committed:
        raise ReportError(f"the trace isn't one of {summary.committed} records, a line each")
    return trace, summary


def read_accesses(text: str) -> Tuple[Tuple[Access, ...], Summary]:
    """The accesses of a report with ``--accesses``, and the summary below them.

    Raises
    ------
    ReportError
        It isn't such a report.
    """
    above, summary = parted_summary(text)
    found = parse_accesses(above)
    if len(found) != summary.committed:
        raise ReportError(f"{len(found)} accesses aren't those of {summary.committed} records")
    return found, summary


def _done(words: Sequence[str], files: Files, command: Optional[PathLike], timeout: float) -> Called:
    """A call with these files that is done. SafetyNetError: the program refuses it."""
    called = call(words, files.contents, command=command, timeout=timeout)
    if called.status != 0:
        called.raise_refusal()
    return called


def replay(
    program: ProgramLike,
    script: ScriptLike,
    *,
    nodes: int = 4,
    sets: int = 16,
    ways: int = 4,
    log: int = 256,
    watch: Optional[int] = None,
    trace: bool = False,
    statistics: bool = False,
    command: Optional[PathLike] = None,
    timeout: float = DEFAULT_TIMEOUT,
) -> Replay:
    """Apply a script's events to a machine.

    Parameters
    ----------
    program : path, bytes or sequence of int
        The program that each core runs.
    script : path, bytes, or iterable of events or lines
        The events; of bytes the program judges each line, of events and lines this function does, before anything is called.
    nodes, sets, ways, log : int
        How many nodes, sets of each cache, lines of each set, and entries of each node's log.
    watch : int, optional
        The address of a word that is shown wherever cores are.
    trace : bool
        Whether to give the committed trace in place of the answers.
    statistics : bool
        Whether to count what the events come to: events, instructions and messages. Not with the trace.

    Raises
    ------
    ValueError
        A line or an event of the script is none, an option is no number, or both trace and statistics are asked for.
    SafetyNetError
        The program, the script or an option is refused.
    """
    if trace and statistics:
        raise ValueError("a replay gives its trace or its statistics, and not both")
    files = Files()
    sizes = options(nodes=nodes, sets=sets, ways=ways, log=log)
    words = ["replay", *sizes]
    words += [watch_option(watch)] if watch is not None else []
    words += ["--trace"] if trace else []
    words += ["--statistics"] if statistics else []
    words += [files.program(program), files.script(script)]
    called = _done(words, files, command, timeout)
    if trace:
        committed, summary = read_traced(called.report)
        return Replay((), summary, called.console, committed)
    text, counted = parted_statistics(called.report) if statistics else (called.report, None)
    report = parse_report(text)
    return Replay(report.answers, report.summary, called.console, None, counted, _origin(program, sizes, command, timeout))


def _origin(program: ProgramLike, sizes: Tuple[str, ...], command: Optional[PathLike], timeout: float) -> Optional[Loaded]:
    """The machine that was called, to draw what it did; None where its program has gone since."""
    try:
        return Loaded(program_bytes(program), sizes, find_program(command), timeout)
    except OSError:
        return None


def accesses(
    program: ProgramLike,
    script: ScriptLike,
    *,
    nodes: int = 4,
    sets: int = 16,
    ways: int = 4,
    log: int = 256,
    command: Optional[PathLike] = None,
    timeout: float = DEFAULT_TIMEOUT,
) -> Tuple[Access, ...]:
    """The committed trace of a replay with what an architect reads of it: each instruction, and what it reads and writes in memory.

    Parameters
    ----------
    program, script, nodes, sets, ways, log
        As of `replay`.

    Raises
    ------
    ValueError
        A line or an event of the script is none, or an option is no number.
    SafetyNetError
        The program, the script or an option is refused.
    """
    files = Files()
    words = ["replay", *options(nodes=nodes, sets=sets, ways=ways, log=log), "--accesses", files.program(program), files.script(script)]
    called = _done(words, files, command, timeout)
    return read_accesses(called.report)[0]


def run(
    program: ProgramLike,
    *,
    nodes: int = 4,
    sets: int = 16,
    ways: int = 4,
    log: int = 256,
    interval: int = 100,
    wait: int = 20_000,
    budget: int = 1_000_000,
    lose_every: int = 0,
    kill: Optional[str] = None,
    seed: int = 1,
    order: str = "threads",
    watch: Optional[int] = None,
    trace: bool = False,
    journal: bool = False,
    accesses: bool = False,
    statistics: bool = False,
    command: Optional[PathLike] = None,
    timeout: float = DEFAULT_TIMEOUT,
) -> Run:
    """Let a worker for each node pick the events, in a thread of its own or by turns.

    Parameters
    ----------
    program : path, bytes or sequence of int
        The program that each core runs.
    nodes, sets, ways, log : int
        The machine's sizes, as of `replay`.
    interval : int
        Instructions of a node between two checkpoints.
    wait : int
        Events without a validation before a recovery.
    budget : int
        How many events at most.
    lose_every : int
        One in so many moves of a message loses it; 0 for none.
    kill : str, optional
        A switch and after how many events it dies, as ``"a1@500"``.
    seed : int
        Of the numbers that workers draw, and of drawn turns.
    order : {"threads", "round", "drawn"}
        Who has the next turn. With ``"threads"`` the threads decide it, so two runs may differ; with the others the same call gives the same
        run.
    watch : int, optional
        The address of a word that the summary shows.
    trace, journal, accesses : bool
        Whether to give the committed trace, the journal, or the accesses of that trace; one of them at most.
    statistics : bool
        Whether to count what the events come to: events, instructions and messages.

    Raises
    ------
    ValueError
        An option has another form, or more than one of trace, journal and accesses is asked for.
    SafetyNetError
        The program or an option is refused. That the budget is spent, nodes are cut off or a core traps is no error: see `Run`.
    """
    given = [name for name, is_asked in (("trace", trace), ("journal", journal), ("accesses", accesses)) if is_asked]
    if len(given) > 1:
        raise ValueError(f"a run gives one of {' and '.join(given)}, and not more")
    files = Files()
    sizes = options(nodes=nodes, sets=sets, ways=ways, log=log)
    rules = options(interval=interval, wait=wait, budget=budget, lose_every=lose_every, seed=seed)
    words = ["run", *sizes, *rules, *_run_options(order, kill, watch, statistics)]
    words += [f"--{name}" for name in given]
    called = call([*words, files.program(program)], files.contents, command=command, timeout=timeout)
    if called.status not in _RUN_ENDS:
        called.raise_refusal()
    found = _run_of(called, given[0] if given else "", statistics)
    return replace(found, origin=_origin(program, sizes, command, timeout)) if journal else found


def _run_options(order: str, kill: Optional[str], watch: Optional[int], statistics: bool) -> List[str]:
    """The options of a run that aren't numbers. ValueError: one has another form."""
    if kill is not None and not (isinstance(kill, str) and _SWITCH_AT.fullmatch(kill)):
        raise ValueError(f"kill is a switch and a number of events, as a1@500, and not {kill!r}")
    if order not in _ORDERS:
        raise ValueError(f"an order is threads, round or drawn, and not {order!r}")
    words = [f"--order={order}"] if order != "threads" else []
    words += [f"--kill={kill}"] if kill is not None else []
    words += [watch_option(watch)] if watch is not None else []
    return words + (["--statistics"] if statistics else [])


def _run_of(called: Called, given: str, statistics: bool) -> Run:
    """The run of a call that was asked for its trace, its journal or its accesses, or for none of them."""
    text, counted = parted_statistics(called.report) if statistics else (called.report, None)
    committed, turns, found = None, None, None
    if given == "trace":
        committed, summary = read_traced(text)
    elif given == "accesses":
        found, summary = read_accesses(text)
    elif given == "journal":
        above, summary = parted_summary(text)
        try:
            turns = Journal.parse(above)
        except ValueError as error:
            raise ReportError(str(error)) from None
    else:
        summary = parse_summary(text)
    return Run(called.status, called.words, summary, called.console, turns, committed, called.why, counted, accesses=found)


def runs(
    program: ProgramLike,
    seeds: Sequence[int],
    *,
    nodes: int = 4,
    sets: int = 16,
    ways: int = 4,
    log: int = 256,
    interval: int = 100,
    wait: int = 20_000,
    budget: int = 1_000_000,
    lose_every: int = 0,
    kill: Optional[str] = None,
    order: str = "drawn",
    watch: Optional[int] = None,
    statistics: bool = False,
    command: Optional[PathLike] = None,
    timeout: float = DEFAULT_TIMEOUT,
) -> Tuple[Run, ...]:
    """Many runs by one call, each by a seed of its own and as `run` gives it alone; but without the probes' tallies.

    Parameters
    ----------
    program : path, bytes or sequence of int
        The program that each core runs.
    seeds : range or sequence of int
        Seeds one after another, as ``range(1, 101)``.
    nodes, sets, ways, log, interval, wait, budget, lose_every, kill, watch, statistics
        As of `run`.
    order : {"round", "drawn"}
        Who has the next turn.

    Raises
    ------
    ValueError
        An option has another form, or the seeds don't follow each other.
    SafetyNetError
        The program or an option is refused.
    """
    numbers = list(seeds)
    if not numbers or numbers != list(range(numbers[0], numbers[0] + len(numbers))):
        raise ValueError(f"seeds are numbers that follow each other, and not {seeds!r}")
    files = Files()
    sizes = options(nodes=nodes, sets=sets, ways=ways, log=log)
    rules = options(interval=interval, wait=wait, budget=budget, lose_every=lose_every)
    words = ["run", *sizes, *rules, *_run_options(order, kill, watch, statistics), f"--seeds={numbers[0]}-{numbers[-1]}"]
    called = _done([*words, files.program(program)], files, command, timeout)
    return _runs_of(called, numbers, statistics)


def _runs_of(called: Called, seeds: Sequence[int], statistics: bool) -> Tuple[Run, ...]:
    """The blocks of seeds, each with its part of what was put out."""
    blocks = re.split("^seed (.*)\n", called.report, flags=re.M)
    if blocks[0] != "" or blocks[1::2] != [str(seed) for seed in seeds]:
        raise ReportError(f"the report hasn't a block for each of the seeds {seeds[0]} to {seeds[-1]}")
    found: List[Run] = []
    place = 0
    for seed, block in zip(seeds, blocks[2::2]):
        text, _, words = block.rpartition("end ")
        status = _ENDS.get(words.split(" ")[0].strip())
        if not words.endswith("\n") or status is None:
            raise ReportError(f"the block of seed {seed} doesn't say how its run ended")
        text, counted = parted_statistics(text) if statistics else (text, None)
        summary = parse_summary(text)
        console = called.console[place : place + summary.released]
        place += summary.released
        found.append(Run(status, words[:-1], summary, console, statistics=counted, seed=seed))
    if place != len(called.console):
        raise ReportError(f"the runs released {place} bytes, and {len(called.console)} were put out")
    return tuple(found)


def check(
    program: ProgramLike,
    trace: TraceLike,
    *,
    nodes: int = 4,
    command: Optional[PathLike] = None,
    timeout: float = DEFAULT_TIMEOUT,
) -> Verdict:
    """Judge whether a trace is an execution of the program on one memory, without faults.

    Parameters
    ----------
    program : path, bytes or sequence of int
        The program.
    trace : path, bytes or Trace
        The instructions in their order.
    nodes : int
        On how many nodes it ran.

    Raises
    ------
    SafetyNetError
        The program, or the trace's form, is refused. That the trace is no execution is a `Verdict`.
    """
    files = Files()
    words = ["check", *options(nodes=nodes), files.program(program), files.trace(trace)]
    return _verdict_of(call(words, files.contents, command=command, timeout=timeout), _REFUSED)


def _verdict_of(called: Called, refusal: Pattern[str]) -> Verdict:
    """The verdict of a call, whose report has this form where it isn't legal; the form's second part says why, if the program says no more."""
    legal, refused = _LEGAL.fullmatch(called.report), refusal.fullmatch(called.report)
    if called.status == 0 and legal:
        return Verdict(True, records=int(legal[1]))
    if called.status == 9 and refused and called.words == f"refused {refused[1]}":
        return Verdict(False, place=int(refused[1]), why=called.why or refused[2] or None)
    if called.status in (0, 9):
        raise ReportError("it is no verdict", 1, called.report.split("\n")[0], called.status)
    called.raise_refusal()


def judge(accesses: Union[PathLike, bytes], *, command: Optional[PathLike] = None, timeout: float = DEFAULT_TIMEOUT) -> Verdict:
    """Judge accesses to memory by themselves, without a program.

    Parameters
    ----------
    accesses : path or bytes
        One access a line, as ``1 r 80001000 4 0000002a``.

    Raises
    ------
    SafetyNetError
        The list's form is refused. That an access isn't legal is a `Verdict`, whose `why` begins with ``expected`` or ``unreserved`` only where
        the program says no more.
    """
    files = Files()
    called = call(["judge", files.named("accesses", accesses)], files.contents, command=command, timeout=timeout)
    return _verdict_of(called, _REFUSED_ACCESS)


def assemble(
    text: Union[str, bytes, "os.PathLike[str]"], *, command: Optional[PathLike] = None, timeout: float = DEFAULT_TIMEOUT
) -> List[int]:
    """The words of a text in assembly language, which every function here takes as a program.

    Parameters
    ----------
    text : str, bytes or pathlib.Path
        The text itself, or the path of its file; a str is always the text.

    Raises
    ------
    SafetyNetError
        The text is refused, with words like ``"asm badline"``.
    """
    files = Files()
    given = text.encode("utf-8", "surrogateescape") if isinstance(text, str) else text
    called = _done(["asm", files.named("text", given)], files, command, timeout)
    words = []
    for number, line in enumerate(called.console.decode("ascii", "replace").splitlines(), 1):
        if not _WORD.fullmatch(line):
            raise ReportError("it is no word of eight hexadecimal digits", number, line)
        words.append(int(line, 16))
    return words


def disassemble(program: ProgramLike, *, command: Optional[PathLike] = None, timeout: float = DEFAULT_TIMEOUT) -> str:
    """The executable words of a program as lines of assembly language, which `assemble` takes.

    Raises
    ------
    SafetyNetError
        The program is refused.
    """
    files = Files()
    called = _done(["dis", files.program(program)], files, command, timeout)
    return called.console.decode("ascii")


def demo(size: int, *, command: Optional[PathLike] = None, timeout: float = DEFAULT_TIMEOUT) -> Run:
    """Run the program's own demonstration: four nodes add to one word, with a loss and a recovery now and then.

    Parameters
    ----------
    size : int
        How many events, 1 to 1,000,000. One size gives one run.

    Raises
    ------
    ValueError
        The size is no number.
    SafetyNetError
        The size is refused.
    """
    options(size=size)
    return _run_of(_done(["demo", str(size)], Files(), command, timeout), "", False)
