"""A machine that is driven event by event.

A process of `safetynet drive` keeps it, so that an event costs the same however many there were. What that doesn't tell is asked by a replay of the events so
far: the committed trace, a word, statistics. A program that has no such command is asked by replays alone. Which of the two it is, `safetynet.backends`
finds out; here nothing depends on it.
"""
from __future__ import annotations

import html
from dataclasses import replace
from typing import Any, Dict, Iterable, List, Optional, Tuple, Type

from . import states
from .access import Access
from .backends import Backend, Loaded, Now, Past, begun
from .calls import read_accesses, read_traced
from .errors import ReportError, SafetyNetError
from .events import Deliver, Edge, Event, EventLike, Evict, Hop, Input, Kill, Lose, Recover, Report, Step, Validate, event_of
from .files import ProgramLike, options, program_bytes, watch_option
from .notebook import table_of
from .program import DEFAULT_TIMEOUT, Called, PathLike, find_program
from .report import Answer, Foreseen, Summary, parse_summary
from .states import CoreState, Flight, Home, NodeState, State
from .statistics import Statistics, parted_statistics
from .trace import Trace

# The blocks of memory.
_BLOCKS = 65536


class Machine:
    """A machine, its program loaded and every core at the program's entry.

    Parameters
    ----------
    program : path, bytes or sequence of int
        The program that each core runs. A file is read now; what becomes of it later changes nothing.
    nodes, sets, ways, log : int
        How many nodes, sets of each cache, lines of each set, and entries of each node's log.
    command : path, optional
        Where `safetynet` is (`safetynet.program.find_program`), looked up now.
    timeout : float
        The time limit of a call in seconds.

    Raises
    ------
    SafetyNetError
        The program or a size is refused, or `safetynet` isn't there.
    OSError
        The program's file can't be read.
    ValueError
        A size is no number.

    Notes
    -----
    An error of a question leaves the machine as it was; if its process has gone or was killed, the next question begins another. Every method that
    applies events raises `ValueError` for what isn't an event, or names a node, a block or a switch that isn't there, or would be the 1,000,001st.
    The process ends with the machine: as it is closed, as nobody has it any more, or as Python ends. At most 16 processes keep machines at once
    (`safetynet.backends.MOST_PROCESSES`); the machine that was asked longest ago is asked by another process then. A machine may be pickled, copied
    deeply, and used by a process that ``os.fork`` made; it begins a process of its own there. Two threads may use two machines, but not one.
    """

    def __init__(
        self,
        program: ProgramLike,
        nodes: int = 4,
        sets: int = 16,
        ways: int = 4,
        log: int = 256,
        *,
        command: Optional[PathLike] = None,
        timeout: float = DEFAULT_TIMEOUT,
    ) -> None:
        loaded = Loaded(program_bytes(program), options(nodes=nodes, sets=sets, ways=ways, log=log), find_program(command), timeout)
        self._loaded = loaded
        self._nodes = nodes
        self._past = Past()
        self._is_closed = False
        self._backend, now = begun(loaded)
        self._forget(now)

    def _forget(self, now: Optional[Now] = None) -> None:
        """Drop what is known of the machine as it stood, and know this of it as it stands."""
        self._now = now
        self._traced: Optional[Trace] = None
        self._state: Optional[State] = None
        self._statistics: Optional[Statistics] = None
        self._words: Dict[int, int] = {}

    @property
    def _asked(self) -> Backend:
        """What answers questions."""
        if self._is_closed:
            raise ValueError("this machine is closed")
        return self._backend

    def _replayed(self, *more: str) -> Called:
        """A replay of the events so far, with more words."""
        self._asked
        called = self._loaded.replayed(self._past.script(), *more)
        if called.status != 0:
            called.raise_refusal()
        return called

    def _knows(self, summary: Summary, console: bytes) -> None:
        """Keep what a replay said at its end; words that were watched are no part of it."""
        self._now = Now(replace(summary, watches=()), console)

    # Events.

    def apply(self, event: EventLike) -> Answer:
        """Apply an event, or the event that a script's line says, and give its answer."""
        return self._take([event_of(event)])[0]

    def apply_all(self, events: Iterable[EventLike]) -> Tuple[Answer, ...]:
        """Apply events by one question, and give their answers: all are applied, or none where one is refused."""
        return self._take([event_of(event) for event in events])

    def _take(self, events: List[Event]) -> Tuple[Answer, ...]:
        """Go on to where these events lead."""
        growth = self._asked.grown(self._past, events)
        if growth.answers:
            self._past.take(growth.answers)
            self._forget(growth.now)
        return growth.answers

    def foresee(self, event: EventLike) -> Foreseen:
        """The answer that an event would get, its name and numbers. The machine stays. What the event would send, ``fork().apply(event)`` tells."""
        return self._asked.foreseen(self._past, event_of(event))

    def due(self, worker: int, pick: int) -> Optional[Event]:
        """The event that `run` would apply as the next one, by its rules' defaults and after the events so far. The machine stays.

        Parameters
        ----------
        worker : int
            The worker whose turn it is: the number of its node.
        pick : int
            The number that it draws for this turn, from 0 to 2**32 - 1, which chooses among the events that are due.

        Returns
        -------
        Event or None
            None where a run has come to its end.

        Raises
        ------
        ValueError
            There is no such worker, or the number is none.
        SafetyNetError
            The program is older than this question.
        """
        told = self._asked.look(self._past, f"due {_checked(worker, self._nodes, 'worker')} {_checked(pick, 2**32, 'pick')}")
        if told is None:
            raise SafetyNetError(1, "usage", "due: this program is older than the question")
        return states.due_event(told)

    def step(self, node: int) -> Answer:
        """Let the core of a node do one instruction."""
        return self.apply(Step(node))

    def evict(self, node: int, block: int) -> Answer:
        """Let the cache of a node give up a block: the 64 bytes from 80000000 + 64 * block on."""
        return self.apply(Evict(node, block))

    def edge(self, node: int) -> Answer:
        """Let a node take a checkpoint and begin its next interval."""
        return self.apply(Edge(node))

    def hop(self, id: int) -> Answer:
        """Let a message, named by its number, go on to its next switch."""
        return self.apply(Hop(id))

    def deliver(self, id: int) -> Answer:
        """Let a message be taken by its receiver, where it stands there."""
        return self.apply(Deliver(id))

    def lose(self, id: int) -> Answer:
        """Lose a message."""
        return self.apply(Lose(id))

    def kill(self, switch: str) -> Answer:
        """Let a switch die: ``"a0"`` or ``"b0"`` of node 0."""
        return self.apply(Kill(switch))

    def report(self, node: int) -> Answer:
        """Let a node tell up to which checkpoint it has completed everything."""
        return self.apply(Report(node))

    def validate(self) -> Answer:
        """Raise the recovery point by one checkpoint, where every node is ready."""
        return self.apply(Validate())

    def recover(self) -> Answer:
        """Go back to the recovery point."""
        return self.apply(Recover())

    def input(self, node: int, byte: int) -> Answer:
        """Give a core a byte of input, 0 to 255."""
        return self.apply(Input(node, byte))

    # Going back, and beside.

    def mark(self) -> int:
        """How many events were applied: what `back` takes to come here again."""
        return len(self._past)

    def back(self, mark: int) -> None:
        """Go back to the machine after its first events, so many as `mark` said; what later events put out is no part of `console` any more.

        It asks nothing: the process goes back with the next question, in at most the time that a replay of these events takes. Where the program
        can't go back, the next question begins another process.

        Parameters
        ----------
        mark : int
            A number of events, from 0 to as many as there were.

        Raises
        ------
        ValueError
            There weren't so many events.
        """
        if isinstance(mark, bool) or not isinstance(mark, int) or not 0 <= mark <= len(self._past):
            raise ValueError(f"a mark is a number from 0 to {len(self._past)}, and not {mark!r}")
        if mark < len(self._past):
            self._past.cut(mark)
            self._backend.back()
            self._forget()

    def fork(self) -> "Machine":
        """Another machine that stands where this one does, by a process of its own; neither changes the other.

        It asks nothing. The other's first question begins its process, about 20 ms, and gives it the events of `script`, which takes what a replay
        of them does and is compared with the answers that are known. To look ahead and come back, `mark` and `back` cost less.

        Returns
        -------
        Machine
            It is closed by itself.
        """
        backend = self._asked.fork()
        other = type(self).__new__(type(self))
        other.__dict__.update(self.__dict__)
        # what is known of this point holds for both; a machine that goes on drops it
        other._backend, other._past, other._words = backend, self._past.copy(), dict(self._words)
        return other

    def __copy__(self) -> "Machine":
        return self.fork()

    # What there is to see.

    @property
    def nodes(self) -> int:
        """How many nodes it has."""
        return self._nodes

    @property
    def answers(self) -> Tuple[Answer, ...]:
        """The answers so far."""
        return tuple(self._past.answers)

    @property
    def console(self) -> bytes:
        """What the program put out and was validated."""
        return self._asked.console(self._past) if self._now is None else self._now.console

    def script(self) -> str:
        """The events so far as a script, which `replay` takes."""
        return self._past.script()

    def summary(self) -> Summary:
        """The machine at its recovery point.

        A process that keeps the machine tells it as it ends, so that the next question begins another and applies the events again. The probes
        of a process that went back have counted the events that were taken back, too; ``replay`` of :meth:`script` has the tallies of the history alone.
        """
        if self._now is None:
            self._now = self._asked.now(self._past)
        return self._now.summary

    def committed(self) -> Trace:
        """The committed trace: the instructions up to the recovery point on one memory. A replay."""
        if self._traced is None:
            called = self._replayed("--trace")
            self._traced, summary = read_traced(called.report)
            self._knows(summary, called.console)
        return self._traced

    def watch(self, address: int) -> int:
        """The word at an address, a multiple of 4 from 80000000 to 803ffffc, at the recovery point. A replay.

        Raises
        ------
        ValueError
            The address is no number below 2**32.
        SafetyNetError
            The program refuses the address.
        """
        if address not in self._words:
            called = self._replayed(watch_option(address), "--trace")
            self._traced, summary = read_traced(called.report)
            if [it.address for it in summary.watches] != [address]:
                raise ReportError(f"the word at {address:08x} isn't shown")
            self._words[address] = summary.watches[0].word
            self._knows(summary, called.console)
        return self._words[address]

    def statistics(self) -> Statistics:
        """What the events so far come to, counted. A replay.

        Raises
        ------
        SafetyNetError
            The program is older than its statistics.
        """
        if self._statistics is None:
            called = self._replayed("--statistics")
            before = self._past.report()
            if not called.report.startswith(before):
                raise ReportError("the events so far have other answers than they had")
            summary, self._statistics = parted_statistics(called.report[len(before) :])
            self._knows(parse_summary(summary), called.console)
        return self._statistics

    def accesses(self) -> Tuple[Access, ...]:
        """The committed trace with what an architect reads of it: each instruction, and what it reads and writes in memory. A replay.

        Raises
        ------
        SafetyNetError
            The program is older than its accesses.
        """
        called = self._replayed("--accesses")
        found, summary = read_accesses(called.report)
        self._knows(summary, called.console)
        return found

    # Its state as it stands now. A process that keeps the machine shows it; where it can't, a replay does.

    @property
    def state(self) -> State:
        """The whole machine as it stands now."""
        if self._state is None:
            shown = self._asked.look(self._past, "show")
            self._state = self._replayed_state() if shown is None else states.state(shown)
        return self._state

    def _replayed_state(self) -> State:
        last = len(self._past)
        only = [f"--only={last}-{last}"] if last > 0 else []
        return states.last_state(self._replayed("--states", *only).report, last)

    def _look(self, line: str) -> Optional[Any]:
        """What the look that a line asks for shows; None where the state tells it: it is known, or there is no such look."""
        return self._asked.look(self._past, line) if self._state is None else None

    def flights(self) -> Tuple[Flight, ...]:
        """The messages in flight, in the order of their numbers."""
        shown = self._look("flights")
        return self.state.net.flights if shown is None else states.flights(shown)

    def core(self, node: int) -> CoreState:
        """The core of a node as it stands now. ValueError: there is no such node."""
        shown = self._look(f"core {_checked(node, self._nodes, 'node')}")
        return self.state.nodes[node].core if shown is None else states.core_state(node)(shown)

    def node(self, node: int) -> NodeState:
        """A node as it stands now: its core, its cache, what it waits for, its log. ValueError: there is no such node."""
        shown = self._look(f"node {_checked(node, self._nodes, 'node')}")
        return self.state.nodes[node] if shown is None else states.node_state(shown)

    def block(self, block: int) -> Home:
        """The home of a block as it stands now: who owns it, who shares it, what is under way. ValueError: there is no such block.

        A program whose `drive` has no looks doesn't tell the content of a home that is as at the program's start: its `content` is None then.
        """
        shown = self._look(f"block {_checked(block, _BLOCKS, 'block')}")
        return self.state.home(block) if shown is None else states.home(shown)

    # As a context manager, and in a notebook.

    def close(self) -> None:
        """End the machine and its process. What it said stays readable; what needs a question raises ValueError. To close it again does nothing."""
        if not self._is_closed:
            self._is_closed = True
            self._now = self._backend.last(self._past) or self._now

    def __enter__(self) -> "Machine":
        return self

    def __exit__(self, kind: Optional[Type[BaseException]], error: Optional[BaseException], trace: object) -> None:
        self.close()

    def __repr__(self) -> str:
        closed = ", closed" if self._is_closed else ""
        return f"<Machine of {self._nodes} nodes after {len(self._past)} events{closed}>"

    def _repr_html_(self) -> str:
        """A small table of the machine at its recovery point, for a notebook."""
        if self._now is None and self._is_closed:
            return f"<p>{html.escape(repr(self))}</p>"
        return table_of(self.summary())


def _checked(number: int, below: int, what: str) -> int:
    if isinstance(number, bool) or not isinstance(number, int) or not 0 <= number < below:
        raise ValueError(f"a {what} is a number from 0 to {below - 1}, and not {number!r}")
    return number
