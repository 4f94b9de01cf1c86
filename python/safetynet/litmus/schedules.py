"""Runs of a test under schedules that are drawn, each brought to its final state.

A schedule is a script. Much of it is guessed: an event that can't happen is answered and changes nothing, so it may name a message that isn't sent
yet, and a few questions make a run. It has ended once each core has exited at the recovery point: a recovery, which shows the cores there, is tried and
taken back. The next run takes all of this one back, so one machine does all runs of a test.
"""
from __future__ import annotations

import random
import time
from typing import Callable, Iterable, List, Optional, Sequence, Set, Tuple

from ..calls import runs
from ..events import Deliver, Edge, Event, Evict, Hop, Lose, Recover, Report, Step, Validate
from ..machine import Machine
from ..program import PathLike
from ..report import Answer, Core
from ..results import Run
from .model import DATA, Register, State, Test
from .translation import ENTRY, Translation, translate

# So many checkpoints a node may be above the recovery point.
MOST_CHECKPOINTS = 4
# A run that isn't finished after so many questions, or with so many events, isn't finished at all.
MOST_QUESTIONS = 40
MOST_EVENTS = 12_000
# Turns of a question that guesses, and the messages beyond the newest that it may name.
TURNS = 14
AHEAD = 6
# Of a run by workers: instructions between two checkpoints, events without a validation before a recovery, and one in how many moves is a loss.
INTERVAL, WAIT, LOSE_EVERY = 5, 400, 25


class Progress:
    """What the answers tell of a machine: messages in flight, intervals, what was lost."""

    def __init__(self, nodes: int) -> None:
        self.intervals = [0] * nodes
        self.point = 0
        self.flights: Set[int] = set()
        self.last = 0
        self.has_loss = False
        self.ended: Set[int] = set()

    def note(self, answers: Iterable[Answer]) -> None:
        """Take in what events were answered."""
        for answer in answers:
            for message in answer.sent:
                self.last = message.id
                self.flights.add(message.id)
            self._note(answer)

    def _note(self, answer: Answer) -> None:
        """Take in one answer, but for what was sent."""
        event = answer.event
        if isinstance(event, Edge) and answer.name == "edged":
            self.intervals[event.node] = answer.fields[0]
        elif answer.name == "validated":
            self.point = answer.fields[0]
        elif answer.name == "recovered":
            self.intervals = [answer.fields[0]] * len(self.intervals)
            self.flights.clear()
            self.ended.clear()
            self.has_loss = False
        elif isinstance(event, Step) and answer.name == "ended":
            self.ended.add(event.node)
        elif isinstance(event, (Hop, Deliver, Lose)) and answer.name in ("delivered", "lost", "lostindead", "nomessage"):
            self.flights.discard(event.id)
            self.has_loss |= answer.name == "lost"

    def at(self, intervals: List[int]) -> "Progress":
        """The same, with other intervals of the nodes."""
        other = Progress(len(intervals))
        other.intervals, other.point, other.flights, other.last, other.ended = intervals, self.point, self.flights, self.last, self.ended
        return other

    def gone_back(self) -> "Progress":
        """What holds after a recovery."""
        other = Progress(len(self.intervals)).at([self.point] * len(self.intervals))
        other.point, other.last = self.point, self.last
        return other


def farthest(nodes: int) -> int:
    """Hops that bring a message from any node to any other, in the grid of docs/PROTOCOL.md."""
    rows = max(row for row in range(1, nodes + 1) if nodes % row == 0 and row * row <= nodes)
    return rows // 2 + nodes // rows // 2 + (1 if rows > 1 else 0)


class Runner:
    """Runs a test again and again.

    Parameters
    ----------
    test : Test
        The test.
    file : str
        The name of its file, for refusals.
    command : path, optional
        Where `safetynet` is.

    Raises
    ------
    LitmusError
        A thread uses every register.
    SafetyNetError
        The program can't be loaded, or `safetynet` isn't there.
    """

    def __init__(self, test: Test, file: str = "litmus", command: Optional[PathLike] = None) -> None:
        self.test = test
        self.nodes = max(2, len(test.threads))
        self.translation: Translation = translate(test, file, command)
        self.hops = farthest(self.nodes)
        self.command = command
        self._machine: Optional[Machine] = None
        self._begin = 0

    def start(self) -> Machine:
        """The machine, its cores before the first instruction of their threads, with that as the recovery point. It is the same one each time."""
        if self._machine is None:
            machine = Machine(self.translation.image, self.nodes, command=self.command)
            heads = [*self.translation.heads, *[0] * (self.nodes - len(self.test.threads))]
            steps: List[Event] = [Step(node) for node in range(self.nodes) for _ in range(heads[node])]
            machine.apply_all([*steps, *Finish(self.nodes, self.hops).checkpoint(Progress(self.nodes))])
            self._machine, self._begin = machine, machine.mark()
        self._machine.back(self._begin)
        return self._machine

    def run(self, drawn: random.Random, losses: bool = False, ends: float = float("inf")) -> Optional[State]:
        """One run, and its final state.

        Parameters
        ----------
        drawn : random.Random
            Decides the schedule.
        losses : bool
            Whether messages are lost, and the machine goes back then.
        ends : float
            A time of the monotonic clock after which it isn't gone on with.

        Returns
        -------
        tuple of int, or None
            The words of `Test.observed`; None where the run isn't finished within its limits.

        Raises
        ------
        SafetyNetError
            The program can't be called.
        TrapError
            A core trapped: the test does what the machine can't.
        """
        return self._gone_on(self.start(), Schedule(self, drawn, losses), ends)

    def finish(self, machine: Machine, drawn: random.Random, ends: float = float("inf")) -> Optional[State]:
        """Go on with a machine of this test from where it stands to the end of its threads, in an order that is drawn; its final state as of `run`."""
        schedule = Schedule(self, drawn, False)
        schedule.guesses = 1
        return self._gone_on(machine, schedule, ends)

    def by_workers(self, seeds: Sequence[int], losses: bool = False) -> Tuple[Optional[State], ...]:
        """Runs by the workers of `safetynet run`, in turns that are drawn: they keep its rules, and the rest is left to the seed.

        Parameters
        ----------
        seeds : range or sequence of int
            Seeds one after another, one a run.
        losses : bool
            Whether messages are lost, and the machine goes back then.

        Returns
        -------
        tuple of State or None
            As of `run`, one a seed. All runs are a call, and one more for each variable but the first.

        Raises
        ------
        SafetyNetError
            The program can't be called.
        TrapError
            A core trapped.
        """
        addresses = [self.test.addresses[it.name] for it in self.test.observed if not isinstance(it, Register)]
        of_address = {address: self._watched(seeds, losses, address) for address in addresses or [DATA]}
        states: List[Optional[State]] = []
        for alike in zip(*of_address.values()):
            words = {address: one.summary.watches[0].word for address, one in zip(of_address, alike)}
            states.append(self.state_at(alike[0].summary.cores, words.__getitem__))
        return tuple(states)

    def _watched(self, seeds: Sequence[int], losses: bool, address: int) -> Tuple[Run, ...]:
        """The runs by workers, with the word at this address in their summaries."""
        return runs(
            self.translation.image,
            seeds,
            nodes=self.nodes,
            interval=INTERVAL,
            wait=WAIT,
            budget=MOST_EVENTS,
            lose_every=LOSE_EVERY if losses else 0,
            watch=address,
            command=self.command,
        )

    def _gone_on(self, machine: Machine, schedule: "Schedule", ends: float) -> Optional[State]:
        progress = Progress(self.nodes)
        progress.note(machine.answers)
        for number in range(MOST_QUESTIONS):
            progress.note(machine.apply_all(schedule.events(progress, number)))
            state = self.final(machine)
            if state is not None:
                return state
            if machine.mark() > MOST_EVENTS or time.monotonic() > ends:
                break
        return None

    def final(self, machine: Machine) -> Optional[State]:
        """The words of the observed locations, where each core has exited at the recovery point; the machine stays. A replay for each variable.

        Raises
        ------
        TrapError
            A core trapped, which no thread of a test does.
        """
        mark = machine.mark()
        cores = machine.recover().cores
        machine.back(mark)
        return self.state_at(cores, machine.watch)

    def state_at(self, cores: Sequence[Core], watch: Callable[[int], int]) -> Optional[State]:
        """The words of the observed locations, of cores and of what is asked by its address, at a recovery point; None where a core hasn't exited there.

        Raises
        ------
        TrapError
            A core trapped.
        """
        for core in cores:
            if core.state == "trapped":
                raise TrapError(self.test.name, core.node, str(core.cause), core.pc - ENTRY)
        if {core.state for core in cores} != {"exited"}:
            return None
        words = []
        for location in self.test.observed:
            if isinstance(location, Register):
                words.append(cores[location.thread].registers[self.translation.held(location)])
            else:
                words.append(watch(self.test.addresses[location.name]))
        return tuple(words)


class TrapError(Exception):
    """A thread of a test trapped."""

    def __init__(self, name: str, thread: int, cause: str, offset: int) -> None:
        super().__init__(f"{name}: P{thread} trapped ({cause}) {offset} bytes behind the program's entry")


class Finish:
    """The events that bring a run to its end."""

    def __init__(self, nodes: int, hops: int) -> None:
        self.nodes = nodes
        self.hops = hops

    def moves(self, ids: Iterable[int]) -> List[Event]:
        """Each message goes as far as it can, and is taken."""
        return [event for id in ids for event in (*[Hop(id)] * self.hops, Deliver(id))]

    def all_moves(self, progress: Progress, ahead: int) -> List[Event]:
        """The messages in flight, and so many that may be sent next."""
        return self.moves([*sorted(progress.flights), *range(progress.last + 1, progress.last + 1 + ahead)])

    def checkpoint(self, progress: Progress) -> List[Event]:
        """Every node comes to the same checkpoint and reports it, and the recovery point rises as far as it can."""
        top = max(progress.intervals)
        top += top - progress.point < MOST_CHECKPOINTS
        edges: List[Event] = [Edge(node) for node in range(self.nodes) for _ in range(top - progress.intervals[node])]
        reports: List[Event] = [Report(node) for node in range(self.nodes)]
        validates: List[Event] = [Validate() for _ in range(top - progress.point)]
        return [*edges, *self.all_moves(progress, 0), *reports, *self.all_moves(progress, self.nodes + AHEAD), *validates]


class Schedule:
    """The events of one run, question by question: one to three that guess, and then those that finish."""

    def __init__(self, runner: Runner, drawn: random.Random, losses: bool) -> None:
        self.runner = runner
        self.drawn = drawn
        self.losses = losses
        self.nodes = runner.nodes
        self.finish = Finish(runner.nodes, runner.hops)
        self.guesses = drawn.choice((1, 2, 2, 3)) if len(runner.test.threads) > 1 else 1
        self.blocks = [(address - ENTRY) // 64 for address in runner.test.addresses.values()] or [(DATA - ENTRY) // 64]

    def events(self, progress: Progress, number: int) -> List[Event]:
        """The events of a question, numbered from 0."""
        if number < self.guesses:
            return self.guessed(progress)
        if progress.has_loss:
            return [Recover(), *self.finishing(progress.gone_back(), number - self.guesses)]
        return self.finishing(progress, number - self.guesses)

    def finishing(self, progress: Progress, number: int) -> List[Event]:
        """Cores go on and messages are taken, and then a checkpoint. Messages that wait for a later interval come first."""
        top = max(progress.intervals)
        events: List[Event] = [Edge(node) for node in range(self.nodes) for _ in range(top - progress.intervals[node])]
        going = [node for node in range(self.nodes) if node not in progress.ended]
        for _ in range(2 + number % 3):
            self.drawn.shuffle(going)
            for node in going:
                events += [Step(node)] * 3
                events += self.finish.all_moves(progress, AHEAD)
        return [*events, *self.finish.checkpoint(progress.at([top] * self.nodes))]

    # What is guessed.

    def guessed(self, progress: Progress) -> List[Event]:
        """Turns of nodes and messages in an order that is drawn; some are fast, and some wait."""
        pace = [self.drawn.choice((1, 1, 3, 9)) for _ in range(self.nodes)]
        eager = self.drawn.choice((1, 2, 4))
        newest = progress.last + 1
        events: List[Event] = []
        loss = self.drawn.randrange(TURNS) if self.losses else TURNS
        back = loss + self.drawn.randrange(5)
        if progress.has_loss:
            back = self.drawn.randrange(3)
        for turn in range(TURNS):
            node = self.drawn.choices(range(self.nodes), pace)[0]
            events += [Step(node)] * self.drawn.randint(1, 3)
            if turn == loss:
                events += [Lose(id) for id in self.some_messages(progress, newest, 2)]
            if turn == back:
                events.append(Recover())
            events += self.finish.moves(self.some_messages(progress, newest, eager))
            events += self.rarely()
            newest += self.drawn.randint(0, 2)
        return events

    def some_messages(self, progress: Progress, newest: int, count: int) -> List[int]:
        """So many messages, of those in flight and of some that may have been sent since."""
        known = [*sorted(progress.flights), *range(max(progress.last + 1, newest - AHEAD), newest + 1)]
        return [self.drawn.choice(known) for _ in range(count)]

    def rarely(self) -> List[Event]:
        """Checkpoints, reports, validations and evictions, now and then."""
        node = self.drawn.randrange(self.nodes)
        draw = self.drawn.random()
        if draw < 0.06:
            return [Edge(node)]
        if draw < 0.10:
            return [Report(other) for other in range(self.nodes)]
        if draw < 0.14:
            return [Validate()]
        return [Evict(node, self.drawn.choice(self.blocks))] if draw < 0.22 else []
