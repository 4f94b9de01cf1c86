"""How a machine is asked: by a process of `drive` that keeps it, or, where the program has no such command, by replays.

Each of the two does the same questions for `safetynet.machine`. Both are told the machine's past with each question, so that what they keep of it is
never more than an advantage: a process that has gone on beyond the past goes back, and one that has ended, or can't go back, is begun anew with its events.
"""
from __future__ import annotations

import bisect
import itertools
import os
import re
import threading
import weakref
from abc import ABC, abstractmethod
from dataclasses import dataclass
from pathlib import Path
from typing import Any, Dict, Iterable, List, NamedTuple, NoReturn, Optional, Sequence, Set, Tuple, Type

from .drive import Drive, EndedEarly
from .errors import ReportError, SafetyNetError
from .events import Event
from .program import Called, call
from .report import Answer, Foreseen, Summary, parse_answers, parse_foreseen, parse_report, parse_summary
from .states import read_json, state

# So many processes at once keep machines; the one that was asked longest ago is ended for one more.
MOST_PROCESSES = 16
# A machine that is closed waits so many seconds for the end of its process.
LAST_SECONDS = 2.0
# Programs without the command, each with the time of its last change; and how they say so.
_WITHOUT_DRIVE: Set[Tuple[str, int]] = set()
_NO_DRIVE = "drive: there is no such command"
_REFUSED = re.compile("^(badline|outofrange) ([1-9][0-9]*)$", re.M)


@dataclass(frozen=True)
class Loaded:
    """A machine at its start: a program's content, the words of the sizes, where `safetynet` is, and a question's time limit in seconds."""

    program: bytes
    sizes: Tuple[str, ...]
    command: Path
    timeout: float

    def replayed(self, script: str, *more: str) -> Called:
        """A replay of a script, with more words; its status is 0, or 4 where the script is refused.

        Raises
        ------
        SafetyNetError
            Another status.
        """
        files = {"program": self.program, "script": script.encode("ascii")}
        called = call(["replay", *self.sizes, *more, "program", "script"], files, command=self.command, timeout=self.timeout)
        if called.status not in (0, 4):
            called.raise_refusal()
        return called


class Past:
    """The events of a machine with their answers."""

    def __init__(self, answers: Iterable[Answer] = (), texts: Iterable[str] = ()) -> None:
        self.answers: List[Answer] = list(answers)
        # the groups of the first answers, as far as they were asked for
        self._texts: List[str] = list(texts)

    def __len__(self) -> int:
        return len(self.answers)

    def copy(self) -> "Past":
        """The same, which may go on another way."""
        return Past(self.answers, self._texts)

    def take(self, answers: Sequence[Answer]) -> None:
        """Go on by these."""
        self.answers.extend(answers)

    def cut(self, mark: int) -> None:
        """Keep so many."""
        del self.answers[mark:], self._texts[mark:]

    def lines(self) -> List[str]:
        """The events as lines of a script, without their ends."""
        return [str(answer.event) for answer in self.answers]

    def script(self) -> str:
        """The events as a script."""
        return "".join(f"{line}\n" for line in self.lines())

    def report(self) -> str:
        """What they were answered, byte for byte: reading is strict."""
        self._texts.extend(f"{answer}\n" for answer in self.answers[len(self._texts) :])
        return "".join(self._texts)


class Now(NamedTuple):
    """What a machine's report says at its end, and what the program has put out."""

    summary: Summary
    console: bytes


class Growth(NamedTuple):
    """What events were answered, and, where it is known too, how the machine stands then."""

    answers: Tuple[Answer, ...]
    now: Optional[Now]


def checked_answers(answers: Tuple[Answer, ...], events: Sequence[Event]) -> Tuple[Answer, ...]:
    """The answers, once they are seen to be those of these events; else ReportError."""
    if [answer.event for answer in answers] != list(events):
        raise ReportError("the answers aren't those of the events that were asked")
    return answers


def _raise_other_past() -> NoReturn:
    raise ReportError("the events so far have other answers than they had")


class Backend(ABC):
    """What answers a machine's questions. After an exception the machine is as it was."""

    def __init__(self, loaded: Loaded) -> None:
        self.loaded = loaded

    @abstractmethod
    def begin(self) -> Optional[Now]:
        """Begin at the program's start, and say how the machine stands if that is known. SafetyNetError: it can't be begun."""

    @abstractmethod
    def grown(self, past: Past, events: Sequence[Event]) -> Growth:
        """Apply events. ValueError: one of them is refused, and none was applied."""

    @abstractmethod
    def foreseen(self, past: Past, event: Event) -> Foreseen:
        """What an event would be answered. ValueError: it is refused."""

    @abstractmethod
    def now(self, past: Past) -> Now:
        """How the machine stands."""

    @abstractmethod
    def console(self, past: Past) -> bytes:
        """What the program has put out."""

    @abstractmethod
    def look(self, past: Past, line: str) -> Optional[Any]:
        """What a line is answered in JSON that changes nothing; None where the program has no such line. ValueError: it names what isn't there."""

    @abstractmethod
    def fork(self) -> "Backend":
        """Another one for the same past."""

    @abstractmethod
    def back(self) -> None:
        """The machine goes back to a part of its past."""

    @abstractmethod
    def leave(self) -> None:
        """What is kept of the machine isn't wanted any more."""

    def last(self, past: Past) -> Optional[Now]:
        """How the machine stands as it ends, where no call is needed to know it."""
        self.leave()
        return None


class Replayed(Backend):
    """Each question is a replay of all events."""

    def __init__(self, loaded: Loaded) -> None:
        super().__init__(loaded)
        # what was foreseen of the machine as it stands; to apply such an event asks nothing again
        self._foreseen: Dict[Event, Growth] = {}

    def begin(self) -> Optional[Now]:
        return self.now(Past())

    def grown(self, past: Past, events: Sequence[Event]) -> Growth:
        foreseen = self._foreseen.get(events[0]) if len(events) == 1 else None
        growth = foreseen or self._replayed(past, events)
        if events:
            self._foreseen = {}
        return growth

    def _replayed(self, past: Past, events: Sequence[Event]) -> Growth:
        called = self.loaded.replayed(past.script() + "".join(f"{event}\n" for event in events))
        if called.status != 0:
            raise ValueError(f"{_these(events)}: {called.words}" + (f": {called.why}" if called.why else ""))
        before = past.report()
        if not called.report.startswith(before):
            _raise_other_past()
        report = parse_report(called.report[len(before) :], len(past) + 1)
        return Growth(checked_answers(report.answers, events), Now(report.summary, called.console))

    def foreseen(self, past: Past, event: Event) -> Foreseen:
        if event not in self._foreseen:
            self._foreseen[event] = self._replayed(past, [event])
        answer = self._foreseen[event].answers[0]
        return Foreseen(answer.place, answer.event, answer.name, answer.fields)

    def now(self, past: Past) -> Now:
        growth = self._replayed(past, [])
        assert growth.now
        return growth.now

    def console(self, past: Past) -> bytes:
        return self.now(past).console

    def look(self, past: Past, line: str) -> Optional[Any]:
        return None

    def fork(self) -> "Replayed":
        other = Replayed(self.loaded)
        other._foreseen = dict(self._foreseen)
        return other

    def back(self) -> None:
        self.leave()

    def leave(self) -> None:
        self._foreseen = {}


class Released:
    """After how many events how many bytes were put out, as far as somebody looked: more events never have fewer bytes."""

    def __init__(self) -> None:
        self._known: List[Tuple[int, int]] = [(0, 0)]

    def note(self, events: int, size: int) -> None:
        """Somebody looked, after more events than ever before."""
        # between two looks at the same size there is nothing to know
        if len(self._known) > 1 and self._known[-2][1] == self._known[-1][1] == size:
            self._known.pop()
        self._known.append((events, size))

    def at(self, events: int) -> Optional[int]:
        """How many bytes there were after so many events, none of them after the last look; None where it isn't known."""
        place = bisect.bisect_left(self._known, (events, 0))
        after, size = self._known[place]
        return size if after == events or self._known[place - 1][1] == size else None

    def back(self, events: int, size: int) -> None:
        """Forget what came after so many events, which had put so many bytes out."""
        del self._known[bisect.bisect_left(self._known, (events, 0)) :]
        self.note(events, size)


class Driven(Backend):
    """A process keeps the machine. It is begun by the first question, and anew where it was left, has ended, or was ended for another machine's."""

    _all: "weakref.WeakSet[Driven]" = weakref.WeakSet()
    _all_lock = threading.Lock()
    _clock = itertools.count()

    def __init__(self, loaded: Loaded) -> None:
        super().__init__(loaded)
        self._drive: Optional[Drive] = None
        # how many events the process has applied: more than the past has, where the machine went back or an event was refused among others
        self._events = 0
        self._released = Released()
        # the words of lines that the program is too old for
        self._lacking: Set[str] = set()
        # when it was asked last, and whether it is asked now: another thread may want to end the process in favour of its own
        self._asked_at = 0
        self.lock = threading.RLock()

    def __reduce__(self) -> "tuple[type[Driven], tuple[Loaded]]":
        return type(self), (self.loaded,)

    def begin(self) -> Optional[Now]:
        with _Question(self, Past()):
            return None

    def standing(self, past: Past) -> Drive:
        """A process that stands behind the past's events."""
        self._asked_at = next(self._clock)
        drive = self._drive
        if drive is not None and drive.is_ours and self._goes_back(drive, len(past)):
            return drive
        self.leave()
        self._make_room()
        loaded = self.loaded
        self._drive = drive = Drive(loaded.command, loaded.sizes, loaded.program, loaded.timeout)
        self._all.add(self)
        if len(past) > 0 and drive.answers(past.lines()) != past.report():
            _raise_other_past()
        self._released = Released()
        self._stands(drive, len(past))
        return drive

    def _stands(self, drive: Drive, events: int) -> None:
        """The process has gone on to so many events."""
        self._events = events
        self._released.note(events, len(drive.console))

    def _goes_back(self, drive: Drive, events: int) -> bool:
        """Has the process stand behind its first events, so many, if it can."""
        if self._events <= events:
            return self._events == events
        try:
            told = self._told(drive, f"back {events}")
        except ValueError:
            raise ReportError(f"it has fewer than {events} events, and was given {self._events}") from None
        if told is None:
            return False
        if told != {"back": events}:
            raise ReportError(f"it doesn't say that it went back to {events} events", 1, str(told))
        released = self._released.at(events)
        if released is None:
            # these events were asked together with later ones, and bytes came of them all
            shown = self._told(drive, "show")
            if shown is None:
                return False
            released = state(shown).controller.released
        if released > len(drive.console):
            raise ReportError(f"{len(drive.console)} bytes were put out, and it tells {released} after fewer events")
        self._events = events
        self._released.back(events, released)
        # those of later events come again
        del drive.console[released:]
        return True

    def _told(self, drive: Drive, line: str) -> Optional[Any]:
        """What a line is answered in JSON; None where the program is too old for it. ValueError: it names what isn't there."""
        word = line.split(" ")[0]
        if word in self._lacking:
            return None
        text = drive.line(line)
        refusal = _refusal_in(text)
        if refusal is None:
            return read_json(text)
        if refusal.word == "outofrange":
            raise ValueError(f"{line}: {refusal.word}")
        self._lacking.add(word)
        return None

    def _make_room(self) -> None:
        """Ends the processes that were asked longest ago, as far as there are too many."""
        with self._all_lock:
            others = sorted((other for other in self._all if other._drive is not None), key=lambda other: other._asked_at)
            for other in others[: max(0, len(others) - MOST_PROCESSES + 1)]:
                if other.lock.acquire(blocking=False):
                    try:
                        other.leave()
                    finally:
                        other.lock.release()

    def grown(self, past: Past, events: Sequence[Event]) -> Growth:
        answers: Tuple[Answer, ...] = ()
        with _Question(self, past) as drive:
            first = drive.lines + 1
            try:
                text = drive.answers(map(str, events))
            except SafetyNetError as error:
                if not _says_full(error):
                    raise
                raise ValueError(f"{_these(events)}: script toomany: a machine has at most 1000000 events") from None
            refusal = _refusal_in(text)
            if refusal is None:
                answers = checked_answers(parse_answers(text, len(past) + 1), events)
                self._stands(drive, len(past) + len(events))
            else:
                # the others were applied, and the next question takes them back
                self._events = len(past) + len(events) - len(_REFUSED.findall(text))
        if refusal is not None:
            place = refusal.line - first
            if not 0 <= place < len(events):
                raise ReportError(f"line {refusal.line} is refused, and {len(events)} lines from {first} on were given")
            event = events[place]
            raise ValueError((str(event) if len(events) == 1 else f"{event}, {_these(events)}") + f": script {refusal.word}")
        return Growth(answers, None)

    def foreseen(self, past: Past, event: Event) -> Foreseen:
        with _Question(self, past) as drive:
            text = drive.line(f"foresee {event}")
            refusal = _refusal_in(text)
            if refusal is None:
                foreseen = parse_foreseen(text, len(past) + 1)
                if foreseen.event != event:
                    raise ReportError("another event was foreseen than was asked")
                return foreseen
        raise ValueError(f"{event}: script {refusal.word}")

    def look(self, past: Past, line: str) -> Optional[Any]:
        with _Question(self, past) as drive:
            return self._told(drive, line)

    def now(self, past: Past) -> Now:
        """How the machine stands. The process tells it as it ends; so the next question begins another, which costs what a replay would."""
        with _Question(self, past) as drive:
            now = _ended(drive, past, self.loaded.timeout)
            self.leave()
            return now

    def console(self, past: Past) -> bytes:
        with _Question(self, past) as drive:
            return bytes(drive.console)

    def fork(self) -> "Driven":
        other = Driven(self.loaded)
        other._lacking = set(self._lacking)
        return other

    def back(self) -> None:
        """The process stays where it is: the next question brings it back."""

    def leave(self) -> None:
        drive, self._drive = self._drive, None
        if drive is not None:
            drive.kill()

    def last(self, past: Past) -> Optional[Now]:
        with self.lock:
            drive = self._drive
            try:
                if drive is not None and drive.is_ours and self._events == len(past):
                    return _ended(drive, past, min(self.loaded.timeout, LAST_SECONDS))
            except SafetyNetError:
                pass
            finally:
                self.leave()
        return None


class _Question:
    """A question that a process is asked. After an exception nobody knows where it stands, so it is left."""

    def __init__(self, driven: Driven, past: Past) -> None:
        self._driven = driven
        self._past = past

    def __enter__(self) -> Drive:
        self._driven.lock.acquire()
        try:
            return self._driven.standing(self._past)
        except BaseException as error:
            self.__exit__(type(error), error, None)
            raise

    def __exit__(self, kind: Optional[Type[BaseException]], error: Optional[BaseException], trace: object) -> None:
        try:
            if kind is not None:
                self._driven.leave()
        finally:
            self._driven.lock.release()


def _ended(drive: Drive, past: Past, timeout: float) -> Now:
    """What a process says as it ends."""
    summary = parse_summary(drive.end(timeout))
    if (summary.events, summary.released) != (len(past), len(drive.console)):
        raise ReportError(f"there were {len(past)} events, and {len(drive.console)} bytes were put out; it tells {summary.events} and {summary.released}")
    return Now(summary, bytes(drive.console))


def _says_full(error: SafetyNetError) -> bool:
    """Whether a process has ended since there was no room for an event more."""
    return error.words == "budget" or isinstance(error, EndedEarly) and "toomany" in error.report.split("\n")


class _Refusal(NamedTuple):
    """Why a line was refused, and its number."""

    word: str
    line: int


def _refusal_in(text: str) -> Optional[_Refusal]:
    """The first refusal among answers, if there is one."""
    if "badline " in text or "outofrange " in text:
        found = _REFUSED.search(text)
        return _Refusal(found[1], int(found[2])) if found else None
    return None


def _these(events: Sequence[Event]) -> str:
    return str(events[0]) if len(events) == 1 else f"one of {len(events)} events"


def begun(loaded: Loaded) -> "tuple[Backend, Optional[Now]]":
    """What answers a machine's questions, and, where it is known, how the machine stands at its start.

    Whether the program has the command `drive` is found out here alone.

    Raises
    ------
    SafetyNetError
        The program or a size is refused, or `safetynet` isn't there.
    """
    known = _file(loaded.command)
    if known not in _WITHOUT_DRIVE:
        driven = Driven(loaded)
        try:
            return driven, driven.begin()
        except SafetyNetError as error:
            # without a reason it may be so; a replay tells
            if error.status != 1 or not (error.why or _NO_DRIVE).startswith(_NO_DRIVE):
                raise
        _WITHOUT_DRIVE.add(known)
    replayed = Replayed(loaded)
    return replayed, replayed.begin()


def _file(command: Path) -> Tuple[str, int]:
    """A program, and when it changed."""
    try:
        return str(command), os.stat(command).st_mtime_ns
    except OSError:
        return str(command), 0
