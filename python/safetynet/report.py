"""A replay's report, read exactly: docs/FORMATS.md, "The report".

Reading is strict: a line that isn't as the format has it, or stands where it can't, is a `ReportError` that names it. So printing what was
read gives the same bytes.
"""
from __future__ import annotations

import re
from dataclasses import dataclass
from functools import lru_cache
from typing import Callable, Dict, List, Match, NoReturn, Optional, Pattern, Tuple, TypeVar, Union

from .errors import ReportError
from .events import Event, parse_event

_T = TypeVar("_T")

_N = "(0|[1-9][0-9]{0,19})"
_EVENT = re.compile(r"([1-9][0-9]*) ([^:]+): ([a-z]+)((?: [a-z0-9]+)*)")
_MESSAGE = re.compile(rf"  msg {_N} ([a-z]+) {_N} {_N} {_N} {_N}((?: [a-z]+ [0-9]+)*)( lost)?")
_CORE = re.compile(rf"core {_N} ([0-9a-f]{{8}}) (?:(running)|exited {_N}|trapped ([a-z]+))((?: x[0-9]+=[0-9a-f]+)*)")
_REGISTER = re.compile(r"x([1-9][0-9]?)=([0-9a-f]{8})")
_WATCH = re.compile(r"watch ([0-9a-f]{8}) ([0-9a-f]{8})")
_PROBE = re.compile(rf"probe {_N} {_N} {_N}")

# The words before the numbers of each answer; "" where a number follows at once.
ANSWERS: Dict[str, Tuple[str, ...]] = {
    **dict.fromkeys("retired missed waits needsevict logfull netfull ended evicted putbegun notcached putopen missopen".split(), ()),
    **dict.fromkeys("checkpointsfull hopped lostindead arrived notarrived nomessage delivered held homebusy lost".split(), ()),
    **dict.fromkeys("killed alreadydead given noinput".split(), ()),
    "edged": ("",),
    "reported": ("",),
    "validated": ("",),
    "notready": ("",),
    "cutoff": ("", ""),
    "recovered": ("", "undone ", "dropped "),
}

# The fields of each kind of message, in the order of their line.
MESSAGES: Dict[str, Tuple[str, ...]] = {
    **dict.fromkeys("gets getm datas datae invack putreq putgo putdata putdone ready advance".split(), ()),
    "fwdgets": ("req",),
    "fwdgetm": ("req", "acks"),
    "inv": ("req",),
    "datam": ("acks",),
    "upgok": ("acks",),
    "unblock": ("fixed",),
}

CAUSES = ("illegal", "fetch", "target", "misaligned", "access", "call", "break")


@dataclass(frozen=True)
class Message:
    """A message that an event sent.

    Attributes
    ----------
    id : int
        Its number, from 1 in the order in which messages are sent.
    kind : str
        Its kind in lower case, as ``"getm"`` (docs/PROTOCOL.md).
    source, destination : int
        The nodes that it goes between.
    tag : int
        The interval that the sender was in.
    block : int
        The block that it is about; of a ready and an advance, which are about none, the checkpoint.
    requester, acks, fixed : int or None
        The node that asked, how many acknowledgements are due, the interval of atomicity: where its kind has them.
    lost : bool
        Whether it was lost as it was sent.
    """

    id: int
    kind: str
    source: int
    destination: int
    tag: int
    block: int
    requester: Optional[int] = None
    acks: Optional[int] = None
    fixed: Optional[int] = None
    lost: bool = False

    def __str__(self) -> str:
        numbers = {"req": self.requester, "acks": self.acks, "fixed": self.fixed}
        fields = "".join(f" {name} {numbers[name]}" for name in MESSAGES[self.kind])
        head = f"  msg {self.id} {self.kind} {self.source} {self.destination} {self.tag} {self.block}"
        return head + fields + (" lost" if self.lost else "")


@dataclass(frozen=True)
class Core:
    """A core as it stands at the recovery point.

    Attributes
    ----------
    node : int
        Its node.
    pc : int
        The address of its next instruction.
    state : str
        ``"running"``, ``"exited"`` or ``"trapped"``.
    code : int or None
        With which code it exited.
    cause : str or None
        Why it trapped, one of `CAUSES`.
    registers : tuple of 32 int
        ``registers[10]`` is x10.
    """

    node: int
    pc: int
    state: str
    code: Optional[int]
    cause: Optional[str]
    registers: Tuple[int, ...]

    def __str__(self) -> str:
        end = {"exited": f"exited {self.code}", "trapped": f"trapped {self.cause}"}.get(self.state, self.state)
        held = "".join(f" x{number}={value:08x}" for number, value in enumerate(self.registers) if value)
        return f"core {self.node} {self.pc:08x} {end}{held}"


@dataclass(frozen=True)
class Watch:
    """The word at an address, at the recovery point."""

    address: int
    word: int

    def __str__(self) -> str:
        return f"watch {self.address:08x} {self.word:08x}"


def _event_line(place: int, event: Event, name: str, fields: Tuple[int, ...]) -> str:
    """An event's line, with its answer."""
    return f"{place} {event}: {name}" + "".join(f" {label}{number}" for label, number in zip(ANSWERS[name], fields))


@dataclass(frozen=True)
class Answer:
    """What an event was answered.

    Attributes
    ----------
    place : int
        The event's place, from 1.
    event : Event
        The event.
    name : str
        The answer's name, one of `ANSWERS`, as ``"retired"``.
    fields : tuple of int
        Its numbers, in their order: of ``recovered`` the checkpoint, how many log entries were undone, and how many messages dropped.
    sent : tuple of Message
        The messages that the event sent.
    cores : tuple of Core
        After a recovery each core as it stands then; else none.
    watches : tuple of Watch
        After a recovery the watched word, where one is.
    """

    place: int
    event: Event
    name: str
    fields: Tuple[int, ...] = ()
    sent: Tuple[Message, ...] = ()
    cores: Tuple[Core, ...] = ()
    watches: Tuple[Watch, ...] = ()

    def __str__(self) -> str:
        below = [*self.sent, *(f"  {it}" for it in self.cores), *(f"  {it}" for it in self.watches)]
        return _event_line(self.place, self.event, self.name, self.fields) + "".join(f"\n{it}" for it in below)


@dataclass(frozen=True)
class Foreseen:
    """What an event would be answered as the next one; which messages it would send, and where cores would stand, isn't said.

    Attributes
    ----------
    place : int
        The place, from 1, that the event would have.
    event : Event
        The event.
    name : str
        The answer's name, one of `ANSWERS`.
    fields : tuple of int
        Its numbers, as of an `Answer`.
    """

    place: int
    event: Event
    name: str
    fields: Tuple[int, ...] = ()

    def __str__(self) -> str:
        return _event_line(self.place, self.event, self.name, self.fields)


@dataclass(frozen=True)
class Summary:
    """The end of a report: the machine at its recovery point.

    Attributes
    ----------
    events : int
        How many events there were.
    point : int
        The recovery point, a checkpoint.
    committed : int
        The records of the committed trace.
    released : int
        The bytes that were released to the console.
    cores : tuple of Core
        Each core at the recovery point.
    watches : tuple of Watch
        The watched word there, where one is.
    probes : tuple of tuple of int
        The tally of each probe: ``probes[0][3]`` is place 3 of probe 0.
    """

    events: int
    point: int
    committed: int
    released: int
    cores: Tuple[Core, ...]
    watches: Tuple[Watch, ...] = ()
    probes: Tuple[Tuple[int, ...], ...] = ()

    def __str__(self) -> str:
        head = f"events {self.events}\npoint {self.point}\ncommitted {self.committed}\nreleased {self.released}\n"
        tallies = "".join(
            f"probe {number} {place} {value}\n" for number, tally in enumerate(self.probes) for place, value in enumerate(tally)
        )
        return head + "".join(f"{it}\n" for it in (*self.cores, *self.watches)) + tallies


@dataclass(frozen=True)
class ReplayReport:
    """A whole report; ``str`` gives its text."""

    answers: Tuple[Answer, ...]
    summary: Summary

    def __str__(self) -> str:
        return "".join(f"{it}\n" for it in self.answers) + str(self.summary)


class _Reader:
    """The lines of a report, the next one at `place`; `prefix` stands before each that is read."""

    def __init__(self, text: Union[str, bytes]) -> None:
        if isinstance(text, bytes):
            text = text.decode("ascii", "replace")
        self.lines = text.split("\n")
        self.place = 0
        self.prefix = ""
        if self.lines.pop() != "":
            self.place = len(self.lines)
            self.lines.append(text[text.rfind("\n") + 1 :])
            self.fail("the last line has no end")

    def fail(self, why: str) -> NoReturn:
        if self.place >= len(self.lines):
            raise ReportError(f"the report ends after {len(self.lines)} lines, and {why}")
        raise ReportError(why, self.place + 1, self.lines[self.place])

    def is_over(self) -> bool:
        return self.place >= len(self.lines)

    def looking_at(self, start: str) -> bool:
        return not self.is_over() and self.lines[self.place].startswith(self.prefix + start)

    def found(self, form: Pattern[str], what: str) -> Match[str]:
        """The next line in its form; `passes` goes on behind it."""
        if not self.looking_at(""):
            self.fail(f"{what} is due")
        found = form.fullmatch(self.lines[self.place], len(self.prefix))
        if found is None:
            self.fail(f"it isn't {what}")
        return found

    def passes(self) -> None:
        self.place += 1

    def number(self, name: str) -> int:
        found = self.found(re.compile(rf"{name} {_N}"), f"the line of {name}")
        self.passes()
        return int(found[1])


@lru_cache(maxsize=None)
def _fields_form(labels: Tuple[str, ...]) -> Pattern[str]:
    return re.compile("".join(f" {label}{_N}" for label in labels))


def _fields(reader: _Reader, labels: Tuple[str, ...], text: str, what: str) -> Tuple[int, ...]:
    """The numbers of an answer or a message, behind their labels."""
    found = _fields_form(labels).fullmatch(text)
    if found is None:
        reader.fail(f"these aren't the fields of {what}")
    return tuple(map(int, found.groups()))


def _message(reader: _Reader) -> Message:
    """The message of a line, whose last numbers are named by its kind."""
    found = reader.found(_MESSAGE, "a message")
    identity, kind, source, destination, tag, block, rest, lost = found.groups()
    if kind not in MESSAGES:
        reader.fail(f"{kind} is no kind of a message")
    names = MESSAGES[kind]
    numbers = dict(zip(names, _fields(reader, tuple(f"{name} " for name in names), rest, kind)))
    reader.passes()
    return Message(
        int(identity),
        kind,
        int(source),
        int(destination),
        int(tag),
        int(block),
        requester=numbers.get("req"),
        acks=numbers.get("acks"),
        fixed=numbers.get("fixed"),
        lost=lost is not None,
    )


def _core(reader: _Reader, node: int) -> Core:
    """The core of a line: of this node, with its registers in their order and none that is 0."""
    found = reader.found(_CORE, "a core")
    number, pc, running, code, cause, rest = found.groups()
    if int(number) != node:
        reader.fail(f"core {node} is due")
    if cause is not None and cause not in CAUSES:
        reader.fail(f"{cause} is no cause of a trap")
    registers, last = [0] * 32, 0
    for text in rest.split():
        held = _REGISTER.fullmatch(text)
        if held is None or not last < int(held[1]) < 32 or int(held[2], 16) == 0:
            reader.fail(f"{text} isn't a next register that isn't 0")
        last = int(held[1])
        registers[last] = int(held[2], 16)
    reader.passes()
    state = "running" if running else "exited" if code is not None else "trapped"
    return Core(node, int(pc, 16), state, None if code is None else int(code), cause, tuple(registers))


def _cores(reader: _Reader) -> Tuple[Tuple[Core, ...], Tuple[Watch, ...]]:
    cores: List[Core] = []
    while not cores or reader.looking_at("core "):
        cores.append(_core(reader, len(cores)))
    watches: List[Watch] = []
    while reader.looking_at("watch "):
        found = reader.found(_WATCH, "a watched word")
        watches.append(Watch(int(found[1], 16), int(found[2], 16)))
        reader.passes()
    return tuple(cores), tuple(watches)


def _head(reader: _Reader, place: int) -> Tuple[Event, str, Tuple[int, ...]]:
    """An event's line: the event, its answer's name, and that one's numbers."""
    found = reader.found(_EVENT, "an event's line")
    number, event_text, name, rest = found.groups()
    if int(number) != place:
        reader.fail(f"event {place} is due")
    if name not in ANSWERS:
        reader.fail(f"{name} is no answer")
    fields = _fields(reader, ANSWERS[name], rest, name)
    try:
        event = parse_event(event_text)
    except ValueError as error:
        reader.fail(str(error))
    reader.passes()
    return event, name, fields


def _answer(reader: _Reader, place: int) -> Answer:
    event, name, fields = _head(reader, place)
    sent: List[Message] = []
    while reader.looking_at("  msg "):
        sent.append(_message(reader))
    cores: Tuple[Core, ...] = ()
    watches: Tuple[Watch, ...] = ()
    if name == "recovered":
        reader.prefix = "  "
        cores, watches = _cores(reader)
        reader.prefix = ""
    return Answer(place, event, name, fields, tuple(sent), cores, watches)


def _probes(reader: _Reader) -> Tuple[Tuple[int, ...], ...]:
    tallies: List[List[int]] = []
    while reader.looking_at("probe "):
        found = reader.found(_PROBE, "a probe's number")
        probe, place, value = map(int, found.groups())
        if (probe, place) == (len(tallies), 0):
            tallies.append([])
        if (probe, place) != (len(tallies) - 1, len(tallies[-1]) if tallies else 0):
            reader.fail("it isn't the next place of a probe")
        tallies[-1].append(value)
        reader.passes()
    return tuple(map(tuple, tallies))


def _summary(reader: _Reader, prefix: str = "") -> Summary:
    """The summary, which ends the report."""
    reader.prefix = prefix
    events, point, committed, released = map(reader.number, ("events", "point", "committed", "released"))
    cores, watches = _cores(reader)
    summary = Summary(events, point, committed, released, cores, watches, _probes(reader))
    if not reader.is_over():
        reader.fail("the summary is over")
    return summary


def parse_report(text: Union[str, bytes], first: int = 1) -> ReplayReport:
    """The report of a replay.

    Parameters
    ----------
    text : str or bytes
        What `safetynet replay` puts on standard error where the status is 0.
    first : int
        The place of the first event in it, where only the end of a report is read.

    Raises
    ------
    ReportError
        A line has another form, a name that the format hasn't, or stands where it can't.
    """
    reader = _Reader(text)
    answers: List[Answer] = []
    while not reader.is_over() and not reader.looking_at("events "):
        answers.append(_answer(reader, first + len(answers)))
    reader_place = reader.place
    summary = _summary(reader)
    if summary.events != first + len(answers) - 1:
        reader.place = reader_place
        reader.fail(f"there were {first + len(answers) - 1} events")
    return ReplayReport(tuple(answers), summary)


def parse_answers(text: str, first: int = 1) -> Tuple[Answer, ...]:
    """The groups of events alone, without a summary below them; the first event has the place `first`.

    Raises
    ------
    ReportError
        A line has another form or stands where it can't.
    """
    reader = _Reader(text)
    answers: List[Answer] = []
    while not reader.is_over():
        answers.append(_answer(reader, first + len(answers)))
    return tuple(answers)


def _alone(reader: _Reader, read: Callable[[_Reader], _T]) -> _T:
    """What is read of one line, which is all that there is."""
    found = read(reader)
    if not reader.is_over():
        reader.fail("one line is due")
    return found


def parse_foreseen(text: str, place: int) -> Foreseen:
    """The line that an event would get at this place.

    Raises
    ------
    ReportError
        It isn't one such line.
    """
    return _alone(_Reader(text), lambda reader: Foreseen(place, *_head(reader, place)))


def parse_core(line: str, node: int) -> Core:
    """The line of a node's core, without its end.

    Raises
    ------
    ReportError
        It isn't such a line.
    """
    return _alone(_Reader(f"{line}\n"), lambda reader: _core(reader, node))


def parse_message(line: str) -> Message:
    """The line of a message that was sent, without its end.

    Raises
    ------
    ReportError
        It isn't such a line.
    """
    return _alone(_Reader(f"{line}\n"), _message)


def parse_summary(text: Union[str, bytes], prefix: str = "") -> Summary:
    """A summary alone.

    Parameters
    ----------
    text : str or bytes
        Its lines, from ``events`` on.
    prefix : str
        What stands before each line, as ``"# "`` below a trace and a journal.

    Raises
    ------
    ReportError
        A line has another form or stands where it can't.
    """
    return _summary(_Reader(text), prefix)


def parted_summary(text: str) -> Tuple[str, Summary]:
    """What stands above a summary whose lines begin with ``"# "``, and that summary.

    Raises
    ------
    ReportError
        It isn't there, or a line of it has another form.
    """
    place = 0 if text.startswith("# events ") else text.rfind("\n# events ") + 1
    if place == 0 and not text.startswith("# events "):
        raise ReportError("the summary is lacking")
    return text[:place], parse_summary(text[place:], "# ")
