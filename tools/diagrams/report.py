"""The report of a replay, read line by line into events, as docs/FORMATS.md has it. Other text is refused with its line."""
import re
from typing import Dict, List, NamedTuple, Optional, Tuple

EVENT = re.compile(r"([1-9][0-9]*) ([a-z]+(?: [a-z0-9]+)*): ([a-z]+(?: [a-z0-9]+)*)")
MESSAGE = re.compile(r"  msg ([0-9]+) ([a-z]+) ([0-9]+) ([0-9]+) ([0-9]+) ([0-9]+)((?: [a-z]+ [0-9]+)*)( lost)?")
CORE = re.compile(r"core ([0-9]+) ([0-9a-f]{8}) (running|exited -?[0-9]+|trapped [a-z]+)((?: x[0-9]+=[0-9a-f]{8})*)")
WATCH = re.compile(r"watch ([0-9a-f]{8}) ([0-9a-f]{8})")
COUNT = re.compile(r"(events|point|committed|released) ([0-9]+)")
PROBE = re.compile(r"probe [0-9]+ [0-9]+ [0-9]+")


class BadReport(Exception):
    """A line of the report that has no form that is known here."""


class Message(NamedTuple):
    """A message that an event sent. `about` is a block, or of a ready and an advance a checkpoint; `fields` are those that its kind has."""

    number: int
    kind: str
    sender: int
    receiver: int
    tag: int
    about: int
    fields: str
    is_lost: bool

    def words(self) -> str:
        """Its kind and what it is about, as the report has them."""
        return f"{self.kind} {self.about}"


class CoreLine(NamedTuple):
    """A core as it stands at the recovery point."""

    node: int
    counter: str
    end: str
    registers: str


class Event(NamedTuple):
    """An event with its answer, and what it sent. `cores` and `watch` are there after a recovery alone."""

    place: int
    kind: str
    operands: Tuple[str, ...]
    answer: str
    numbers: Tuple[str, ...]
    sent: List[Message]
    cores: List[CoreLine]
    watch: List[Tuple[str, str]]

    def words(self) -> str:
        """The event and its answer as the report has them, without the place."""
        return " ".join((self.kind,) + self.operands) + ": " + " ".join((self.answer,) + self.numbers)


class Report(NamedTuple):
    """All events of a replay, the number of nodes, and the numbers of its summary by their names."""

    events: List[Event]
    nodes: int
    counts: Dict[str, int]


def event_of(line: str) -> Optional[Event]:
    """The event of its line, with nothing below it yet."""
    found = EVENT.fullmatch(line)
    if found is None:
        return None
    event, answer = found[2].split(" "), found[3].split(" ")
    return Event(int(found[1]), event[0], tuple(event[1:]), answer[0], tuple(answer[1:]), [], [], [])


def message_of(line: str) -> Optional[Message]:
    """The message of its line, which is set in by two blanks."""
    found = MESSAGE.fullmatch(line)
    if found is None:
        return None
    number, sender, receiver, tag, about = (int(found[place]) for place in (1, 3, 4, 5, 6))
    return Message(number, found[2], sender, receiver, tag, about, found[7].strip(), found[8] is not None)


def core_of(line: str) -> Optional[CoreLine]:
    """The core of its line, without the blanks before it."""
    found = CORE.fullmatch(line)
    return None if found is None else CoreLine(int(found[1]), found[2], found[3], found[4].strip())


def goes_below(line: str, events: List[Event]) -> bool:
    """Whether this line, which is set in, tells something of the last event, and is kept with it."""
    if not events:
        return False
    message, core, watch = message_of(line), core_of(line[2:]), WATCH.fullmatch(line[2:])
    if message is not None:
        events[-1].sent.append(message)
    elif core is not None:
        events[-1].cores.append(core)
    elif watch is not None:
        events[-1].watch.append((watch[1], watch[2]))
    return message is not None or core is not None or watch is not None


def read(text: str) -> Report:
    """The report of this text. Lines that begin with # are of the command's own and are passed over.

    Raises BadReport where a line has another form, or where the events aren't counted from 1."""
    events: List[Event] = []
    counts: Dict[str, int] = {}
    nodes = 0
    for number, line in enumerate(text.splitlines(), 1):
        event, count = event_of(line), COUNT.fullmatch(line)
        if line.startswith("#") or PROBE.fullmatch(line) or WATCH.fullmatch(line):
            continue
        if event is not None and event.place == len(events) + 1:
            events.append(event)
        elif count is not None:
            counts[count[1]] = int(count[2])
        elif core_of(line) is not None:
            nodes += 1
        elif not (line.startswith("  ") and goes_below(line, events)):
            raise BadReport(f"line {number} of the report has another form: {line}")
    if nodes == 0 or counts.get("events") != len(events):
        raise BadReport("the report has no summary of its events")
    return Report(events, nodes, counts)
