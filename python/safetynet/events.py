"""The events of a machine, and the lines of a script that say them.

An event here has a script's form. Whether its node, block or switch is there the program says, since it alone knows the machine.
"""
from __future__ import annotations

import re
from dataclasses import dataclass
from functools import lru_cache
from typing import Callable, ClassVar, Dict, Iterable, List, Tuple, Union

_NUMBER = re.compile(r"0|[1-9][0-9]{0,19}")
_SWITCH = re.compile(r"[ab](0|[1-9][0-9]{0,19})")
_BYTE = re.compile(r"[0-9a-f]{2}")
_MOST = 2**64


def _checked(value: object, below: int, what: str) -> int:
    if isinstance(value, bool) or not isinstance(value, int):
        raise ValueError(f"{what} is a number and not {value!r}")
    if not 0 <= value < below:
        raise ValueError(f"{what} {value} isn't from 0 to {below - 1}")
    return value


@dataclass(frozen=True)
class Event:
    """One event, applied to the whole machine in one step; ``str`` gives its line of a script, without the line's end.

    Raises
    ------
    ValueError
        Where one is made of numbers that no script has: negative, 2**64 or more, no number at all.
    """

    word: ClassVar[str] = ""

    def operands(self) -> Tuple[str, ...]:
        """What stands behind the event's word, word by word."""
        return ()

    def __str__(self) -> str:
        return " ".join((self.word, *self.operands()))


@dataclass(frozen=True)
class _OfNode(Event):
    node: int

    def __post_init__(self) -> None:
        _checked(self.node, _MOST, "a node")

    def operands(self) -> Tuple[str, ...]:
        return (str(self.node),)


@dataclass(frozen=True)
class _OfMessage(Event):
    id: int

    def __post_init__(self) -> None:
        _checked(self.id, _MOST, "a message")

    def operands(self) -> Tuple[str, ...]:
        return (str(self.id),)


@dataclass(frozen=True)
class Step(_OfNode):
    """The node's core does one instruction."""

    word: ClassVar[str] = "step"


@dataclass(frozen=True)
class Evict(_OfNode):
    """The node's cache gives up a block: the 64 bytes from 80000000 + 64 * block on."""

    word: ClassVar[str] = "evict"
    block: int

    def __post_init__(self) -> None:
        super().__post_init__()
        _checked(self.block, _MOST, "a block")

    def operands(self) -> Tuple[str, ...]:
        return str(self.node), str(self.block)


@dataclass(frozen=True)
class Edge(_OfNode):
    """The node takes a checkpoint, and its next interval begins."""

    word: ClassVar[str] = "edge"


@dataclass(frozen=True)
class Hop(_OfMessage):
    """A message goes on to its next switch."""

    word: ClassVar[str] = "hop"


@dataclass(frozen=True)
class Deliver(_OfMessage):
    """A message that stands at its receiver is taken."""

    word: ClassVar[str] = "deliver"


@dataclass(frozen=True)
class Lose(_OfMessage):
    """A message is lost."""

    word: ClassVar[str] = "lose"


@dataclass(frozen=True)
class Kill(Event):
    """A switch dies, with the messages in it: ``"a0"`` or ``"b0"`` is switch A or B of node 0."""

    word: ClassVar[str] = "kill"
    switch: str

    def __post_init__(self) -> None:
        found = _SWITCH.fullmatch(self.switch) if isinstance(self.switch, str) else None
        if found is None or int(found[1]) >= _MOST:
            raise ValueError(f"a switch is a or b and its node, and not {self.switch!r}")

    def operands(self) -> Tuple[str, ...]:
        return (self.switch,)


@dataclass(frozen=True)
class Report(_OfNode):
    """The node tells up to which checkpoint it has completed everything."""

    word: ClassVar[str] = "report"


@dataclass(frozen=True)
class Validate(Event):
    """The recovery point rises by one checkpoint."""

    word: ClassVar[str] = "validate"


@dataclass(frozen=True)
class Recover(Event):
    """The whole machine goes back to the recovery point."""

    word: ClassVar[str] = "recover"


@dataclass(frozen=True)
class Input(_OfNode):
    """The node is given a byte, 0 to 255."""

    word: ClassVar[str] = "input"
    byte: int

    def __post_init__(self) -> None:
        super().__post_init__()
        _checked(self.byte, 256, "a byte")

    def operands(self) -> Tuple[str, ...]:
        return str(self.node), f"{self.byte:02x}"


EventLike = Union[Event, str]


def _number(text: str) -> int:
    if not _NUMBER.fullmatch(text):
        raise ValueError(f"{text!r} is no number without sign and leading zero")
    return int(text)


def _byte(text: str) -> int:
    if not _BYTE.fullmatch(text):
        raise ValueError(f"{text!r} isn't two lower-case hexadecimal digits")
    return int(text, 16)


# What reads the words behind each event's word, by their number.
_READERS: Dict[str, Tuple[int, Callable[[List[str]], Event]]] = {
    "step": (1, lambda words: Step(_number(words[0]))),
    "evict": (2, lambda words: Evict(_number(words[0]), _number(words[1]))),
    "edge": (1, lambda words: Edge(_number(words[0]))),
    "hop": (1, lambda words: Hop(_number(words[0]))),
    "deliver": (1, lambda words: Deliver(_number(words[0]))),
    "lose": (1, lambda words: Lose(_number(words[0]))),
    "kill": (1, lambda words: Kill(words[0])),
    "report": (1, lambda words: Report(_number(words[0]))),
    "validate": (0, lambda words: Validate()),
    "recover": (0, lambda words: Recover()),
    "input": (2, lambda words: Input(_number(words[0]), _byte(words[1]))),
}


def parse_event(line: str) -> Event:
    """The event that a line of a script says.

    Parameters
    ----------
    line : str
        The line without its end; neither empty nor a comment.

    Raises
    ------
    ValueError
        The line is no event.
    """
    if not isinstance(line, str):
        raise ValueError(f"an event is an Event or a line, and not {line!r}")
    return _event_in(line)


@lru_cache(maxsize=4096)
def _event_in(line: str) -> Event:
    """The event of a line; an event has no state, so that many lines may share one."""
    word, *operands = line.split(" ")
    count, read = _READERS.get(word, (-1, None))
    if read is None or len(operands) != count:
        raise ValueError(f"this line is no event: {line!r}")
    try:
        return read(operands)
    except ValueError as error:
        raise ValueError(f"this line is no event: {line!r}: {error}") from None


def event_of(given: EventLike) -> Event:
    """The event that is given, as such or as a line.

    Raises
    ------
    ValueError
        It is neither.
    """
    if isinstance(given, Event):
        if not given.word:
            raise ValueError(f"{given!r} is no event of a script")
        return given
    return parse_event(given)


def lines_of(text: str) -> List[str]:
    """The lines of a text as the program reads it: each ends with LF or CR LF, and the last may lack its end."""
    lines = text.split("\n")
    last = lines.pop()
    found = [line[:-1] if line.endswith("\r") else line for line in lines]
    return found + [last] if last else found


def parse_script(text: str) -> List[Event]:
    """The events of a script, in their order.

    Parameters
    ----------
    text : str
        One event a line; empty lines and lines that begin with ``#`` are skipped.

    Raises
    ------
    ValueError
        A line is no event; the message names the line, from 1.
    """
    events = []
    for number, line in enumerate(lines_of(text), 1):
        if line and not line.startswith("#"):
            try:
                events.append(parse_event(line))
            except ValueError as error:
                raise ValueError(f"line {number}: {error}") from None
    return events


def script_text(events: Iterable[EventLike]) -> str:
    """A script of these events, a line each.

    Raises
    ------
    ValueError
        One is no event.
    """
    return "".join(f"{event_of(event)}\n" for event in events)
