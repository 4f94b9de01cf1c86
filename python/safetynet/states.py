"""The machine's state, as `replay --states` and the looks of `drive` tell it: docs/FORMATS.md, "States as data", and docs/states.schema.json.

Reading is strict: what has another member, or lacks one, is a `ReportError`. Nothing is computed but that the parts of an event's line are put in the
place of those that have their number, as the format says it.
"""
from __future__ import annotations

import json
import re
from dataclasses import dataclass
from typing import Any, Callable, Dict, List, Mapping, Optional, Pattern, Tuple, TypeVar

from .errors import ReportError
from .events import Event, parse_event
from .report import MESSAGES, Core, Message, parse_core, parse_message
from .trace import Record

FORM = "safetynet states 1"
_T = TypeVar("_T")
_Json = Dict[str, Any]


@dataclass(frozen=True)
class CoreState(Core):
    """A core as it stands now.

    Attributes
    ----------
    reservation : int or None
        The block that a load-reserved holds.
    """

    reservation: Optional[int]


@dataclass(frozen=True)
class CacheLine:
    """A line of a node's cache.

    Attributes
    ----------
    block : int
        The block that it holds.
    state : {"S", "O", "M", "E"}
        Shared, owned, modified or exclusive.
    content : bytes
        Its 64 bytes, the lowest address first.
    """

    block: int
    state: str
    content: bytes


@dataclass(frozen=True)
class Miss:
    """What a node's core waits for.

    Attributes
    ----------
    block : int
        The block that it asked for.
    need : {"read", "write"}
        What for.
    issued : int
        The interval in which it asked.
    fixed : int or None
        The interval of atomicity, once the answer is there.
    due, acks : int
        How many acknowledgements are due, and how many are in.
    """

    block: int
    need: str
    issued: int
    fixed: Optional[int]
    due: int
    acks: int


@dataclass(frozen=True)
class Put:
    """A block that a node's cache gives up, and the interval in which it began to."""

    block: int
    issued: int


@dataclass(frozen=True)
class LogEntry:
    """What a node has noted, to go back by it.

    Attributes
    ----------
    interval : int
        The interval in which the block was changed first.
    block : int
        The block.
    old : {"notowned", "owned", "washome", "wascache"}
        What it was before.
    content : bytes or None
        The old content, where it was owned or the home had it.
    owner : int or None
        The node that owned it, where a cache did.
    """

    interval: int
    block: int
    old: str
    content: Optional[bytes] = None
    owner: Optional[int] = None


@dataclass(frozen=True)
class Waiting:
    """What an instruction did that waits for a validation, and the interval in which it retired."""

    interval: int
    record: Record


@dataclass(frozen=True)
class NodeState:
    """A node as it stands now.

    Attributes
    ----------
    node : int
        Its number.
    now, known : int
        Its interval, and the recovery point that it knows.
    core : CoreState
        Its core.
    lines : tuple of CacheLine
        Its cache's lines, in the order of their blocks.
    miss : Miss or None
        The block that it waits for.
    put : Put or None
        The block that it gives up.
    log : tuple of LogEntry
        Its log, the oldest entry first.
    given : bytes
        The input that it was given.
    taken : int
        How many of these bytes its instructions have read.
    waiting : tuple of Waiting
        What waits for a validation, in the order of retirement.
    """

    node: int
    now: int
    known: int
    core: CoreState
    lines: Tuple[CacheLine, ...]
    miss: Optional[Miss]
    put: Optional[Put]
    log: Tuple[LogEntry, ...]
    given: bytes
    taken: int
    waiting: Tuple[Waiting, ...]


@dataclass(frozen=True)
class Transaction:
    """What a home is about with a block.

    Attributes
    ----------
    kind : {"read", "take", "move", "upgrade", "put"}
        What it is.
    requester : int
        The node for which.
    begun : int
        The interval in which it began.
    """

    kind: str
    requester: int
    begun: int


@dataclass(frozen=True)
class Home:
    """A block's home.

    Attributes
    ----------
    block : int
        The block.
    owner : int or None
        The node whose cache owns it; None where the home itself does.
    content : bytes or None
        Its 64 bytes, where the home owns it. Of a program without looks it is None too where the home is as at the start: `Machine.block`.
    sharers : tuple of int
        The nodes that share it.
    transaction : Transaction or None
        What is under way.
    """

    block: int
    owner: Optional[int] = None
    content: Optional[bytes] = None
    sharers: Tuple[int, ...] = ()
    transaction: Optional[Transaction] = None


@dataclass(frozen=True)
class Flight:
    """A message in flight.

    Attributes
    ----------
    message : Message
        The message, as the event that sent it has it among `Answer.sent`.
    switch : str
        The switch in which it stands: ``"a0"`` or ``"b0"`` of node 0.
    content : bytes or None
        The 64 bytes that it brings, if it brings a block.
    """

    message: Message
    switch: str
    content: Optional[bytes] = None

    @property
    def has_arrived(self) -> bool:
        """Whether it stands in a switch of its receiver."""
        return int(self.switch[1:]) == self.message.destination


@dataclass(frozen=True)
class Net:
    """The messages in flight in the order of their numbers, the dead switches, and the number of the next message."""

    flights: Tuple[Flight, ...]
    dead: Tuple[str, ...]
    next: int


@dataclass(frozen=True)
class HeldByte:
    """A byte that was put out and waits for a validation, and the interval in which it was."""

    interval: int
    byte: int


@dataclass(frozen=True)
class Controller:
    """What is known of checkpoints.

    Attributes
    ----------
    point : int
        The recovery point.
    reported : tuple of int
        The checkpoint that each node has reported.
    committed : int
        The records of the committed trace.
    held : tuple of HeldByte
        The bytes that wait for a validation.
    released : int
        How many bytes were put out for good.
    """

    point: int
    reported: Tuple[int, ...]
    committed: int
    held: Tuple[HeldByte, ...]
    released: int


@dataclass(frozen=True)
class State:
    """A machine as it stands now.

    Attributes
    ----------
    nodes : tuple of NodeState
        Each node.
    homes : tuple of Home
        The homes that aren't as at the program's start, in the order of their blocks.
    net : Net
        What is in flight.
    controller : Controller
        The recovery point, and what waits for the next.
    """

    nodes: Tuple[NodeState, ...]
    homes: Tuple[Home, ...]
    net: Net
    controller: Controller

    def home(self, block: int) -> Home:
        """A block's home; where it is as at the program's start, its content isn't told."""
        return next((home for home in self.homes if home.block == block), Home(block))


# What is read. Each of these takes a value of JSON, and fails by `_bad`.


def _bad(what: str, value: Any) -> ReportError:
    text = json.dumps(value)
    return ReportError(f"it isn't {what}: {text[:80]}{'..' if len(text) > 80 else ''}")


def _members(value: Any, what: str, **readers: Callable[[Any], Any]) -> Dict[str, Any]:
    """The members of an object, each as it is read; it has these and no others."""
    if not isinstance(value, dict) or set(value) != set(readers):
        raise _bad(what, value)
    return {name: read(value[name]) for name, read in readers.items()}


def _count(value: Any) -> int:
    if isinstance(value, bool) or not isinstance(value, int) or not 0 <= value < 2**32:
        raise _bad("a number", value)
    return value


def _form(pattern: Pattern[str], what: str, read: Callable[[str], _T]) -> Callable[[Any], _T]:
    def reader(value: Any) -> _T:
        if not isinstance(value, str) or not pattern.fullmatch(value):
            raise _bad(what, value)
        return read(value)

    return reader


def _one_of(*texts: str) -> Callable[[Any], str]:
    return _form(re.compile("|".join(texts)), f"one of {', '.join(texts)}", str)


def _maybe(read: Callable[[Any], _T]) -> Callable[[Any], Optional[_T]]:
    return lambda value: None if value is None else read(value)


def _each(read: Callable[[Any], _T]) -> Callable[[Any], Tuple[_T, ...]]:
    def reader(value: Any) -> Tuple[_T, ...]:
        if not isinstance(value, list):
            raise _bad("a list", value)
        return tuple(map(read, value))

    return reader


def _flag(value: Any) -> bool:
    if not isinstance(value, bool):
        raise _bad("true or false", value)
    return value


_large = _form(re.compile("0|[1-9][0-9]{0,19}"), "a number", int)
_word = _form(re.compile("[0-9a-f]{8}"), "a word", lambda text: int(text, 16))
_byte = _form(re.compile("[0-9a-f]{2}"), "a byte", lambda text: int(text, 16))
_bytes = _form(re.compile("([0-9a-f]{2})*"), "bytes", bytes.fromhex)
_content = _form(re.compile("[0-9a-f]{128}"), "a block's content", bytes.fromhex)
_switch = _form(re.compile("[ab](0|[1-9]|1[0-5])"), "a switch", str)
_end = _form(re.compile("[a-z0-9 ]+"), "how a core has ended", str)


def _registers(value: Any) -> str:
    """Registers as a core's line has them."""
    if not isinstance(value, dict) or not all(isinstance(word, str) for word in value.values()):
        raise _bad("registers", value)
    return "".join(f" {name}={word}" for name, word in value.items())


def core_state(node: int) -> Callable[[Any], CoreState]:
    """Reads the core of this node."""

    def reader(value: Any) -> CoreState:
        found = _members(value, "a core", pc=str, end=_end, registers=_registers, reservation=_maybe(_count))
        core = parse_core(f"core {node} {found['pc']} {found['end']}{found['registers']}", node)
        return CoreState(core.node, core.pc, core.state, core.code, core.cause, core.registers, found["reservation"])

    return reader


def _line(value: Any) -> CacheLine:
    return CacheLine(**_members(value, "a line", block=_count, state=_one_of("S", "O", "M", "E"), content=_content))


def _miss(value: Any) -> Miss:
    need = _one_of("read", "write")
    return Miss(**_members(value, "a miss", block=_count, need=need, issued=_count, fixed=_maybe(_count), due=_count, acks=_count))


def _put(value: Any) -> Put:
    return Put(**_members(value, "a block that is given up", block=_count, issued=_count))


# What an entry has beside its interval and its block, by what it says.
_OLD: Mapping[str, Dict[str, Callable[[Any], Any]]] = {
    "notowned": {},
    "owned": {"content": _content},
    "washome": {"content": _content},
    "wascache": {"owner": _count},
}


def _entry(value: Any) -> LogEntry:
    old = str(value.get("old")) if isinstance(value, dict) else ""
    if old not in _OLD:
        raise _bad("an entry of a log", value)
    return LogEntry(**_members(value, "an entry of a log", interval=_count, block=_count, old=str, **_OLD[old]))


def _waiting(node: int) -> Callable[[Any], Waiting]:
    def reader(value: Any) -> Waiting:
        found = _members(value, "a record", interval=_count, seen=_word, done=_flag, read=_maybe(_byte))
        return Waiting(found["interval"], Record(node, found["seen"], found["done"], found["read"]))

    return reader


def node_state(value: Any) -> NodeState:
    """A node.

    Raises
    ------
    ReportError
        The value is none.
    """
    node = _count(value.get("node") if isinstance(value, dict) else None)
    core, waiting = core_state(node), _each(_waiting(node))
    readers = {"now": _count, "known": _count, "core": core, "lines": _each(_line), "miss": _maybe(_miss), "put": _maybe(_put), "log": _each(_entry)}
    return NodeState(**_members(value, "a node", node=_count, **readers, given=_bytes, taken=_count, waiting=waiting))


def _transaction(value: Any) -> Transaction:
    kind = _one_of("read", "take", "move", "upgrade", "put")
    return Transaction(**_members(value, "a transaction", kind=kind, requester=_count, begun=_count))


def home(value: Any) -> Home:
    """A block's home, told whole.

    Raises
    ------
    ReportError
        The value is none.
    """
    readers = {"owner": _maybe(_count), "content": _maybe(_content), "sharers": _each(_count), "transaction": _maybe(_transaction)}
    found = Home(**_members(value, "a block's home", block=_count, **readers))
    if (found.owner is None) == (found.content is None):
        raise _bad("a block's home", value)
    return found


# The fields of a message under their names here, in place of those that its line has.
_NAMES = {"req": "requester", "acks": "due", "fixed": "fixed"}
_WITH_CONTENT = ("datas", "datam", "datae", "putdata")
_ABOUT_NO_BLOCK = {"ready": "checkpoint", "advance": "point"}


def _message(value: Any) -> Tuple[Message, Optional[bytes]]:
    """A message, and the content that it brings."""
    kind = str(value.get("kind")) if isinstance(value, dict) else ""
    if kind not in MESSAGES:
        raise _bad("a message", value)
    about = _ABOUT_NO_BLOCK.get(kind, "block")
    fields = {_NAMES[name]: _count for name in MESSAGES[kind]}
    content = {"content": _content} if kind in _WITH_CONTENT else {}
    ends = {"from": _count, "to": _count}
    found = _members(value, "a message", id=_large, kind=str, **ends, tag=_count, **{about: _count}, **fields, **content)
    line = f"  msg {found['id']} {kind} {found['from']} {found['to']} {found['tag']} {found[about]}"
    return parse_message(line + "".join(f" {name} {found[_NAMES[name]]}" for name in MESSAGES[kind])), found.get("content")


def _flight(value: Any) -> Flight:
    found = _members(value, "a message in flight", message=_message, switch=_switch)
    message, content = found["message"]
    return Flight(message, found["switch"], content)


def _arrival(value: Any) -> Flight:
    found = _members(value, "a message in flight", flight=_flight, arrived=_flag)
    flight: Flight = found["flight"]
    if flight.has_arrived != found["arrived"]:
        raise _bad("where a message stands", value)
    return flight


def flights(value: Any) -> Tuple[Flight, ...]:
    """The messages in flight, as the look at them alone tells them.

    Raises
    ------
    ReportError
        The value is none of these.
    """
    found: Tuple[Flight, ...] = _members(value, "messages in flight", flights=_each(_arrival))["flights"]
    return found


def _net(value: Any) -> Net:
    found = _members(value, "a network", messages=_each(_flight), dead=_each(_switch), next=_large)
    return Net(found["messages"], found["dead"], found["next"])


def _held(value: Any) -> HeldByte:
    return HeldByte(**_members(value, "a byte that is held", interval=_count, byte=_byte))


def _controller(value: Any) -> Controller:
    readers = {"point": _count, "reported": _each(_count), "committed": _count, "held": _each(_held), "released": _count}
    return Controller(**_members(value, "a controller", **readers))


def state(value: Any) -> State:
    """A whole state.

    Raises
    ------
    ReportError
        The value is none.
    """
    return State(**_members(value, "a state", nodes=_each(node_state), homes=_each(home), net=_net, controller=_controller))


def due_event(value: Any) -> Optional[Event]:
    """The event that is due, or None where none is.

    Raises
    ------
    ReportError
        The value is neither.
    """
    line = _members(value, "what is due", event=_maybe(str))["event"]
    try:
        return None if line is None else parse_event(line)
    except ValueError:
        raise _bad("an event that is due", value) from None


def read_json(text: str) -> Any:
    """The value of a line of JSON.

    Raises
    ------
    ReportError
        The line is none.
    """
    try:
        return json.loads(text)
    except ValueError as error:
        raise ReportError(f"it is no JSON: {error}", 1, text.split("\n")[0][:80]) from None


def _folded(before: _Json, line: _Json) -> Any:
    """The state after an event, from that before it and the event's line."""
    if "state" in line:
        return line["state"]
    parts = line["parts"]
    nodes = {node["node"]: node for node in [*before["nodes"], *parts["nodes"]]}
    homes = {one["block"]: one for one in [*before["homes"], *parts["homes"]]}
    return {
        "nodes": [nodes[number] for number in sorted(nodes)],
        # one that is told by its block alone is as at the start, and is listed no more
        "homes": [homes[block] for block in sorted(homes) if len(homes[block]) > 1],
        "net": parts["net"] or before["net"],
        "controller": parts["controller"] or before["controller"],
    }


def last_state(text: str, events: int) -> State:
    """The state after the last of so many events, from the report of ``replay --states``, with ``--only`` the last one where there is one.

    Raises
    ------
    ReportError
        It isn't that report.
    """
    lines: List[_Json] = [read_json(line) for line in text.splitlines()]
    before: _Json = {"form": FORM, "events": max(events - 1, 0)}
    wanted = [before, {"place": events}] if events > 0 else [before]
    is_whole = len(lines) == len(wanted) + 1 and all(isinstance(line, dict) for line in lines) and "summary" in lines[-1]
    if not is_whole or any(line.get(name) != value for line, members in zip(lines, wanted) for name, value in members.items()):
        raise ReportError(f'these aren\'t the states around event {events} in the form "{FORM}"')
    try:
        value: Any = lines[0]["state"]
        for line in lines[1:-1]:
            value = _folded(value, line)
    except (KeyError, TypeError):
        raise ReportError("the parts of an event's line have another form") from None
    return state(value)
