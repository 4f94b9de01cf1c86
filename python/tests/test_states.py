"""The state of a machine: what `replay --states` and the looks of `drive` tell, read exactly."""
from __future__ import annotations

import json
import random
from dataclasses import replace
from typing import Any, Callable, Dict, List, Tuple

import pytest

from safetynet import Edge, Flight, Input, Machine, Message, ReportError, Step, parse_script, states
from schedules import InFlight, checkpoint
from stored import NAMES, SHARED, STORED, Stored
from test_machine import any_event

COUNT = SHARED / "count.hex"
ECHO = SHARED / "echo.hex"
FIRST = (
    '{"form":"safetynet states 1","nodes":1,"sets":16,"ways":4,"log":256,"entry":"80000000","events":0,"state":{"nodes":[{"node":0,"now":0,"known":0,'
    '"core":{"pc":"80000000","end":"running","registers":{},"reservation":null},"lines":[],"miss":null,"put":null,"log":[],"given":"","taken":0,'
    '"waiting":[]}],"homes":[{"block":3,"owner":0,"content":null,"sharers":[],"transaction":null},{"block":4,"owner":0,"content":null,"sharers":[],'
    '"transaction":{"kind":"read","requester":0,"begun":0}}],"net":{"messages":[],"dead":[],"next":"1"},"controller":{"point":0,"reported":[0],"committed":0,'
    '"held":[],"released":0}}}\n'
)
LAST = '{"summary":{"events":1,"point":0,"committed":0,"released":0,"cores":[],"watch":null,"probes":[]}}\n'


def event_line(**parts: Any) -> str:
    """An event's line that tells these parts."""
    whole: Dict[str, Any] = {"nodes": [], "homes": [], "net": None, "controller": None, **parts}
    return json.dumps({"place": 1, "event": "step 0", "answer": "retired", "sent": [], "parts": whole}) + "\n"


def test_parts_stand_in_the_place_of_those_of_their_number() -> None:
    before = states.last_state(FIRST + LAST, 0)
    whole: Dict[str, Any] = json.loads(FIRST)["state"]
    node = {**whole["nodes"][0], "now": 7}
    home = {"block": 2, "owner": None, "content": "ab" * 64, "sharers": [0, 2], "transaction": None}
    after = states.last_state(FIRST + event_line(nodes=[node], homes=[home]) + LAST, 1)
    assert after == replace(before, nodes=(replace(before.nodes[0], now=7),), homes=(after.home(2), *before.homes))
    assert after.home(2).content == b"\xab" * 64 and after.home(2).sharers == (0, 2) and after.home(9).owner is None
    # one that is as at the start is told by its block alone
    assert states.last_state(FIRST + event_line(homes=[{"block": 3}]) + LAST, 1).homes == before.homes[1:]
    net = {"messages": [], "dead": ["b0"], "next": "18446744073709551615"}
    assert states.last_state(FIRST + event_line(net=net) + LAST, 1).net == states.Net((), ("b0",), 2**64 - 1)
    recovered = {"place": 1, "event": "recover", "answer": "recovered 0 undone 0 dropped 0", "sent": [], "recovery": {}, "state": {**whole, "homes": []}}
    assert states.last_state(FIRST + json.dumps(recovered) + "\n" + LAST, 1) == replace(before, homes=())


def test_a_core_and_a_node_are_read_whole() -> None:
    core: Dict[str, Any] = {"pc": "8000000c", "end": "trapped illegal", "registers": {"x5": "80001000", "x31": "ffffffff"}, "reservation": 64}
    found = states.core_state(3)(core)
    assert str(found) == "core 3 8000000c trapped illegal x5=80001000 x31=ffffffff" and found.reservation == 64
    content = "00" * 63 + "ff"
    node = {
        "node": 3,
        "now": 2,
        "known": 1,
        "core": {**core, "end": "exited 7"},
        "lines": [{"block": 64, "state": "M", "content": content}],
        "miss": {"block": 65, "need": "write", "issued": 1, "fixed": None, "due": 2, "acks": 1},
        "put": {"block": 66, "issued": 1},
        "log": [
            {"interval": 1, "block": 1, "old": "notowned"},
            {"interval": 1, "block": 2, "old": "owned", "content": content},
            {"interval": 2, "block": 3, "old": "washome", "content": content},
            {"interval": 2, "block": 4, "old": "wascache", "owner": 1},
        ],
        "given": "410a",
        "taken": 1,
        "waiting": [{"interval": 2, "seen": "00000041", "done": True, "read": "41"}],
    }
    read = states.node_state(node)
    assert read.core.code == 7 and read.lines[0].content[63] == 255 and read.given == b"A\n"
    assert read.log[3].owner == 1 and read.log[1].content == read.lines[0].content and read.log[0].content is None
    assert str(read.waiting[0].record) == "3 00000041 1 41" and read.miss is not None and read.miss.fixed is None
    for name in node:
        with pytest.raises(ReportError):
            states.node_state({other: value for other, value in node.items() if other != name})
    with pytest.raises(ReportError):
        states.node_state({**node, "more": 1})


MESSAGES: List[Tuple[Dict[str, Any], str, int]] = [
    ({"kind": "getm", "block": 5}, "  msg 7 getm 0 1 2 5", 0),
    ({"kind": "fwdgetm", "block": 5, "requester": 3, "due": 2}, "  msg 7 fwdgetm 0 1 2 5 req 3 acks 2", 0),
    ({"kind": "datam", "block": 5, "content": "01" * 64, "due": 1}, "  msg 7 datam 0 1 2 5 acks 1", 64),
    ({"kind": "putdata", "block": 5, "content": "01" * 64}, "  msg 7 putdata 0 1 2 5", 64),
    ({"kind": "unblock", "block": 5, "fixed": 4}, "  msg 7 unblock 0 1 2 5 fixed 4", 0),
    ({"kind": "ready", "checkpoint": 3}, "  msg 7 ready 0 1 2 3", 0),
    ({"kind": "advance", "point": 3}, "  msg 7 advance 0 1 2 3", 0),
]


@pytest.mark.parametrize("fields,line,size", MESSAGES, ids=[fields["kind"] for fields, _, _ in MESSAGES])
def test_a_message_in_flight_is_the_message_that_was_sent(fields: Dict[str, Any], line: str, size: int) -> None:
    message = {"id": "7", "from": 0, "to": 1, "tag": 2, **fields}
    for switch, arrived in (("a1", True), ("b0", False)):
        shown: Dict[str, Any] = {"flight": {"message": message, "switch": switch}, "arrived": arrived}
        (flight,) = states.flights({"flights": [shown]})
        assert str(flight.message) == line and flight.has_arrived == arrived and len(flight.content or b"") == size
        with pytest.raises(ReportError):
            states.flights({"flights": [{**shown, "arrived": not arrived}]})
    for name in message:
        with pytest.raises(ReportError):
            states.flights({"flights": [{"flight": {"message": {**message, name: None}, "switch": "a1"}, "arrived": True}]})


WRONG: List[Tuple[str, str]] = [
    ('"form":"safetynet states 1"', '"form":"safetynet states 2"'),
    ('"now":0', '"now":-1'),
    ('"now":0', '"now":"0"'),
    ('"now":0', '"now":true'),
    ('"now":0,', ""),
    ('"pc":"80000000"', '"pc":"8000000"'),
    ('"pc":"80000000"', '"pc":5'),
    ('"end":"running"', '"end":"asleep"'),
    ('"registers":{}', '"registers":{"x0":"00000001"}'),
    ('"registers":{}', '"registers":{"x5":"00000000"}'),
    ('"registers":{}', '"registers":{"x5":7}'),
    ('"registers":{}', '"registers":{"x6":"00000001","x5":"00000001"}'),
    ('"lines":[]', '"lines":[{"block":1,"state":"I","content":"' + "00" * 64 + '"}]'),
    ('"lines":[]', '"lines":[{"block":1,"state":"S","content":"00"}]'),
    ('"log":[]', '"log":[{"interval":0,"block":1,"old":"owned"}]'),
    ('"log":[]', '"log":[{"interval":0,"block":1,"old":"notowned","owner":0}]'),
    ('"log":[]', '"log":null'),
    ('"given":""', '"given":"4"'),
    ('"owner":0,"content":null', '"owner":0,"content":"' + "00" * 64 + '"'),
    ('"owner":0,"content":null', '"owner":null,"content":null'),
    ('"kind":"read"', '"kind":"look"'),
    ('"dead":[]', '"dead":["c1"]'),
    ('"next":"1"', '"next":1'),
    ('"messages":[]', '"messages":[{"message":{"id":"1","kind":"hello","from":0,"to":0,"tag":0,"block":1},"switch":"a0"}]'),
    ('"controller":{', '"controller":{"more":1,'),
    ('"nodes":[', '"nodes":[{},'),
    ('{"summary"', '{"sum"'),
    ("{", "["),
]


@pytest.mark.parametrize("old,new", WRONG)
def test_a_state_of_another_form_is_told(old: str, new: str) -> None:
    text = FIRST + LAST
    assert old in text
    with pytest.raises(ReportError):
        states.last_state(text.replace(old, new, 1), 0)


@pytest.mark.parametrize("text", ["", "\n", "{}", "null\n", FIRST, LAST, FIRST + event_line() + LAST, LAST + FIRST, FIRST + LAST + LAST])
def test_what_has_other_lines_is_told(text: str) -> None:
    with pytest.raises(ReportError):
        states.last_state(text, 0)


@pytest.mark.parametrize("parts", [{"nodes": 3}, {"nodes": [{}]}, {"homes": [[]]}, {"net": 5}])
def test_parts_of_another_form_are_told(parts: Dict[str, Any]) -> None:
    with pytest.raises(ReportError):
        states.last_state(FIRST + event_line(**parts) + LAST, 1)


# Over the real program.


def all_looks(machine: Machine) -> List[Any]:
    """What each look shows."""
    nodes = range(machine.nodes)
    return [machine.flights(), *map(machine.core, nodes), *map(machine.node, nodes), *(machine.block(block) for block in range(60, 70))]


def looks_in(state: states.State) -> List[Any]:
    """The same, of a state."""
    cores = [node.core for node in state.nodes]
    return [state.net.flights, *cores, *state.nodes, *map(state.home, range(60, 70))]


def same(shown: List[Any], found: List[Any]) -> bool:
    """Whether looks show the same; of a home that is as at the start a state has no content."""
    return all(one == other or isinstance(other, states.Home) and replace(one, content=None) == other for one, other in zip(shown, found))


@pytest.mark.parametrize("seed", range(25))
def test_looks_show_what_the_states_tell(seed: int, older: str) -> None:
    drawn = random.Random(seed)
    with Machine(drawn.choice([COUNT, ECHO]), nodes=drawn.choice([1, 2, 3])) as machine:
        for _ in range(3):
            machine.apply_all([any_event(drawn, machine) for _ in range(drawn.randrange(30))])
            if drawn.random() < 0.3:
                checkpoint(machine)
            shown = all_looks(machine)
            state = machine.state
            with Machine(machine._loaded.program, nodes=machine.nodes, command=older) as other:
                other.apply_all(answer.event for answer in machine.answers)
                assert other.state == state and all_looks(other) == looks_in(other.state)
            assert same(shown, looks_in(state)) and same(all_looks(machine), looks_in(state))
            points = machine.summary()
            assert (state.controller.point, state.controller.committed, state.controller.released) == (points.point, points.committed, points.released)


def test_what_is_in_flight_was_sent(command: str) -> None:
    with Machine(COUNT, nodes=2, command=command) as machine:
        machine.apply_all(["step 1"] * 3)
        (flight,) = machine.flights()
        assert flight == Flight(machine.answers[2].sent[0], "a1") and not flight.has_arrived
        machine.hop(1)
        assert machine.flights()[0].has_arrived and isinstance(machine.flights()[0].message, Message)
        machine.deliver(1)
        assert {flight.message for flight in machine.flights()} == set(InFlight.of(machine).messages.values())
        machine.kill("a0")
        assert machine.state.net.dead == ("a0",)


def test_a_state_goes_with_its_machine(command: str) -> None:
    with Machine(ECHO, nodes=2, command=command) as machine:
        start = machine.state
        machine.apply_all([Input(1, 65), Step(0), Edge(1)])
        assert machine.node(1).given == b"A" and machine.node(1).now == 1 and machine.node(0).now == 0
        assert machine.core(0).pc != machine.core(1).pc and len(machine.node(0).waiting) == 1
        machine.back(0)
        assert machine.state == start and machine.core(0) == machine.state.nodes[0].core
        with pytest.raises(ValueError):
            machine.apply_all([Step(0), Step(2)])
        assert machine.state == start
        other = machine.fork()
        other.step(0)
        assert other.state != start and machine.state is machine.state == start


@pytest.mark.parametrize("number", [-1, 2, 65536, True, "0", None, 2**70])
def test_a_look_at_what_is_not_there_is_refused(command: str, number: Any) -> None:
    with Machine(COUNT, nodes=2, command=command) as machine:
        looks: List[Callable[[Any], object]] = [machine.core, machine.node]
        for look in [*looks, machine.block] if number != 2 else looks:
            with pytest.raises(ValueError, match="is a number from 0 to"):
                look(number)


@pytest.mark.parametrize("stored", STORED[:6], ids=NAMES[:6])
def test_a_stored_run_has_its_state(stored: Stored, command: str) -> None:
    sizes = {name: value for name, value in stored.options.items() if name != "watch"}
    with Machine(stored.program, **sizes, command=command) as machine:
        machine.apply_all(parse_script(stored.script.read_text()))
        assert machine.state.controller.released == len(stored.console)
        assert len(machine.state.nodes) == machine.nodes
