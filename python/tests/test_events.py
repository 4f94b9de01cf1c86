"""Events and the lines that say them."""
from __future__ import annotations

from typing import Any, Callable

import pytest
from hypothesis import given
from hypothesis import strategies as some

from safetynet import Deliver, Edge, Event, Evict, Hop, Input, Kill, Lose, Recover, Report, Step, Validate, parse_event, parse_script, replay, script_text
from safetynet import SafetyNetError

NODE, MESSAGE = some.integers(0, 15), some.integers(0, 2**64 - 1)
EVENTS = some.one_of(
    *(some.builds(kind, NODE) for kind in (Step, Edge, Report)),
    *(some.builds(kind, MESSAGE) for kind in (Hop, Deliver, Lose)),
    some.builds(Evict, NODE, some.integers(0, 65535)),
    some.builds(Kill, some.builds("{}{}".format, some.sampled_from("ab"), NODE)),
    some.builds(Input, NODE, some.integers(0, 255)),
    some.just(Validate()),
    some.just(Recover()),
)

# Each line, and whether it is an event.
LINES = [
    ("step 0", True),
    ("evict 0 65535", True),
    ("hop 18446744073709551615", True),
    ("hop 18446744073709551616", False),
    ("hop 99999999999999999999", False),
    ("kill a0", True),
    ("kill b3", True),
    ("kill c0", False),
    ("kill a", False),
    ("kill a00", False),
    ("kill 0", False),
    ("validate", True),
    ("validate 0", False),
    ("recover ", False),
    (" step 0", False),
    ("step  0", False),
    ("step\t0", False),
    ("step 00", False),
    ("step +0", False),
    ("step -0", False),
    ("step", False),
    ("step 0 0", False),
    ("Step 0", False),
    ("step 0\r", False),
    ("input 0 ff", True),
    ("input 0 FF", False),
    ("input 0 f", False),
    ("input 0", False),
    ("0 00000000 0", False),
]


@given(EVENTS)
def test_each_event_is_read_back_from_its_line(event: Event) -> None:
    assert parse_event(str(event)) == event


@given(some.lists(EVENTS))
def test_a_script_is_read_back(events: "list[Event]") -> None:
    assert parse_script(script_text(events)) == events


@pytest.mark.parametrize("line,is_event", LINES)
def test_a_line_is_an_event_where_the_program_says_so(line: str, is_event: bool) -> None:
    try:
        parse_event(line)
        taken = True
    except ValueError as error:
        assert repr(line) in str(error)
        taken = False
    assert taken == is_event
    try:
        replay([0x73], line.encode())
        told = True
    except SafetyNetError as error:
        assert error.words == "script badline"
        told = False
    assert told == is_event


@pytest.mark.parametrize(
    "make",
    [
        lambda: Step(-1),
        lambda: Step(True),
        lambda: Step("0"),  # type: ignore[arg-type]
        lambda: Hop(2**64),
        lambda: Deliver(1.0),  # type: ignore[arg-type]
        lambda: Evict(0, -1),
        lambda: Input(0, 256),
        lambda: Kill("c0"),
        lambda: Kill(0),  # type: ignore[arg-type]
        lambda: parse_event(b"step 0"),  # type: ignore[arg-type]
        lambda: script_text([Event()]),
        lambda: script_text([3]),  # type: ignore[list-item]
        lambda: script_text(["# a comment"]),
        lambda: script_text([""]),
    ],
)
def test_what_no_script_has_is_refused(make: Callable[[], Any]) -> None:
    with pytest.raises(ValueError):
        make()


def test_a_script_skips_comments_and_takes_both_line_ends() -> None:
    assert parse_script("# one\r\n\nstep 0\r\nedge 1") == [Step(0), Edge(1)]


def test_a_bad_line_is_named() -> None:
    with pytest.raises(ValueError, match="line 3: .*'stepp 0'"):
        parse_script("# one\nstep 0\nstepp 0\n")
