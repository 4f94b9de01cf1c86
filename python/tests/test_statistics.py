"""Statistics: read exactly, and printed back to the same bytes."""
from __future__ import annotations

import pytest

from safetynet import Machine, ReportError, Spread, parse_script, replay
from safetynet.statistics import parse_statistics, parted_statistics
from stored import NAMES, SHARED, STORED, Stored

COUNT = SHARED / "count.hex"
TEXT = """stat events 9
stat retired 4
stat sent_getm 1
stat validation_events_count 2
stat validation_events_sum 7
stat validation_events_greatest 5
stat 0 committed 3
stat 0 most_held 0
stat 1 committed 1
stat 1 most_held 18446744073709551615
stat recovery 1 at 9 to 1 undone 1 entries 0 messages 1
stat recovery 2 at 12 to 1 undone 0 entries 4 messages 2
"""


def test_each_line_has_its_place() -> None:
    found = parse_statistics(TEXT)
    assert str(found) == TEXT
    assert found["retired"] == found.counts["retired"] == 4 and list(found.counts)[:2] == ["events", "retired"]
    assert found.spread("validation_events") == Spread(count=2, sum=7, greatest=5)
    assert found.of_nodes[1] == {"committed": 1, "most_held": 2**64 - 1}
    assert [one.event for one in found.recoveries] == [9, 12] and found.recoveries[1].entries == 4
    for missing in ("committed", "nothing"):
        with pytest.raises(KeyError):
            found[missing]
        with pytest.raises(KeyError):
            found.spread(missing)


def test_they_stand_below_a_summary() -> None:
    above = "events 0\npoint 0\n"
    assert parted_statistics(above + TEXT) == (above, parse_statistics(TEXT))
    with pytest.raises(ReportError, match="lacking"):
        parted_statistics(above)


@pytest.mark.parametrize(
    "old,new",
    [
        ("stat events 9", "stat events 09"),
        ("stat events 9", "stat events -9"),
        ("stat events 9", "stat Events 9"),
        ("stat events 9", "stats events 9"),
        ("stat events 9", "stat events  9"),
        ("stat retired 4", "stat events 4"),
        ("stat 0 committed 3", "stat 1 committed 3"),
        ("stat 1 committed 1", "stat 2 committed 1"),
        ("stat 1 committed 1", "stat 0 committed 1"),
        ("stat 1 committed 1", "stat retired_once 1"),
        ("stat recovery 1 at", "stat recovery 2 at"),
        ("undone 1 entries 0", "entries 0 undone 1"),
        ("messages 1", "messages"),
        ("stat recovery 2", "stat 1 recovery 2"),
        ("messages 2\n", "messages 2"),
        ("messages 2\n", "messages 2\nstat events 9\n"),
        ("messages 2\n", "messages 2\nprobe 0 0 1\n"),
    ],
)
def test_another_form_is_told(old: str, new: str) -> None:
    assert old in TEXT
    with pytest.raises(ReportError):
        parse_statistics(TEXT.replace(old, new, 1))


@pytest.mark.parametrize("stored", STORED, ids=NAMES)
def test_a_stored_run_has_its_statistics(stored: Stored) -> None:
    given = replay(stored.program, stored.script, statistics=True, **stored.options)
    assert given.statistics is not None
    plain = replay(stored.program, stored.script, **stored.options)
    assert (given.answers, given.summary, given.console, plain.statistics) == (plain.answers, plain.summary, plain.console, None)
    counts = given.statistics
    assert counts["events"] == len(plain.answers)
    for name in ("retired", "missed", "delivered", "validated", "recovered"):
        assert counts[name] == sum(answer.name == name for answer in plain.answers)
    assert counts["refused_held"] == sum(answer.name == "held" for answer in plain.answers)
    assert counts["sent_getm"] == sum(message.kind == "getm" for answer in plain.answers for message in answer.sent)
    assert len(counts.of_nodes) == len(plain.summary.cores)
    recoveries = [(answer.place, *answer.fields) for answer in plain.answers if answer.name == "recovered"]
    assert [(one.event, one.checkpoint, one.entries, one.messages) for one in counts.recoveries] == recoveries


def test_a_machine_has_its_statistics(command: str) -> None:
    with Machine(COUNT, nodes=2, command=command) as machine:
        assert machine.statistics()["events"] == 0
        machine.apply_all(parse_script((SHARED / "shared_word.script").read_text()))
        counts = machine.statistics()
        assert counts is machine.statistics() and counts["events"] == machine.mark() and machine.summary().events == machine.mark()
        machine.step(0)
        assert machine.statistics()["events"] == counts["events"] + 1
