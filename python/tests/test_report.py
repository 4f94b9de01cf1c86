"""Reports: read exactly, and printed back to the same bytes."""
from __future__ import annotations

import pytest

from safetynet import ReplayReport, ReportError, parse_report, parse_script, parse_summary, replay
from stored import NAMES, SHARED, STORED, Stored

WATCHED = (SHARED / "shared_word.report").read_text()
LINES = WATCHED.split("\n")


def test_there_are_stored_reports() -> None:
    assert len(STORED) > 20


@pytest.mark.parametrize("stored", STORED, ids=NAMES)
def test_a_stored_report_is_printed_back(stored: Stored) -> None:
    report = parse_report(stored.report.encode())
    assert str(report) == stored.report
    assert [answer.event for answer in report.answers] == parse_script(stored.script.read_text())


@pytest.mark.parametrize("stored", STORED, ids=NAMES)
def test_a_replay_gives_the_stored_report(stored: Stored) -> None:
    given = replay(stored.program, stored.script, **stored.options)
    assert str(ReplayReport(given.answers, given.summary)) == stored.report
    assert given.console == stored.console


def test_the_parts_of_a_report() -> None:
    report = parse_report(WATCHED)
    forwarded = report.answers[11].sent[0]
    assert (forwarded.kind, forwarded.source, forwarded.destination, forwarded.block) == ("fwdgetm", 0, 0, 64)
    assert (forwarded.requester, forwarded.acks, forwarded.fixed, forwarded.lost) == (1, 0, None, False)
    recovery = report.answers[26]
    assert (recovery.name, recovery.fields) == ("recovered", (1, 0, 2))
    assert [core.registers[7] for core in recovery.cores] == [0, 1]
    assert recovery.watches[0].word == 2
    assert (report.summary.point, report.summary.committed, report.summary.probes[0][3]) == (1, 6, 4)


def test_a_message_that_was_lost_at_once() -> None:
    report = parse_report((SHARED / "dead_switch.report").read_text())
    assert report.answers[3].sent[0].lost


@pytest.mark.parametrize("place", [place for place, line in enumerate(LINES[:-1]) if not line.startswith("  msg")])
def test_a_line_that_is_lacking_is_found(place: int) -> None:
    # the last of a list, as the tally, may be lacking; that is another report then
    without = "\n".join(LINES[:place] + LINES[place + 1 :])
    if place == len(LINES) - 2 or LINES[place].lstrip().startswith(("core 1 ", "watch ")):
        assert str(parse_report(without)) == without
    else:
        with pytest.raises(ReportError) as found:
            parse_report(without)
        assert found.value.line >= 1 or "ends after" in str(found.value)


@pytest.mark.parametrize("place", [place for place, line in enumerate(LINES[:-1]) if not line.lstrip().startswith(("msg", "watch"))])
def test_a_line_that_stands_twice_is_named(place: int) -> None:
    with pytest.raises(ReportError) as found:
        parse_report("\n".join(LINES[: place + 1] + LINES[place:]))
    assert (found.value.line, found.value.text) == (place + 2, LINES[place])


@pytest.mark.parametrize("place", range(len(LINES) - 1))
@pytest.mark.parametrize("how", [" {}", "{} ", "{}\r", "{} 0", "0{}", "\u00e9{}", "{}é"])
def test_a_line_of_another_form_is_named(place: int, how: str) -> None:
    changed = how.format(LINES[place])
    with pytest.raises(ReportError) as found:
        parse_report("\n".join(LINES[:place] + [changed] + LINES[place + 1 :]))
    assert (found.value.line, found.value.text) == (place + 1, changed)


@pytest.mark.parametrize(
    "old,new",
    [
        ("1 step 0: retired", "1 step 0: retirred"),
        ("1 step 0: retired", "1 step 0: edged"),
        ("1 step 0: retired", "1 step 00: retired"),
        ("19 edge 0: edged 1", "19 edge 0: edged 01"),
        ("msg 1 getm 0 0 0 64", "msg 1 getn 0 0 0 64"),
        ("msg 1 getm 0 0 0 64", "msg 1 getm 0 0 0 64 acks 0"),
        ("msg 2 datam 0 0 0 64 acks 0", "msg 2 datam 0 0 0 64"),
        ("recovered 1 undone 0 dropped 2", "recovered 1 dropped 2 undone 0"),
        ("core 1 8000000c running", "core 2 8000000c running"),
        ("core 1 8000000c running", "core 1 8000000C running"),
        ("core 1 8000000c running", "core 1 8000000c trapped nothing"),
        ("x6=00000001", "x6=00000000"),
        ("x6=00000001", "x32=00000001"),
        ("x5=80001000 x6=00000001", "x6=00000001 x5=80001000"),
        ("watch 80001000 00000002", "watch 80001000 2"),
        ("events 27", "events 28"),
        ("probe 0 3 4", "probe 0 4 4"),
        ("probe 0 9 1\n", "probe 0 9 1\nseen 1 1\n"),
        ("probe 0 9 1\n", "probe 0 9 1"),
    ],
)
def test_a_change_is_found(old: str, new: str) -> None:
    assert old in WATCHED
    with pytest.raises(ReportError) as found:
        parse_report(WATCHED.replace(old, new, 1))
    assert found.value.line > 0 and found.value.words == "report"


@pytest.mark.parametrize("text", ["", "events 0\n", "1 step 0: retired\n", "\n"])
def test_a_report_that_is_cut_off_is_found(text: str) -> None:
    with pytest.raises(ReportError):
        parse_report(text)


def test_a_summary_alone() -> None:
    summary = WATCHED[WATCHED.index("events 27") :]
    assert str(parse_summary(summary)) == summary
    noted = "".join(f"# {line}\n" for line in summary.splitlines())
    assert parse_summary(noted, "# ") == parse_summary(summary)
