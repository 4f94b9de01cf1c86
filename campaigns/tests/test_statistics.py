"""Lines of statistics, apart and behind the reports that the repository stores."""
from __future__ import annotations

import pytest
from safetynet.errors import ReportError
from safetynet.program import Called
from safetynet.report import parse_summary

from campaign.plan import TOP
from campaign.rows import TALLY, Row, row_of_call, row_of_line
from campaign.settings import Settings, settings_of
from campaign.statistics import parted_statistics

SUMMARY = (TOP / "examples/order/drawn.report").read_text()
LINES = """stat events 30
stat retired 12345
stat sent_getm 7
stat undone_entries_sum 6
stat 0 most_entries 31
stat 1 most_entries 40
stat recovery 1 at 20114 to 3 undone 7021 entries 6 messages 2
stat recovery 2 at 30000 to 3 undone 1 entries 0 messages 0
"""


def test_a_report_without_statistics_stays_as_it_is() -> None:
    report, found = parted_statistics(SUMMARY)
    assert report == SUMMARY and found.numbers == {} and found.recoveries == []


def test_each_form_of_a_statistic_is_taken_and_the_rest_is_the_summary() -> None:
    report, found = parted_statistics(SUMMARY + LINES)
    assert report == SUMMARY
    assert found.numbers == {
        "events": 30,
        "retired": 12345,
        "sent_getm": 7,
        "undone_entries_sum": 6,
        "most_entries.0": 31,
        "most_entries.1": 40,
        "most_entries.greatest": 40,
        "most_entries.sum": 71,
    }
    assert found.recoveries[0] == {"recovery": 1, "at": 20114, "to": 3, "undone": 7021, "entries": 6, "messages": 2}
    assert [one["recovery"] for one in found.recoveries] == [1, 2]


def test_in_a_journal_statistics_have_the_mark_of_the_summary() -> None:
    journal = "# worker 0\nstep 0\n" + "".join(f"# {line}\n" for line in (SUMMARY + LINES).splitlines())
    report, found = parted_statistics(journal)
    assert found == parted_statistics(LINES)[1] and report.endswith(f"# {SUMMARY.splitlines()[-1]}\n")


@pytest.mark.parametrize(
    "line",
    ["stat", "stat retired", "stat retired x", "stat retired 01", "stat Retired 1", "stat 1 2", "stat retired 1 ", "stat recovery 0 at 1", "stat recovery 1 at"],
)
def test_a_line_of_another_form_is_named(line: str) -> None:
    text = f"{SUMMARY}{line} \n" if line == "stat" else f"{SUMMARY}{line}\n"
    with pytest.raises(ReportError) as error:
        parted_statistics(text)
    assert error.value.line == len(text.splitlines()) and line in error.value.text


def test_a_statistic_that_stands_twice_is_refused() -> None:
    with pytest.raises(ReportError, match="twice"):
        parted_statistics("stat 0 log 1\nstat 0 log 1\n")


def test_a_run_has_the_numbers_of_its_report() -> None:
    called = Called(0, "done", None, b"AABBCCDD", SUMMARY + LINES.split("\n", 1)[1])
    row = row_of_call(3, Settings("a.hex"), "", called, with_journal=False)
    summary = parse_summary(SUMMARY)
    assert (row.numbers["events"], row.numbers["committed"]) == (summary.events, summary.committed)
    assert [row.numbers[f"events.{kind}"] for kind in TALLY] == list(summary.probes[0])
    assert row.numbers["retired"] == 12345 and len(row.recoveries) == 2 and row.is_result


def test_a_statistic_with_the_name_of_a_number_of_the_summary_is_that_number_or_told_apart() -> None:
    events = next(line for line in SUMMARY.splitlines() if line.startswith("events "))
    row = row_of_call(1, Settings("a.hex"), "", Called(6, "budget", "spent", b"", f"{SUMMARY}stat {events}\nstat committed 5\n"), with_journal=False)
    assert row.numbers["stat.committed"] == 5 and row.numbers["committed"] != 5 and "stat.events" not in row.numbers and row.end == "budget"


def test_a_report_of_another_form_is_no_row() -> None:
    with pytest.raises(ReportError):
        row_of_call(1, Settings("a.hex"), "", Called(0, "done", None, b"", "events x\n"), with_journal=False)


def test_a_row_is_read_back_from_its_line() -> None:
    settings = Settings("a.hex", kill="a1@500", seed=2**64 - 1)
    row = Row(7, settings, "images/a-4.hex", 8, "cutoff 0 1", 'why "so"', 2, "journals/7.script", {"events": 3}, [{"recovery": 1}])
    assert row_of_line(row.line()) == row and row.line().count("\n") == 1
    for line in ("", "{}", '{"run":1}', row.line()[:-5]):
        with pytest.raises(ValueError):
            row_of_line(line)


def test_settings_are_words_and_are_read_back_from_their_texts() -> None:
    settings = Settings("a.hex", nodes=2, lose_every=9, kill="b0@7", order="round")
    words = settings.words("image", "--journal")
    assert words[:5] == ["run", "--order", "round", "--nodes", "2"] and words[-4:] == ["--kill", "b0@7", "--journal", "image"]
    assert words[words.index("--lose-every") + 1] == "9" and "--kill" not in Settings("a.hex").words("image")
    assert settings.replay_words("image", "journal") == ["replay", "--nodes", "2", "--sets", "16", "--ways", "4", "--log", "256", "image", "journal"]
    assert settings_of({name: str(value) for name, value in settings.values().items()}) == settings
