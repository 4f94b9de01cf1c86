"""Traces as text and as tables."""
from __future__ import annotations

import importlib
from typing import Any

import pytest
from hypothesis import given
from hypothesis import strategies as some

from safetynet import Record, Trace
from stored import EXAMPLES

RECORDS = some.builds(
    Record, some.integers(0, 15), some.integers(0, 2**32 - 1), some.booleans(), some.one_of(some.none(), some.integers(0, 255))
)


@given(some.lists(RECORDS))
def test_a_trace_is_read_back(records: "list[Record]") -> None:
    trace = Trace(records)
    assert Trace.parse(str(trace)) == trace and list(trace) == records and len(trace) == len(records)


@pytest.mark.parametrize("file", sorted((EXAMPLES / "traces").glob("*.trace")), ids=lambda file: file.stem)
def test_a_stored_trace_is_printed_back(file: Any) -> None:
    said = "".join(line + "\n" for line in file.read_text().splitlines() if line and not line.startswith("#"))
    assert str(Trace.parse(file.read_bytes())) == said


@pytest.mark.parametrize(
    "line", ["0 00000000", "0 00000000 2", "0 0000000G 0", "0 0000000 0", "00 00000000 0", "0 00000000 0 4", "0  00000000 0", "0 00000000 0 4A", "é"]
)
def test_a_line_that_is_no_record_is_named(line: str) -> None:
    with pytest.raises(ValueError, match="line 2: "):
        Trace.parse(f"0 00000000 0\n{line}\n0 00000000 0\n")


@pytest.mark.parametrize(
    "record",
    [Record(-1, 0), Record(0, 2**32), Record(0, -1), Record(0, 0, False, 256), Record(0, 0, 2), Record("0", 0)],  # type: ignore[arg-type]
)
def test_a_record_that_no_line_says_is_refused(record: Record) -> None:
    with pytest.raises(ValueError, match="record 2"):
        Trace([Record(0, 0), record])


def test_a_part_of_a_trace_is_one() -> None:
    trace = Trace([Record(0, 1), Record(1, 2), Record(0, 3)])
    assert trace[1:] == Trace([Record(1, 2), Record(0, 3)]) and trace[0].seen == 1 and trace[-1].seen == 3


def test_a_table_where_pandas_is_there() -> None:
    pandas = pytest.importorskip("pandas")
    table = Trace([Record(0, 1), Record(1, 2, True, 65)]).to_pandas()
    assert isinstance(table, pandas.DataFrame) and list(table.columns) == ["core", "seen", "done", "byte"]
    assert list(table["seen"]) == [1, 2] and table["byte"].isna().tolist() == [True, False]


def test_without_pandas_the_error_says_what_to_install(monkeypatch: pytest.MonkeyPatch) -> None:
    def lacks(name: str) -> Any:
        raise ImportError(name)

    monkeypatch.setattr(importlib, "import_module", lacks)
    with pytest.raises(ImportError, match="pip install pandas"):
        Trace().to_pandas()
