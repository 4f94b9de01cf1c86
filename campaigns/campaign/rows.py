"""A run's row: its settings, how it ended, and the numbers that it said."""
from __future__ import annotations

import json
from dataclasses import dataclass, field
from typing import Any, Dict, List

from safetynet.program import Called
from safetynet.report import Summary, parse_summary, parted_summary

from .settings import Settings, settings_of
from .statistics import Recovery, Statistics, parted_statistics

# The statuses whose report is whole: done, its budget spent, two nodes cut off, a core trapped.
RESULT_STATUSES = (0, 6, 8, 10)
# The statuses by which the program refuses words or files: trying again gives the same.
REFUSAL_STATUSES = (1, 3)
DIED = "died"
# What the places of the program's probe count: docs/FORMATS.md, "The report".
TALLY = ("step", "evict", "edge", "hop", "deliver", "lose", "kill", "report", "validate", "recover")


@dataclass(frozen=True)
class Row:
    """What is kept of a run.

    Attributes
    ----------
    run : int
        Its number in the campaign, from 1.
    settings : Settings
        Its configuration.
    image : str
        The file that was made of the program and run, from the campaign's folder; empty where the program itself was run.
    status : int
        The program's status; of a run that died 127, or the signal's number with a minus sign.
    words : str
        How it ended: ``"done"``, ``"budget"``, ``"cutoff 0 1"``, ``"trapped 0 illegal"``, a refusal, or ``"died"``.
    why : str
        What the program, or the system, says of that.
    tries : int
        How often it was tried.
    journal : str
        The file of its journal, from the campaign's folder; empty where none is kept.
    numbers : dict
        Summary, tally and statistics by their names.
    recoveries : list
        Its recoveries, where the program tells them.
    """

    run: int
    settings: Settings
    image: str
    status: int
    words: str
    why: str = ""
    tries: int = 1
    journal: str = ""
    numbers: Dict[str, int] = field(default_factory=dict)
    recoveries: List[Recovery] = field(default_factory=list)

    @property
    def end(self) -> str:
        """The first word of how it ended."""
        return self.words.split(" ")[0]

    @property
    def is_result(self) -> bool:
        """Whether it ended as a run may end."""
        return self.status in RESULT_STATUSES

    def line(self) -> str:
        """The row as a line of JSON."""
        return json.dumps({**self.__dict__, "settings": self.settings.values()}, separators=(",", ":")) + "\n"


def row_of_line(line: str) -> Row:
    """The row that a line of JSON has.

    Raises
    ------
    ValueError
        It isn't such a line.
    """
    try:
        values: Dict[str, Any] = json.loads(line)
        values["settings"] = settings_of(values["settings"])
        return Row(**values)
    except (KeyError, TypeError) as error:
        raise ValueError(f"it is no row: {error}") from None


def numbers_of(summary: Summary, statistics: Statistics) -> Dict[str, int]:
    """The numbers of a run by their names: the summary's, ``events.KIND`` of each kind of event, and the statistics."""
    found = {"events": summary.events, "point": summary.point, "committed": summary.committed, "released": summary.released}
    if summary.probes:
        found.update({f"events.{kind}": count for kind, count in zip(TALLY, summary.probes[0])})
    for name, value in statistics.numbers.items():
        # A statistic with the name of a number of the summary is that number, or is told apart from it.
        if found.setdefault(name, value) != value:
            found[f"stat.{name}"] = value
    return found


def row_of_call(run: int, settings: Settings, image: str, called: Called, with_journal: bool) -> Row:
    """The row of a run as the program ended it.

    Raises
    ------
    safetynet.ReportError
        Its report is of another form.
    """
    if called.status not in RESULT_STATUSES:
        return Row(run, settings, image, called.status, called.words, called.why or "")
    report, statistics = parted_statistics(called.report)
    summary = parted_summary(report)[1] if with_journal else parse_summary(report)
    numbers = numbers_of(summary, statistics)
    return Row(run, settings, image, called.status, called.words, called.why or "", 1, "", numbers, statistics.recoveries)
