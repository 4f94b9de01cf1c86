"""The lines of ``--statistics``, which a report has behind its summary: docs/FORMATS.md.

``stat NAME VALUE`` is a number of the run, ``stat NODE NAME VALUE`` one of a node, and ``stat recovery K at E to P ..`` a recovery. Which names there
are the program says: whatever has one of these forms is taken. In a journal each line has ``"# "`` before it, like the summary.
"""
from __future__ import annotations

import re
from dataclasses import dataclass, field
from typing import Dict, List, Tuple

from safetynet.errors import ReportError

_STATISTIC = re.compile(r"(?:# )?stat (?:(0|[1-9][0-9]?) )?([a-z][a-z0-9_.-]*(?: [a-z][a-z0-9_.-]*)*) (0|[1-9][0-9]*)")
_RECOVERY = re.compile(r"(?:# )?stat recovery ([1-9][0-9]*)((?: [a-z][a-z0-9_-]* (?:0|[1-9][0-9]*))+)")
_MARKS = ("stat ", "# stat ")

# A recovery: its number, and then what stands in its line, by its names.
Recovery = Dict[str, int]


@dataclass
class Statistics:
    """What a report's statistics say.

    Attributes
    ----------
    numbers : dict
        Of the run by name; of a node by ``NAME.NODE``; and over the nodes ``NAME.greatest`` and ``NAME.sum``. Blanks in a name are dots.
    recoveries : list
        One a recovery, in order.
    """

    numbers: Dict[str, int] = field(default_factory=dict)
    recoveries: List[Recovery] = field(default_factory=list)


def _add(numbers: Dict[str, int], name: str, value: int, line: int, text: str) -> None:
    if name in numbers:
        raise ReportError("this statistic stands twice", line, text)
    numbers[name] = value


def _recovery(number: str, rest: str) -> Recovery:
    words = rest.split()
    return {"recovery": int(number), **{name: int(value) for name, value in zip(words[::2], words[1::2])}}


def parted_statistics(report: str) -> Tuple[str, Statistics]:
    """A report without its statistics, and these.

    Raises
    ------
    ReportError
        A line that begins with ``stat`` has another form, or stands twice.
    """
    found = Statistics()
    of_nodes: Dict[str, List[int]] = {}
    kept: List[str] = []
    # A journal has many lines above its summary, and none of them is a statistic.
    above = report[: max(report.rfind("\nevents "), report.rfind("\n# events ")) + 1]
    for place, line in enumerate(report[len(above) :].splitlines(keepends=True), above.count("\n") + 1):
        text = line.rstrip("\n")
        if not text.startswith(_MARKS):
            kept.append(line)
            continue
        recovery, statistic = _RECOVERY.fullmatch(text), _STATISTIC.fullmatch(text)
        if recovery:
            found.recoveries.append(_recovery(recovery[1], recovery[2]))
        elif statistic:
            node, name, value = statistic[1], statistic[2].replace(" ", "."), int(statistic[3])
            _add(found.numbers, name if node is None else f"{name}.{node}", value, place, text)
            if node is not None:
                of_nodes.setdefault(name, []).append(value)
        else:
            raise ReportError("this is no statistic", place, text)
    for name, values in of_nodes.items():
        found.numbers[f"{name}.greatest"] = max(values)
        found.numbers[f"{name}.sum"] = sum(values)
    return above + "".join(kept), found
