"""The statistics of a replay: docs/FORMATS.md, "Statistics".

All is counted in events, instructions and messages, since the machine has no time. Any name is taken, so that a new one needs no change here; the
order of the lines is kept, and ``str`` gives the same bytes.
"""
from __future__ import annotations

import re
from dataclasses import dataclass, field
from typing import Dict, List, Tuple

from .errors import ReportError

_OF_MACHINE = re.compile(r"stat ([a-z][a-z_]*) (0|[1-9][0-9]{0,19})")
_OF_NODE = re.compile(r"stat (0|[1-9][0-9]?) ([a-z][a-z_]*) (0|[1-9][0-9]{0,19})")
_OF_RECOVERY = re.compile("stat recovery " + " ".join(f"{word}(0|[1-9][0-9]{{0,19}})" for word in ("", "at ", "to ", "undone ", "entries ", "messages ")))


@dataclass(frozen=True)
class Spread:
    """Something that was measured each time that it happened.

    Attributes
    ----------
    count : int
        How often it happened.
    sum : int
        All measures together.
    greatest : int
        The greatest of them; 0 where there is none.
    """

    count: int
    sum: int
    greatest: int


@dataclass(frozen=True)
class Recovery:
    """What one recovery took back.

    Attributes
    ----------
    number : int
        Which recovery it is, from 1.
    event : int
        The place of its event, from 1.
    checkpoint : int
        The recovery point that the machine went back to.
    instructions, entries, messages : int
        How many instructions were taken back, how many log entries undone, and how many messages in flight dropped.
    """

    number: int
    event: int
    checkpoint: int
    instructions: int
    entries: int
    messages: int

    def __str__(self) -> str:
        took = f"undone {self.instructions} entries {self.entries} messages {self.messages}"
        return f"stat recovery {self.number} at {self.event} to {self.checkpoint} {took}"


@dataclass(frozen=True)
class Statistics:
    """What a replay's events come to, counted; ``str`` gives its lines.

    Attributes
    ----------
    counts : dict from str to int
        Of the whole machine by name, in the order of the report: ``counts["retired"]``, ``counts["sent_getm"]``.
    of_nodes : tuple of dict from str to int
        The same of each node: ``of_nodes[0]["committed"]``.
    recoveries : tuple of Recovery
        Each recovery, in order.
    """

    counts: Dict[str, int]
    of_nodes: Tuple[Dict[str, int], ...] = ()
    recoveries: Tuple[Recovery, ...] = field(default=())

    def __getitem__(self, name: str) -> int:
        """A number of the whole machine. Raises KeyError where the program has no statistic of that name."""
        return self.counts[name]

    def spread(self, name: str) -> Spread:
        """A measure, as ``spread("validation_events")``: in events, instructions, entries or messages, as the name says.

        Raises
        ------
        KeyError
            There is no measure of that name.
        """
        return Spread(self.counts[f"{name}_count"], self.counts[f"{name}_sum"], self.counts[f"{name}_greatest"])

    def __str__(self) -> str:
        lines = [f"stat {name} {value}" for name, value in self.counts.items()]
        lines += [f"stat {node} {name} {value}" for node, counts in enumerate(self.of_nodes) for name, value in counts.items()]
        return "".join(f"{line}\n" for line in [*lines, *map(str, self.recoveries)])


def parse_statistics(text: str) -> Statistics:
    """The statistics that a text's lines say, which all begin with ``stat``.

    Raises
    ------
    ReportError
        A line has another form, has a name that was there already, or stands where it can't.
    """
    counts: Dict[str, int] = {}
    of_nodes: List[Dict[str, int]] = []
    recoveries: List[Recovery] = []
    lines = text.split("\n")
    if lines.pop() != "":
        raise ReportError("the last line of the statistics has no end", len(lines) + 1)
    for place, line in enumerate(lines, 1):
        if not _is_taken(line, counts, of_nodes, recoveries):
            raise ReportError("it isn't the next line of statistics", place, line)
    if not counts:
        raise ReportError("the statistics are lacking")
    return Statistics(counts, tuple(of_nodes), tuple(recoveries))


def _is_taken(line: str, counts: Dict[str, int], of_nodes: List[Dict[str, int]], recoveries: List[Recovery]) -> bool:
    """Puts a line where it belongs; whether it has such a place."""
    found = _OF_RECOVERY.fullmatch(line)
    if found:
        recoveries.append(Recovery(*map(int, found.groups())))
        return recoveries[-1].number == len(recoveries)
    if recoveries:
        return False
    found = _OF_NODE.fullmatch(line)
    if found:
        node, name = int(found[1]), found[2]
        if node == len(of_nodes):
            of_nodes.append({})
        if node != len(of_nodes) - 1 or name in of_nodes[node]:
            return False
        of_nodes[node][name] = int(found[3])
        return True
    found = _OF_MACHINE.fullmatch(line)
    if found is None or of_nodes or found[1] in counts:
        return False
    counts[found[1]] = int(found[2])
    return True


def parted_statistics(text: str) -> Tuple[str, Statistics]:
    """What stands above the statistics of a report, and the statistics.

    Raises
    ------
    ReportError
        They aren't there, or a line of them has another form.
    """
    place = text.find("\nstat ") + 1
    if place == 0:
        raise ReportError("the statistics are lacking")
    return text[:place], parse_statistics(text[place:])
