"""What the program's commands give: replays, runs and verdicts."""
from __future__ import annotations

from dataclasses import dataclass, field
from typing import Optional, Tuple

from .access import Access
from .backends import Loaded
from .journal import Journal
from .notebook import drawn, picture_or_table
from .report import Answer, Summary
from .statistics import Statistics
from .trace import Trace


@dataclass(frozen=True)
class Replay:
    """What a replay gave.

    Attributes
    ----------
    answers : tuple of Answer
        One an event; none where the trace was asked for.
    summary : Summary
        The machine at its recovery point, at the end.
    console : bytes
        What the program put out and was validated.
    trace : Trace or None
        The committed trace, where it was asked for.
    statistics : Statistics or None
        What the events come to, counted, where it was asked for.
    origin : Loaded or None
        What was called, by which `picture` is drawn.
    """

    answers: Tuple[Answer, ...]
    summary: Summary
    console: bytes
    trace: Optional[Trace] = None
    statistics: Optional[Statistics] = None
    origin: Optional[Loaded] = field(default=None, repr=False, compare=False)

    def picture(self) -> str:
        """The replay as a space-time diagram, an SVG file's text: `tools/diagram` draws it.

        Raises
        ------
        SafetyNetError
            There are no answers, the tool isn't there, or there are more events than it draws, 2,000.
        """
        return drawn(self.origin, [answer.event for answer in self.answers], "A replay")

    def _repr_html_(self) -> str:
        return picture_or_table(self.picture, self.summary)


@dataclass(frozen=True)
class Run:
    """What a run, or the demo, gave.

    Attributes
    ----------
    status : int
        0, or 6 where its budget was spent, 8 where two nodes were cut off, 10 where a core trapped.
    words : str
        How it ended: ``"done"``, ``"budget"``, ``"cutoff 0 1"``, ``"trapped 0 illegal"``.
    summary : Summary
        The machine at its recovery point, at the end.
    console : bytes
        What the program put out and was validated.
    journal : Journal or None
        Each event with its worker, where it was asked for.
    trace : Trace or None
        The committed trace, where it was asked for.
    why : str or None
        More on how it ended, where the program says it.
    statistics : Statistics or None
        What its events come to, counted, where it was asked for.
    seed : int or None
        Of one of several runs its seed.
    accesses : tuple of Access or None
        The accesses of the committed trace, where they were asked for.
    origin : Loaded or None
        Of a run with its journal what was called, by which `picture` is drawn.
    """

    status: int
    words: str
    summary: Summary
    console: bytes
    journal: Optional[Journal] = None
    trace: Optional[Trace] = None
    why: Optional[str] = None
    statistics: Optional[Statistics] = None
    seed: Optional[int] = None
    accesses: Optional[Tuple[Access, ...]] = None
    origin: Optional[Loaded] = field(default=None, repr=False, compare=False)

    def picture(self) -> str:
        """The run as a space-time diagram, an SVG file's text: `tools/diagram` draws the replay of its journal.

        Raises
        ------
        SafetyNetError
            The journal wasn't asked for, the tool isn't there, or there are more events than it draws, 2,000.
        """
        return drawn(self.origin, self.journal.events if self.journal is not None else (), "A run")

    def _repr_html_(self) -> str:
        return picture_or_table(self.picture, self.summary)


@dataclass(frozen=True)
class Verdict:
    """A verdict on a trace or on a list of accesses; true where it is legal.

    Attributes
    ----------
    legal : bool
        Whether the trace is an execution of the program, or each access is legal after those before it.
    records : int or None
        Of a legal one how many records or accesses it has.
    place : int or None
        Of another the place, from 1, of the first record or access that can't come after those before it.
    why : str or None
        What was expected there, where the program says it.
    """

    legal: bool
    records: Optional[int] = None
    place: Optional[int] = None
    why: Optional[str] = None

    def __bool__(self) -> bool:
        return self.legal
