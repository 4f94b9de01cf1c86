"""A run's journal: each event, and the worker in whose turn it was. Its text is a script (docs/FORMATS.md, "A journal")."""
from __future__ import annotations

import re
from typing import Iterable, Iterator, List, NamedTuple, Sequence, Tuple, Union, overload

from .events import Event, lines_of, parse_event

_WORKER = re.compile(r"# worker (0|[1-9][0-9]*)")


class Turn(NamedTuple):
    """An event and the worker, counted from 0, in whose turn it was."""

    worker: int
    event: Event

    def __str__(self) -> str:
        return f"# worker {self.worker}\n{self.event}\n"


class Journal(Sequence[Turn]):
    """The turns of a run in their order; ``str`` gives the script with a note of the worker above each event."""

    def __init__(self, turns: Iterable[Turn] = ()) -> None:
        self._turns = tuple(turns)

    @classmethod
    def parse(cls, text: str) -> "Journal":
        """The journal that a text says, without the summary below it.

        Raises
        ------
        ValueError
            A line is neither a worker's note nor the event below one; the message names the line, from 1.
        """
        turns: List[Turn] = []
        lines = lines_of(text)
        for place in range(0, len(lines), 2):
            noted = _WORKER.fullmatch(lines[place])
            if noted is None:
                raise ValueError(f"line {place + 1}: a worker's note is due, and not {lines[place]!r}")
            if place + 1 == len(lines):
                raise ValueError(f"line {place + 2}: an event is due")
            try:
                turns.append(Turn(int(noted[1]), parse_event(lines[place + 1])))
            except ValueError as error:
                raise ValueError(f"line {place + 2}: {error}") from None
        return cls(turns)

    @property
    def events(self) -> Tuple[Event, ...]:
        """The events alone, which `replay` takes."""
        return tuple(turn.event for turn in self._turns)

    def of_worker(self, worker: int) -> Tuple[Event, ...]:
        """The events of one worker's turns."""
        return tuple(turn.event for turn in self._turns if turn.worker == worker)

    def __iter__(self) -> Iterator[Turn]:
        return iter(self._turns)

    def __len__(self) -> int:
        return len(self._turns)

    @overload
    def __getitem__(self, place: int) -> Turn: ...

    @overload
    def __getitem__(self, place: slice) -> "Journal": ...

    def __getitem__(self, place: Union[int, slice]) -> "Union[Turn, Journal]":
        return self._turns[place] if isinstance(place, int) else Journal(self._turns[place])

    def __eq__(self, other: object) -> bool:
        return isinstance(other, Journal) and self._turns == other._turns

    def __hash__(self) -> int:
        return hash(self._turns)

    def __str__(self) -> str:
        return "".join(map(str, self._turns))

    def __repr__(self) -> str:
        return f"<Journal of {len(self)} turns>"
