"""The plan of a figure: which events it has, where their rows and the nodes' lanes stand, and how wide its columns are."""
from typing import List, NamedTuple, Tuple

from .labels import digits_width, width
from .report import Event
from .story import Checkpoint, Story

ROW = 24.0
MARGIN = 18.0
TITLE_SIZE = 15.0
HEAD = 42.0
# How far lanes go on below the last row, so that one sees where they do.
TAIL = 12.0
# How far apart lanes stand at most and at least, and how wide all of them may be before they move together.
WIDEST, NARROWEST, LANES = 230.0, 68.0, 800.0


class Plan(NamedTuple):
    """`first` and `last` are the places of the events that are drawn; `last` is `first` - 1 where there is none. Lengths are in the figure's units."""

    story: Story
    title: Tuple[str, ...]
    with_hops: bool
    first: int
    last: int
    numbers: float
    words: float
    left: float
    pitch: float
    top: float

    def events(self) -> List[Event]:
        """The events that are drawn."""
        return self.story.report.events[self.first - 1 : self.last]

    def has(self, place: int) -> bool:
        """Whether the event at this place is drawn."""
        return self.first <= place <= self.last

    def row(self, place: int) -> float:
        """The middle of an event's row, be it drawn or not."""
        return self.top + (place - self.first + 0.5) * ROW

    def bottom(self) -> float:
        """The lower end of the lanes."""
        return self.top + (self.last - self.first + 1) * ROW + TAIL

    def within(self, height: float) -> float:
        """The height, or the border nearest to it."""
        return min(max(height, self.top), self.bottom())

    def lane(self, node: int) -> float:
        """The middle of a node's lane."""
        return self.left + (node + 0.5) * self.pitch

    def band(self) -> float:
        """How wide a lane's ground is."""
        return min(max(0.36 * self.pitch, 24.0), 64.0)

    def right(self) -> float:
        """Where the lanes end and the right margin begins."""
        return self.left + len(self.story.lanes) * self.pitch

    def mark(self, checkpoint: Checkpoint) -> float:
        """The height at which an interval begins, be it drawn or not."""
        if checkpoint.place == 0:
            return self.row(1) - ROW / 2
        return self.row(checkpoint.place) + (ROW / 2 if checkpoint.is_return else 0.0)


def lines_of(text: str, room: float, size: float) -> List[str]:
    """A text as lines that fit into so much room; a word that is longer is broken."""
    lines = [""]
    for word in text.split(" "):
        while True:
            line = f"{lines[-1]} {word}" if lines[-1] else word
            if width(line, size) <= room:
                lines[-1] = line
                break
            if lines[-1]:
                lines.append("")
                continue
            fits = max(1, max(count for count in range(len(word) + 1) if width(word[:count], size) <= room))
            lines[-1], word = word[:fits], word[fits:]
            lines.append("")
    return lines


def plan_of(story: Story, title: str, first: int, last: int, with_hops: bool) -> Plan:
    """The plan of the events from `first` to `last`."""
    drawn = story.report.events[first - 1 : last]
    numbers = digits_width(str(last))
    texts = max((digits_width(event.words()) for event in drawn), default=0.0)
    left = MARGIN + numbers + 8 + texts + 14
    count = len(story.lanes)
    pitch = max(NARROWEST, min(WIDEST, LANES / count))
    lines = lines_of(title, left + count * pitch - MARGIN, TITLE_SIZE * 1.12)
    return Plan(story, tuple(lines), with_hops, first, last, MARGIN + numbers, MARGIN + numbers + 8, left, pitch, MARGIN + 20.0 * len(lines) + HEAD)
