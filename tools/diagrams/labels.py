"""How wide words are at most, and where labels find room.

Widths are those of DejaVu Sans, the widest of the fonts that the style names, so what finds room here has room in the others too."""
from typing import Dict, Iterable, List, NamedTuple, Optional, Sequence, Tuple

from .svg import Point

# Thousandths of the font's size.
WIDTHS: Dict[str, int] = {
    **dict.fromkeys("ijl'", 278), **dict.fromkeys(" f.,:;|!()[]It/", 402), **dict.fromkeys("rs-", 521),
    **dict.fromkeys("m%@WM", 1000), **dict.fromkeys("w", 818), **dict.fromkeys("→×=+<>~", 838),
    **dict.fromkeys("GOQDHNU", 787),
}
MONOSPACED = 602
SIZE = 11.0
HEIGHT = 13.4


def width(text: str, size: float = SIZE) -> float:
    """The most that a text takes, in the figure's units."""
    return sum(WIDTHS.get(letter, 700 if ord(letter) < 0x250 else 1100) for letter in text) * size / 1000


def digits_width(text: str, size: float = SIZE) -> float:
    """The same in the font whose letters are equally wide."""
    return len(text) * MONOSPACED * size / 1000


class Box(NamedTuple):
    """Room that is taken."""

    left: float
    top: float
    right: float
    bottom: float

    def meets(self, other: "Box") -> bool:
        """Whether they share room."""
        return self.left < other.right and other.left < self.right and self.top < other.bottom and other.top < self.bottom


def box_around(center: Point, wide: float, high: float = HEIGHT) -> Box:
    """The box of this size with its middle here."""
    return Box(center[0] - wide / 2, center[1] - high / 2, center[0] + wide / 2, center[1] + high / 2)


def crosses(box: Box, line: Tuple[Point, Point]) -> bool:
    """Whether a straight line runs through a box."""
    (x0, y0), (x1, y1) = line
    enters, leaves = 0.0, 1.0
    for begin, along, low, high in ((x0, x1 - x0, box.left, box.right), (y0, y1 - y0, box.top, box.bottom)):
        if along == 0:
            if not low < begin < high:
                return False
            continue
        first, last = sorted(((low - begin) / along, (high - begin) / along))
        enters, leaves = max(enters, first), min(leaves, last)
    return enters < leaves


class Room:
    """The room of a figure: boxes that are taken, and lines that a label had better not cover. Both are kept by strips of its height."""

    STRIP = 48.0
    MANY = 30

    def __init__(self) -> None:
        self.boxes: Dict[int, List[Box]] = {}
        self.lines: Dict[int, List[Tuple[Point, Point]]] = {}

    def strips(self, top: float, bottom: float) -> range:
        """The strips between two heights."""
        return range(int(top // self.STRIP), int(bottom // self.STRIP) + 1)

    def take(self, box: Box) -> None:
        """This room is taken now."""
        for strip in self.strips(box.top, box.bottom):
            self.boxes.setdefault(strip, []).append(box)

    def draw(self, points: Sequence[Point]) -> None:
        """A line runs through these points."""
        for line in zip(points, points[1:]):
            for strip in self.strips(*sorted((line[0][1], line[1][1]))):
                self.lines.setdefault(strip, []).append(line)

    def is_free(self, box: Box) -> bool:
        """Whether nothing stands here."""
        return not any(box.meets(other) for strip in self.strips(box.top, box.bottom) for other in self.boxes.get(strip, []))

    def lines_through(self, box: Box) -> int:
        """How many lines run here, of the first MANY of each strip: where there are more, one more or less is not seen."""
        near = {line for strip in self.strips(box.top, box.bottom) for line in self.lines.get(strip, [])[: self.MANY]}
        return sum(1 for line in near if crosses(box, line))

    def best(self, centers: Iterable[Point], wide: float) -> Optional[Point]:
        """The first of these middles of a label whose box is free with the fewest lines through it; none where no box is free. It is taken."""
        found, fewest = None, self.MANY * len(self.boxes) + 1
        for center in centers:
            box = box_around(center, wide)
            if not self.is_free(box):
                continue
            through = self.lines_through(box)
            if through < fewest:
                found, fewest = center, through
            if through == 0:
                break
        if found is not None:
            self.take(box_around(found, wide))
        return found
