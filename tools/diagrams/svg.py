"""SVG as text: numbers of one form, escaped words, and the few elements that a picture is made of."""
from typing import Sequence, Tuple
from xml.sax.saxutils import escape

Point = Tuple[float, float]


def number(value: float) -> str:
    """A coordinate with at most one digit behind the point, the same on each machine."""
    text = f"{value:.1f}"
    return "0" if text in ("-0.0", "0.0") else text[:-2] if text.endswith(".0") else text


def path(points: Sequence[Point], kind: str) -> str:
    """A line through these points."""
    first, rest = points[0], points[1:]
    lines = "".join(f"L{number(x)} {number(y)}" for x, y in rest)
    return f'<path class="{kind}" d="M{number(first[0])} {number(first[1])}{lines}"/>'


def shape(points: Sequence[Point], kind: str) -> str:
    """A closed shape with these corners."""
    return path(points, kind).replace('"/>', 'Z"/>')


def circle(center: Point, radius: float, kind: str) -> str:
    """A circle."""
    return f'<circle class="{kind}" cx="{number(center[0])}" cy="{number(center[1])}" r="{number(radius)}"/>'


def box(left: float, top: float, width: float, height: float, kind: str) -> str:
    """A rectangle with its sides along the axes."""
    return f'<rect class="{kind}" x="{number(left)}" y="{number(top)}" width="{number(width)}" height="{number(height)}"/>'


def words(text: str, left: float, base: float, kind: str) -> str:
    """A line of text at its baseline; `kind` says where it is anchored, how large it is, and in which colour."""
    return f'<text class="{kind}" x="{number(left)}" y="{number(base)}">{escape(text)}</text>'


def group(kind: str, parts: Sequence[str], name: str = "", title: str = "") -> str:
    """Parts under one class, with an id and a title for who hears or points at it, where there are such."""
    head = f'<g class="{kind}"' + (f' id="{name}"' if name else "") + ">"
    return head + (f"<title>{escape(title)}</title>" if title else "") + "".join(parts) + "</g>\n"
