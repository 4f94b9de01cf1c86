"""Messages as arrows. A line says what the message carries, its end what became of it."""
from math import hypot
from typing import Dict, List, Sequence, Tuple

from .labels import HEIGHT, Room, width
from .routes import CROSS, HEAD, OPEN, Way
from .report import Message
from .story import DELIVERED, DROPPED, GONE, LOST, UNCLEAR, Life
from .svg import Point, circle, group, number, path, shape, words

# Of each kind of message the colour and the line.
ASKS, GIVES, SHARES, SAYS, POINT = ("asks", "line"), ("gives", "double"), ("gives", "thick"), ("says", "line"), ("point", "line")
LOOKS: Dict[str, Tuple[str, str]] = {
    **dict.fromkeys(("gets", "getm", "fwdgets", "fwdgetm", "inv", "putreq", "putgo"), ASKS),
    **dict.fromkeys(("datam", "datae", "putdata"), GIVES),
    "datas": SHARES,
    **dict.fromkeys(("upgok", "invack", "unblock", "putdone"), SAYS),
    **dict.fromkeys(("ready", "advance"), POINT),
}
CORNER = 7.0


def look_of(kind: str) -> Tuple[str, str]:
    """The colour and the line of a kind."""
    return LOOKS.get(kind, SAYS)


def toward(start: Point, end: Point, far: float) -> Point:
    """The point that lies so far from `start` on the way to `end`, and halfway at most."""
    long = hypot(end[0] - start[0], end[1] - start[1])
    share = 0.0 if long == 0 else min(far / long, 0.5)
    return (start[0] + share * (end[0] - start[0]), start[1] + share * (end[1] - start[1]))


def rounded(points: Sequence[Point], kind: str) -> str:
    """A line through these points with round corners."""
    text = f"M{number(points[0][0])} {number(points[0][1])}"
    for before, corner, after in zip(points, points[1:], points[2:]):
        begins, ends = toward(corner, before, CORNER), toward(corner, after, CORNER)
        text += f"L{number(begins[0])} {number(begins[1])}Q{number(corner[0])} {number(corner[1])} {number(ends[0])} {number(ends[1])}"
    return f'<path class="{kind}" d="{text}L{number(points[-1][0])} {number(points[-1][1])}"/>'


def stopped(points: Sequence[Point], short: float) -> List[Point]:
    """The line without its last bit, as long as `short`."""
    before, tip = points[-2], points[-1]
    long = hypot(tip[0] - before[0], tip[1] - before[1])
    share = 0.0 if long == 0 else min(short / long, 0.9)
    return [*points[:-1], (tip[0] - share * (tip[0] - before[0]), tip[1] - share * (tip[1] - before[1]))]


def head(before: Point, tip: Point, look: Tuple[str, str]) -> str:
    """An arrow's head at `tip`: open for requests, and filled for all that answers."""
    long = hypot(tip[0] - before[0], tip[1] - before[1]) or 1.0
    ahead, aside = (tip[0] - before[0]) / long, (tip[1] - before[1]) / long
    size, half = (11.0, 5.0) if look[1] != "line" else (9.0, 3.8)
    foot = (tip[0] - size * ahead, tip[1] - size * aside)
    corners = [(foot[0] - half * aside, foot[1] + half * ahead), tip, (foot[0] + half * aside, foot[1] - half * ahead)]
    return path(corners, f"s-{look[0]} core") if look == ASKS else shape(corners, f"f-{look[0]}")


def drawn_line(points: Sequence[Point], look: Tuple[str, str], dashes: str) -> str:
    """A line of this look; a double one is a thick one with paper in its middle."""
    line = rounded(points, f"s-{look[0]} {look[1]}{dashes}")
    return line + (rounded(points, "s-paper core") if look[1] == "double" else "")


def cross(at: Point) -> str:
    """What was lost ends so."""
    x, y = at
    return path([(x - 5, y - 5), (x + 5, y + 5)], "s-ink cross") + path([(x - 5, y + 5), (x + 5, y - 5)], "s-ink cross")


def ending(way: Way, look: Tuple[str, str]) -> str:
    """What stands at a line's end."""
    tip, before = way.points()[-1], way.points()[-2]
    if way.end == HEAD:
        near = stopped([before, tip], 4.5)[-1]
        return head(before, near, look)
    if way.end == CROSS:
        return cross(tip)
    return circle(tip, 3.6, f"s-{look[0]} f-paper outline") if way.end == OPEN else ""


def line_of(way: Way) -> str:
    """A message's whole line with what stands on it."""
    look = look_of(way.life.message.kind)
    short = 4.5 + (8.0 if look != ASKS else 1.0) if way.end == HEAD else 3.0 if way.end == OPEN else 0.0
    goes, waits = way.goes, way.waits
    parts = []
    if len(goes) > 1:
        parts.append(drawn_line(goes if waits else stopped(goes, short), look, ""))
    if len(waits) > 1:
        parts.append(drawn_line(stopped(waits, short), look, " waits"))
    parts += [path([(x - 6, y), (x + 6, y)], "s-ink gate") for x, y in way.gates]
    parts += [path([(x, y - 4), (x, y + 4)], f"s-{look[0]} hop") for x, y in way.hops]
    return "".join(parts) + ending(way, look)


def what_of(message: Message) -> str:
    """A message in words."""
    about = "checkpoint" if message.kind in ("ready", "advance") else "block"
    rest = f", {message.fields}" if message.fields else ""
    head_words = f"message {message.number}, {message.kind} of {about} {message.about}"
    return f"{head_words}, from node {message.sender} to node {message.receiver}, tag {message.tag}{rest}"


def fate_of(life: Life) -> str:
    """What became of a message, in words."""
    ends = {
        DELIVERED: f"delivered by event {life.end}",
        LOST: f"lost by event {life.end}",
        GONE: f"no longer in flight at event {life.end}",
        DROPPED: f"dropped by the recovery of event {life.end}",
        UNCLEAR: f"dropped by the recovery of event {life.end}, or lost before in a switch that died",
    }
    flying = "in flight at the end" + (", or lost in a switch that died" if life.may_be_gone else "")
    waited = f", waits at event {' and '.join(map(str, life.tries))}" if life.tries else ""
    return f"sent by event {life.sent_at}{waited}, {ends.get(life.fate, flying)}"


def arrow(way: Way) -> str:
    """A message's element."""
    message = way.life.message
    title = what_of(message)[:1].upper() + what_of(message)[1:] + ": " + fate_of(way.life)
    return group(f"message {message.kind} {way.life.fate}", [line_of(way)], f"message-{message.number}", title)


def runs(ways: Sequence[Way]) -> List[List[Way]]:
    """Ways whose messages are called the same and have numbers that follow one another, together."""
    found: List[List[Way]] = []
    for way in ways:
        before = found[-1][-1].life.message if found else None
        message = way.life.message
        if before is not None and before.words() == message.words() and before.number + 1 == message.number:
            found[-1].append(way)
        else:
            found.append([way])
    return found


def fans(ways: Sequence[Way]) -> List[List[Way]]:
    """Ways that share a label: three or more messages of one kind that one event sent about one thing; and else each by itself."""
    found: Dict[int, List[Way]] = {}
    for way in ways:
        found.setdefault(way.life.sent_at, []).append(way)
    same = [fan for sent in found.values() for fan in runs(sent)]
    return [part for fan in same for part in ([fan] if len(fan) > 2 else [[way] for way in fan])]


def label_of(fan: Sequence[Way]) -> str:
    """The words at an arrow, or at several that share them."""
    first, last = fan[0].life.message, fan[-1].life.message
    numbers = str(first.number) if len(fan) == 1 else f"{first.number}–{last.number}"
    return f"{numbers}: {first.words()}"


def middles(way: Way, wide: float) -> List[Point]:
    """Where the middle of a label may stand: along the line, from its tail on, on either side of it; then further away."""
    points = way.points()
    found: List[Point] = []
    pieces = sorted(zip(points, points[1:]), key=lambda piece: -abs(piece[1][1] - piece[0][1])) if len(points) > 2 else [(points[0], points[1])]
    for away in (3.0, 9.0, 16.0, 26.0):
        for start, end in pieces:
            long = hypot(end[0] - start[0], end[1] - start[1])
            if long < 1:
                continue
            across = ((end[1] - start[1]) / long, -(end[0] - start[0]) / long)
            far = abs(across[0]) * wide / 2 + abs(across[1]) * HEIGHT / 2 + away
            for share in (0.3, 0.4, 0.2, 0.5, 0.6, 0.7, 0.8, 0.1, 0.9):
                x, y = start[0] + share * (end[0] - start[0]), start[1] + share * (end[1] - start[1])
                found += [(x + side * far * across[0], y + side * far * across[1]) for side in (1, -1)]
        for x, y in (points[-1], points[0]):
            found += [(x + side * (wide / 2 + 6 + away), y + up) for up in (-5.0, 5.0, -9.0, 9.0) for side in (1, -1)]
    return found


def labels(ways: Sequence[Way], room: Room, borders: Tuple[float, float, float, float]) -> Tuple[List[str], List[List[Way]]]:
    """The labels that found room within left, top, right and bottom; and the messages of those that didn't, in the order of their numbers."""
    left, top, right, bottom = borders
    placed: List[str] = []
    homeless: List[List[Way]] = []
    for fan in fans(ways):
        text = label_of(fan)
        wide = width(text) + 6
        inside = (
            (x, y) for way in fan for x, y in middles(way, wide)
            if left + wide / 2 <= x <= right - wide / 2 and top + HEIGHT / 2 <= y <= bottom - HEIGHT / 2
        )
        found = room.best(inside, wide)
        if found is not None:
            colour = look_of(fan[0].life.message.kind)[0]
            placed.append(words(text, found[0], found[1] + 3.9, f"label f-{colour} middle halo"))
        else:
            homeless.append(fan)
    return placed, homeless
