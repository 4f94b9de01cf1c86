"""The way of each message over the figure: where it leaves its sender, waits, and ends. Between sender and receiver a line is straight: the
report names no switch, so a point of it says nothing of where the message stood."""
from typing import Dict, List, NamedTuple, Sequence, Tuple

from .plan import ROW, TAIL, Plan
from .story import DELIVERED, LOST, GONE, Life
from .svg import Point

# How a line ends.
HEAD, CROSS, OPEN, BORDER = "head", "cross", "open", "border"


class Way(NamedTuple):
    """`goes` is drawn whole and `waits` dashed; either may be empty. `gates` are tries that were refused, `hops` the rows of hops."""

    life: Life
    goes: List[Point]
    waits: List[Point]
    gates: List[Point]
    hops: List[Point]
    end: str

    def points(self) -> List[Point]:
        """The whole way."""
        return self.goes + self.waits[1 if self.goes else 0 :]


class Sides:
    """Which stretches beside the lanes are taken by lines that run down there."""

    def __init__(self, plan: Plan) -> None:
        self.plan = plan
        self.taken: Dict[Tuple[int, int], List[Tuple[float, float, int]]] = {}

    def place(self, node: int, side: int, top: float, bottom: float) -> float:
        """Where a line from `top` to `bottom` runs down on this side of a lane: as near as those before it leave room, and never past half
        the way to the next lane."""
        taken = self.taken.setdefault((node, side), [])
        busy = {slot for begin, end, slot in taken if begin < bottom and top < end}
        slot = next(free for free in range(len(busy) + 1) if free not in busy)
        taken.append((top, bottom, slot))
        near = self.plan.band() / 2 + 7
        slots = max(1, int((self.plan.pitch * 0.48 - near) / 10) + 1)
        return self.plan.lane(node) + side * (near + 10 * (slot % slots))


def between(start: Point, end: Point, height: float) -> Point:
    """The point of a line at this height."""
    share = 0.0 if end[1] == start[1] else (height - start[1]) / (end[1] - start[1])
    return (start[0] + share * (end[0] - start[0]), height)


def clipped(points: Sequence[Point], top: float, bottom: float) -> List[Point]:
    """What of a line that never rises lies between two heights."""
    kept: List[Point] = []
    for start, end in zip(points, points[1:]):
        if end[1] < top or start[1] > bottom:
            continue
        begins = between(start, end, top) if start[1] < top else start
        ends = between(start, end, bottom) if end[1] > bottom else end
        kept += [begins, ends] if not kept or kept[-1] != begins else [ends]
    return kept


def end_row(plan: Plan, life: Life) -> float:
    """The height at which a life ends: at its event, above a recovery's band, or at the lower end of all rows."""
    if life.end == 0:
        return plan.row(len(plan.story.report.events)) + ROW / 2 + TAIL
    return plan.row(life.end) - (0.0 if life.fate in (DELIVERED, LOST, GONE) else ROW / 2)


def straight(plan: Plan, life: Life) -> List[Point]:
    """The line of a message that was never seen to wait."""
    start, end = plan.lane(life.message.sender), plan.lane(life.message.receiver)
    top, bottom = plan.row(life.sent_at), end_row(plan, life)
    if life.fate == LOST and life.end == life.sent_at:
        stub = min(46.0, 0.42 * plan.pitch)
        return [(start, top), (start + (stub if end >= start else -stub), top + 8)]
    share = 1.0 if life.fate == DELIVERED else 0.6 if life.fate in (LOST, GONE) else 0.72
    return [(start, top), (start + share * (end - start), bottom)]


def around(plan: Plan, life: Life, sides: Sides) -> Tuple[List[Point], List[Point]]:
    """The line of a message that a node sends to itself: away from its lane, down, and back where it is delivered."""
    lane, top, bottom = plan.lane(life.message.sender), plan.row(life.sent_at) + 3.5, end_row(plan, life)
    side = sides.place(life.message.sender, 1, top, bottom)
    bottom -= 3.5 if life.fate == DELIVERED else 0.0
    back = [(lane, bottom)] if life.fate == DELIVERED else []
    if not life.tries:
        return [(lane, top), (side, top), (side, bottom)] + back, []
    waits_from = plan.row(life.tries[0])
    return [(lane, top), (side, top), (side, waits_from)], [(side, waits_from), (side, bottom)] + back


def over(plan: Plan, life: Life, sides: Sides) -> Tuple[List[Point], List[Point]]:
    """The line of a message to another node that waited there, as a try to deliver it, or to let it hop on, told."""
    sender, receiver = life.message.sender, life.message.receiver
    waits_from, bottom = plan.row(life.tries[0]), end_row(plan, life)
    side = sides.place(receiver, -1 if sender < receiver else 1, waits_from, bottom)
    bottom -= 3.5 if life.fate == DELIVERED else 0.0
    back = [(plan.lane(receiver), bottom)] if life.fate == DELIVERED else []
    return [(plan.lane(sender), plan.row(life.sent_at)), (side, waits_from)], [(side, waits_from), (side, bottom)] + back


def way_of(plan: Plan, life: Life, sides: Sides) -> Way:
    """A message's way, as far as it is drawn."""
    top, bottom = plan.top, plan.bottom()
    if life.message.sender == life.message.receiver and not (life.fate == LOST and life.end == life.sent_at):
        goes, waits = around(plan, life, sides)
    elif life.tries:
        goes, waits = over(plan, life, sides)
    else:
        goes, waits = straight(plan, life), []
    end = HEAD if life.fate == DELIVERED else CROSS if life.fate in (LOST, GONE) else OPEN
    if life.end > plan.last or (life.end == 0 and plan.last < len(plan.story.report.events)):
        end = BORDER
    whole = goes + waits
    hops = [spot(whole, plan.row(place)) for place in life.hops if plan.with_hops and plan.has(place)]
    gates = [spot(whole, plan.row(place)) for place in life.tries if plan.has(place)]
    return Way(life, clipped(goes, top, bottom), clipped(waits, top, bottom), gates, hops, end)


def spot(points: Sequence[Point], height: float) -> Point:
    """Where a line that never rises comes to this height."""
    for start, end in zip(points, points[1:]):
        if start[1] <= height <= end[1] and end[1] > start[1]:
            return between(start, end, height)
    return points[-1]


def ways_of(plan: Plan) -> List[Way]:
    """The ways of all messages that are in flight during an event that is drawn."""
    sides = Sides(plan)
    drawn = [life for life in plan.story.lives if life.sent_at <= plan.last and (life.end == 0 or life.end >= plan.first)]
    return [way_of(plan, life, sides) for life in drawn]
