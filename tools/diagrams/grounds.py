"""What lies under the arrows: the lanes with their intervals, what recoveries took back, and the cuts that were validated."""
from itertools import count
from typing import List, Sequence, Tuple

from .labels import HEIGHT, Box, Room, box_around, digits_width, width
from .plan import ROW, Plan
from .story import Checkpoint, Cut, Recovery
from .svg import box, circle, group, path, shape, words


def stretches(plan: Plan, node: int) -> List[Tuple[Checkpoint, float, float]]:
    """The intervals of a node that are drawn, each with the heights between which it lies."""
    marks = plan.story.lanes[node]
    found = []
    for place, mark in enumerate(marks):
        ends = marks[place + 1] if place + 1 < len(marks) else None
        bottom = plan.bottom() if ends is None else plan.mark(ends) - (ROW if ends.is_return else 0.0)
        heights = (plan.within(plan.mark(mark)), plan.within(bottom))
        if heights[0] < heights[1]:
            found.append((mark, heights[0], heights[1]))
    return found


def lane(plan: Plan, node: int, room: Room) -> str:
    """A node's lane: a ground that changes at each checkpoint, whose number stands where its interval begins."""
    x, band = plan.lane(node), plan.band()
    parts = [words(f"node {node}", x, plan.top - 16, "head f-ink middle")]
    for mark, top, bottom in stretches(plan, node):
        parts.append(box(x - band / 2, top, band, bottom - top, f"interval f-{'odd' if mark.number % 2 else 'even'}"))
        begins = plan.mark(mark) == top
        if begins and not mark.is_return and mark.place:
            parts.append(path([(x - band / 2 - 4, top), (x + band / 2 + 4, top)], "s-ink edge"))
        wide = digits_width(str(mark.number), 10)
        left = x - band / 2 + (9 if mark.is_return and begins else 3)
        room.take(Box(left - 3, top, left + wide + 3, top + 14))
        parts.append(words(str(mark.number), left, top + 11, "equal small f-soft halo"))
        parts.append(path([(x, top), (x, bottom)], "s-soft axis"))
    return group("lane", parts, f"lane-{node}", f"node {node}")


def hatched(plan: Plan, recovery: Recovery) -> str:
    """What a recovery took back: on each lane all since the checkpoint that it went back to."""
    bottom = plan.row(recovery.event.place) - ROW / 2
    parts = []
    for node, mark in enumerate(recovery.marks):
        top = plan.within(plan.mark(mark))
        if top < bottom:
            x, band = plan.lane(node), plan.band()
            parts.append(box(x - band / 2, top, band, bottom - top, "taken hatched"))
    return group("takes-back", parts, f"taken-{recovery.event.place}", f"taken back by the recovery of event {recovery.event.place}")


def way_back(plan: Plan, node: int, mark: Checkpoint, row: float) -> str:
    """From a lane's checkpoint along its side to where it goes on below the recovery."""
    side, top, begins = plan.lane(node) - plan.band() / 2, plan.within(plan.mark(mark)), plan.mark(mark) >= plan.top
    x, bottom = side - 5, row + ROW / 2 + 5
    points = [(side, top), (x, top)] if begins else [(x, top)]
    line = path([*points, (x, bottom), (side, bottom)], "s-back line")
    return line + shape([(side - 1, bottom - 3.6), (side + 6, bottom), (side - 1, bottom + 3.6)], "f-back")


def recovery_band(plan: Plan, recovery: Recovery, room: Room) -> str:
    """The recovery itself, across all lanes, with where each core goes on."""
    y = plan.row(recovery.event.place)
    left, right = plan.left, plan.right()
    parts = [box(left, y - ROW / 2, right - left, ROW, "f-paper s-back outline"), box(left, y - ROW / 2, right - left, ROW, "hatched")]
    for core in recovery.event.cores:
        long = core.counter if core.end == "running" else f"{core.counter} {core.end}"
        text = long if digits_width(long, 10) < plan.pitch - 22 else core.counter
        parts.append(words(text, plan.lane(core.node) + 5, y + 3.6, "equal small f-ink middle halo"))
    room.take(Box(left, y - ROW / 2, right, y + ROW / 2))
    parts += [way_back(plan, node, mark, y) for node, mark in enumerate(recovery.marks)]
    return group("recovery", parts, f"recovery-{recovery.event.place}", f"recovery to checkpoint {recovery.number}")


def recovery_words(recovery: Recovery) -> str:
    """What stands in the right margin beside a recovery."""
    watched = "".join(f"; {address} has {word}" for address, word in recovery.event.watch)
    return f"back to checkpoint {recovery.number}{watched}"


def cut_line(plan: Plan, cut: Cut) -> Tuple[str, float]:
    """A validated cut as a line through every lane at its own checkpoint, and the height at which it comes to the right margin."""
    band = plan.band()
    points = []
    heights = [plan.within(plan.mark(mark)) for mark in cut.marks]
    for node, height in enumerate(heights):
        points += [(plan.lane(node) - band / 2, height), (plan.lane(node) + band / 2, height)]
    points = [(plan.left, heights[0]), *points, (plan.right(), heights[-1])]
    title = f"checkpoint {cut.number}, validated by event {cut.place}"
    dots = [circle((plan.lane(node), height), 3, "f-point") for node, height in enumerate(heights)]
    return group("cut", [path(points, "s-point cut"), *dots], f"cut-{cut.number}-{cut.place}", title), heights[-1]


def margin_words(plan: Plan, notes: Sequence[Tuple[float, str, str]], room: Room) -> Tuple[List[str], float, float]:
    """Notes in the right margin, each as near to its height as others leave room: (height, words, class). And how far right and down they reach."""
    parts, reach, below = [], plan.right(), plan.bottom()
    for height, text, kind in notes:
        wide = width(text)
        x = plan.right() + 10 + wide / 2
        heights = (height + side * far * 3.5 for far in count() for side in (1, -1) if side > 0 or height - far * 3.5 > plan.top - 8)
        y = next(free for free in heights if room.is_free(box_around((x, free), wide)))
        room.take(box_around((x, y), wide))
        parts.append(words(text, plan.right() + 10, y + 3.9, f"note {kind}"))
        reach, below = max(reach, plan.right() + 10 + wide), max(below, y + HEIGHT / 2)
    return parts, reach, below


def borders(plan: Plan) -> str:
    """Where the events that are drawn begin after the first and end before the last."""
    parts = []
    if plan.first > 1:
        parts.append(path([(plan.left, plan.top), (plan.right(), plan.top)], "s-pale border"))
    if plan.last < len(plan.story.report.events):
        parts.append(path([(plan.left, plan.bottom()), (plan.right(), plan.bottom())], "s-pale border"))
    return group("borders", parts) if parts else ""
