"""Events as rows: the place and the words of each in the left margin, and a mark on the lane where it happened."""
from typing import Dict, List, Optional

from .labels import Room, box_around
from .plan import Plan
from .report import Event, Message
from .story import REFUSED
from .svg import Point, box, circle, group, path, shape, words


def node_of(event: Event, messages: Dict[int, Message]) -> Optional[int]:
    """On whose lane an event has its mark: that of the node which it names, of the receiver, of the switch's node, or node 0, which validates.
    None where it is on no lane, or of a message that the report doesn't tell."""
    if event.kind in ("step", "edge", "report", "evict", "input"):
        return int(event.operands[0])
    if event.kind == "deliver":
        message = messages.get(int(event.operands[0]))
        return None if message is None else message.receiver
    if event.kind == "kill":
        return int(event.operands[0][1:])
    return 0 if event.kind == "validate" else None


def diamond(at: Point, size: float, kind: str) -> str:
    """A square on its corner."""
    x, y = at
    return shape([(x, y - size), (x + size, y), (x, y + size), (x - size, y)], kind)


def death(at: Point) -> str:
    """A switch that dies."""
    x, y = at
    bars = path([(x - 3, y - 3), (x + 3, y + 3)], "s-paper tick") + path([(x - 3, y + 3), (x + 3, y - 3)], "s-paper tick")
    return box(x - 6, y - 6, 12, 12, "f-ink") + bars


def mark(event: Event, at: Point) -> str:
    """An event's mark: a dot that is filled where an instruction is done or a message is taken, a ring where one must wait for its block,
    other shapes for other events, and a small pale ring where nothing changed."""
    x, y = at
    if event.answer in REFUSED:
        return circle(at, 3, "f-paper s-pale outline")
    if event.kind == "step" and event.answer == "missed":
        return circle(at, 4.4, "f-paper s-ink outline") + circle(at, 1.6, "f-ink")
    if event.kind == "report":
        return box(x - 3.6, y - 3.6, 7.2, 7.2, "f-point")
    if event.kind == "validate":
        return diamond(at, 6, "f-point")
    if event.kind == "evict":
        return shape([(x - 5, y - 3.5), (x + 5, y - 3.5), (x, y + 5)], "f-ink")
    if event.kind == "input":
        return shape([(x - 4, y - 5), (x + 5, y), (x - 4, y + 5)], "f-ink")
    if event.kind == "kill":
        return death(at)
    if event.kind == "edge":
        return ""
    return circle(at, 4 if event.kind == "step" else 2.6, "f-ink")


def title_of(event: Event) -> str:
    """An event in the report's words, with the cores below it."""
    cores = "".join(f"; core {core.node} {core.counter} {core.end} {core.registers}".rstrip() for core in event.cores)
    return f"{event.place} {event.words()}{cores}"


def is_quiet(event: Event) -> bool:
    """Whether an event's words are pale: nothing changed."""
    return event.answer in REFUSED


def row(plan: Plan, event: Event, messages: Dict[int, Message], room: Room) -> str:
    """An event's element."""
    y = plan.row(event.place)
    colour = "pale" if is_quiet(event) else "soft" if event.kind == "hop" and event.answer == "hopped" else "ink"
    parts = [
        words(str(event.place), plan.numbers, y + 3.9, "equal f-soft end"),
        words(event.words(), plan.words, y + 3.9, f"equal f-{colour}"),
    ]
    node = node_of(event, messages)
    if node is not None:
        at = (plan.lane(node), y)
        if event.answer != "edged":
            parts.insert(0, path([(plan.left - 8, y), (plan.lane(node) - 8, y)], "s-hair guide"))
        parts.append(mark(event, at))
        room.take(box_around(at, 12, 12))
    elif event.answer == "cutoff":
        parts.append(path([(plan.left, y), (plan.right(), y)], "s-pale border"))
    state = "refused" if is_quiet(event) else "done"
    return group(f"event {event.kind} {event.answer} {state}", parts, f"event-{event.place}", title_of(event))


def rows(plan: Plan, room: Room) -> List[str]:
    """The elements of all events that are drawn."""
    messages = {life.message.number: life.message for life in plan.story.lives}
    return [row(plan, event, messages, room) for event in plan.events()]


def clear_edges(plan: Plan, room: Room) -> None:
    """The ticks of checkpoints take room, so that no label lies on one."""
    for node, marks in enumerate(plan.story.lanes):
        for checkpoint in marks:
            if plan.has(checkpoint.place):
                room.take(box_around((plan.lane(node), plan.mark(checkpoint)), plan.band() + 8, 5))
