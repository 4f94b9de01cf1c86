"""What the marks of a picture mean: those that it has."""
from typing import List, NamedTuple, Sequence, Tuple

from .arrows import ASKS, GIVES, POINT, SAYS, SHARES, cross, drawn_line, head, look_of, stopped
from .labels import width
from .marks import death, diamond
from .plan import MARGIN, Plan
from .routes import CROSS, OPEN, Way
from .story import REFUSED
from .svg import box, circle, group, number, path, shape, words

SAMPLE, GAP, LINE = 36.0, 22.0, 21.0


class Entry(NamedTuple):
    """A sample, drawn between 0 and SAMPLE with its middle at the height 0, and what it means."""

    sample: str
    meaning: str


def arrow_entries(ways: List[Way]) -> List[Entry]:
    """The lines and ends of the messages that are drawn."""
    looks = {look_of(way.life.message.kind) for way in ways}
    meanings = (
        (ASKS, "asks or orders"), (GIVES, "brings content and ownership"), (SHARES, "brings content to read"),
        (SAYS, "answers without content"), (POINT, "is about the recovery point"),
    )
    found = []
    for look, meaning in meanings:
        if look in looks:
            line = [(0.0, 0.0), (SAMPLE, 0.0)]
            found.append(Entry(drawn_line(stopped(line, 8.0 if look != ASKS else 1.0), look, "") + head(line[0], line[1], look), meaning))
    ends = {way.end for way in ways}
    if any(way.waits for way in ways):
        wait = path([(0, 0), (SAMPLE, 0)], "s-ink line waits") + path([(18, -6), (18, 6)], "s-ink gate")
        found.append(Entry(wait, "waits at its receiver; a bar: a try refused"))
    if CROSS in ends:
        found.append(Entry(path([(0, 0), (24, 0)], "s-ink line") + cross((26, 0)), "lost"))
    if OPEN in ends:
        found.append(Entry(path([(0, 0), (26, 0)], "s-ink line") + circle((29, 0), 3.6, "s-ink f-paper outline"), "dropped, or still in flight"))
    if any(way.hops for way in ways):
        found.append(Entry(path([(0, 0), (SAMPLE, 0)], "s-ink line") + path([(18, -4), (18, 4)], "s-ink hop"), "a hop"))
    return found


def event_entries(plan: Plan) -> List[Entry]:
    """The marks of the events that are drawn."""
    drawn = plan.events()
    done = {event.kind for event in drawn if event.answer not in REFUSED}
    x = SAMPLE / 2
    samples = (
        ("step", circle((x, 0), 4, "f-ink"), "instruction done"),
        ("evict", shape([(x - 5, -3.5), (x + 5, -3.5), (x, 5)], "f-ink"), "a block is given up"),
        ("input", shape([(x - 4, -5), (x + 5, 0), (x - 4, 5)], "f-ink"), "a byte comes in"),
        ("edge", path([(4, 0), (SAMPLE - 4, 0)], "s-ink edge"), "checkpoint: the next interval begins"),
        ("report", box(x - 3.6, -3.6, 7.2, 7.2, "f-point"), "node reports"),
        ("validate", diamond((x, 0), 6, "f-point"), "recovery point rises"),
        ("kill", death((x, 0)), "a switch dies"),
    )
    found = [Entry(sample, meaning) for kind, sample, meaning in samples if kind in done]
    if any(event.answer == "missed" for event in drawn):
        miss = circle((x, 0), 4.4, "f-paper s-ink outline") + circle((x, 0), 1.6, "f-ink")
        found.insert(min(len(found), 1), Entry(miss, "instruction misses its block"))
    if any(event.answer in REFUSED for event in drawn):
        found.append(Entry(circle((x, 0), 3, "f-paper s-pale outline"), "refused: nothing changed"))
    return found


def ground_entries(plan: Plan) -> List[Entry]:
    """Cuts and recoveries that are drawn."""
    found = []
    if any(plan.has(cut.place) for cut in plan.story.cuts):
        line = path([(0, 5), (11, 5), (25, -5), (SAMPLE, -5)], "s-point cut")
        found.append(Entry(line, "validated checkpoint"))
    if any(plan.has(recovery.event.place) for recovery in plan.story.recoveries):
        found.append(Entry(box(2, -7, SAMPLE - 4, 14, "f-odd") + box(2, -7, SAMPLE - 4, 14, "hatched"), "taken back by a recovery"))
        way = path([(18, -7), (13, -7), (13, 5), (18, 5)], "s-back line") + shape([(17, 1.4), (24, 5), (17, 8.6)], "f-back")
        found.append(Entry(way, "a lane goes on from its checkpoint"))
    return found


def legend(plan: Plan, ways: List[Way], more: Sequence[Entry], top: float, right: float) -> Tuple[str, float]:
    """The legend's element below `top`, in as many columns as fit, and its lower end. `more` is what is laid over the picture."""
    entries = event_entries(plan) + arrow_entries(ways) + ground_entries(plan) + [*more]
    if not entries:
        return "", top
    wide = max(SAMPLE + 8 + width(entry.meaning) for entry in entries) + GAP
    columns = max(1, int((right - MARGIN + GAP) / wide))
    lines = -(-len(entries) // columns)
    parts = []
    for place, entry in enumerate(entries):
        x, y = MARGIN + wide * (place // lines), top + LINE * (place % lines + 0.5)
        both = [f'<g transform="translate({number(x)} {number(y)})">{entry.sample}</g>', words(entry.meaning, x + SAMPLE + 8, y + 3.9, "legend f-soft")]
        parts += [group("over", both)] if entry in more else both
    return group("legend", parts), top + LINE * lines
