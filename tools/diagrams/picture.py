"""The whole picture: `picture(story, ..)` gives its text, from which nothing is left to chance, so that the same report is the same bytes."""
from typing import Dict, List, Sequence, Tuple
from xml.sax.saxutils import escape

from .arrows import arrow, label_of, labels, runs
from .grounds import borders, cut_line, hatched, lane, margin_words, recovery_band, recovery_words
from .labels import Room, width
from .legend import Entry, legend
from .marks import clear_edges, rows
from .plan import MARGIN, TITLE_SIZE, Plan, plan_of
from .routes import Way, ways_of
from .story import DELIVERED, DROPPED, FLYING, LOST, Story
from .style import sheet
from .svg import box, number, words

HATCH = (
    '<defs><pattern id="hatch" width="7" height="7" patternUnits="userSpaceOnUse" patternTransform="rotate(45)">'
    '<path class="s-back hatch" d="M0 0V7"/></pattern></defs>\n'
)


def counted(many: int, what: str) -> str:
    """A number of things, in words that fit it."""
    return f"{many} {what}" if many == 1 else f"{many} {what}s"


def description(plan: Plan, ways: List[Way]) -> str:
    """What a picture shows, for who doesn't see it."""
    nodes, total = len(plan.story.lanes), len(plan.story.report.events)
    drawn = plan.last - plan.first + 1
    which = f"{counted(total, 'event')}" if drawn == total else f"events {plan.first} to {plan.last} of {total}"
    text = f"A space-time diagram of {which} on {counted(nodes, 'node')}: a lane a node, time downwards, one row an event."
    fates = [way.life.fate for way in ways]
    told = ((DELIVERED, "delivered"), (LOST, "lost"), (DROPPED, "dropped by a recovery"), (FLYING, "in flight at the end"))
    parts = [f"{fates.count(fate)} {name}" for fate, name in told if fate in fates]
    text += f" {counted(len(ways), 'message')}" + (f": {', '.join(parts)}." if parts else ".")
    for cut in plan.story.cuts:
        if plan.has(cut.place):
            text += f" Event {cut.place} validates checkpoint {cut.number}."
    for recovery in plan.story.recoveries:
        if plan.has(recovery.event.place):
            text += f" At event {recovery.event.place} all nodes go back to checkpoint {recovery.number}."
    return text


def heading(plan: Plan) -> List[str]:
    """The title's lines."""
    return [words(line, MARGIN, 26 + 20.0 * place, "title f-ink") for place, line in enumerate(plan.title)]


def ground_parts(plan: Plan, room: Room) -> Tuple[List[str], List[Tuple[float, str, str]]]:
    """Lanes, what was taken back, cuts and recoveries, in the order in which they cover each other; and what the right margin says of them."""
    drawn = [recovery for recovery in plan.story.recoveries if plan.has(recovery.event.place)]
    parts = [lane(plan, node, room) for node in range(len(plan.story.lanes))]
    parts += [hatched(plan, recovery) for recovery in drawn]
    notes = []
    for cut in plan.story.cuts:
        if plan.has(cut.place):
            line, height = cut_line(plan, cut)
            parts.append(line)
            notes.append((height, f"checkpoint {cut.number}, validated at {cut.place}", "f-point"))
    for recovery in drawn:
        parts.append(recovery_band(plan, recovery, room))
        notes.append((plan.row(recovery.event.place), recovery_words(recovery), "f-back"))
    return parts + [borders(plan)], notes


def framed(plan: Plan, ways: List[Way], title: str, parts: List[str], more: Sequence[Entry], reach: Tuple[float, float]) -> str:
    """The file: its size, its words for who doesn't see it, its style, and its parts, which reach so far right and down, with the legend below."""
    wide = max(reach[0], plan.right(), MARGIN + max(width(line, TITLE_SIZE * 1.12) for line in plan.title)) + MARGIN
    below, bottom = legend(plan, ways, more, reach[1] + 18, wide - MARGIN)
    size = f"{number(wide)} {number(bottom + MARGIN)}"
    width_height = 'width="{}" height="{}"'.format(*size.split(" "))
    return (
        f'<svg xmlns="http://www.w3.org/2000/svg" viewBox="0 0 {size}" {width_height} role="img" aria-labelledby="title desc">\n'
        f'<title id="title">{escape(title)}</title>\n<desc id="desc">{escape(description(plan, ways))}</desc>\n'
        + sheet() + HATCH + box(0, 0, wide, bottom + MARGIN, "f-paper") + "\n" + "\n".join(heading(plan)) + "\n"
        + "".join(parts) + below + "</svg>\n"
    )


def picture(story: Story, title: str, first: int, last: int, with_hops: bool, more: Sequence[Entry] = ()) -> str:
    """The picture of the events from `first` to `last`, places that the report has; of none where `last` is below `first`. `more` joins the legend."""
    plan = plan_of(story, title, first, last, with_hops)
    room = Room()
    ways = ways_of(plan)
    grounds, notes = ground_parts(plan, room)
    events = rows(plan, room)
    clear_edges(plan, room)
    for way in ways:
        room.draw(way.points())
    edges = (plan.left, plan.top - 12, plan.right(), plan.bottom())
    placed, homeless = labels(ways, room, edges)
    notes += homeless_notes(plan, homeless)
    margin, reach, below = margin_words(plan, notes, room)
    parts = grounds + events + [arrow(way) for way in ways] + placed + margin
    return framed(plan, ways, title, parts, more, (reach, below))


def homeless_notes(plan: Plan, homeless: List[List[Way]]) -> List[Tuple[float, str, str]]:
    """What messages are called whose arrows had no room for it, beside the event that sent them, or at the border if that isn't drawn."""
    beside: Dict[int, List[Way]] = {}
    for fan in homeless:
        beside.setdefault(max(fan[0].life.sent_at, plan.first), []).extend(fan)
    return [(plan.row(place), ", ".join(label_of(run) for run in runs(ways)), "f-soft") for place, ways in beside.items()]
