"""The page: the picture in pieces of so many rows, the states pressed together, and what shows them."""
import json
import re
import zlib
from base64 import b64encode
from pathlib import Path
from typing import Dict, List, NamedTuple
from xml.sax.saxutils import escape

from diagrams.legend import SAMPLE, Entry
from diagrams.picture import HATCH, picture
from diagrams.plan import ROW, plan_of
from diagrams.story import Story
from diagrams.style import sheet
from diagrams.svg import box

from .lines import States

HERE = Path(__file__).resolve().parent
SCRIPTS = ("fold.js", "sentences.js", "lanes.js", "panes.js", "tour.js")
# The picture is drawn in pieces, so that a browser lays out those alone that are on the screen.
PIECE = 250
# A message may be drawn in several pieces, and each piece has lanes: their names get the piece's number.
NAMED = re.compile(r'\b(id|aria-labelledby)="([^"]*)"')
KEPT = re.compile(r"event-[0-9]+")
# What lanes.js lays over the lanes for the block that is looked at, as the legend has it.
THREADS = (
    Entry(box(SAMPLE / 2 - 3.5, -8, 7, 16, "t-thread"), "the chosen block's owner: a cache"),
    Entry(box(SAMPLE / 2 - 1.5, -8, 3, 16, "t-thread t-home"), "the chosen block's owner: its home"),
)


class Tour(NamedTuple):
    """What a page shows: the events from `begin` to `end` of a replay, their states, and the bytes that the whole replay put out."""

    story: Story
    title: str
    begin: int
    end: int
    with_hops: bool
    states: States
    console: bytes


def renamed(text: str, piece: int) -> str:
    """A piece's text with names that no other piece has; an event's name is kept, since it stands in one piece alone."""

    def name(found: "re.Match[str]") -> str:
        names = " ".join(one if KEPT.fullmatch(one) else f"{one}-of-{piece}" for one in found[2].split(" "))
        return f'{found[1]}="{names}"'

    return NAMED.sub(name, text)


def geometry(tour: Tour, first: int, last: int) -> Dict[str, object]:
    """Where the rows and lanes of a piece stand, in the units of its picture."""
    plan = plan_of(tour.story, f"Events {first} to {last}", first, last, tour.with_hops)
    lanes = [plan.lane(node) for node in range(len(tour.story.lanes))]
    return {"first": first, "last": last, "top": plan.top, "row": ROW, "left": plan.left, "right": plan.right(), "band": plan.band(), "lanes": lanes}


def piece(tour: Tour, place: int, first: int, last: int) -> str:
    """A piece of the picture, with its geometry beside it."""
    drawn = picture(tour.story, f"Events {first} to {last}" if first <= last else "No event", first, last, tour.with_hops, THREADS)
    bare = drawn.replace(sheet(), "", 1).replace(HATCH, "", 1)
    size = re.search(r' width="([0-9.]+)" height="([0-9.]+)"', bare)
    if size is None:
        raise ValueError("a picture has no size")
    opened = bare.replace(size[0], "", 1)
    where = escape(json.dumps(geometry(tour, first, last), separators=(",", ":")), {'"': "&quot;"})
    return f'<figure class="piece" data-plan="{where}" style="aspect-ratio:{size[1]}/{size[2]}">{renamed(opened, place)}</figure>\n'


def pieces(tour: Tour) -> str:
    """The picture in pieces, one below the other."""
    starts = range(tour.begin, tour.end + 1, PIECE) or [tour.begin]
    return "".join(piece(tour, place, first, min(first + PIECE - 1, tour.end)) for place, first in enumerate(starts, 1))


def pressed(text: str) -> str:
    """A text as deflate makes it small, in letters."""
    return b64encode(zlib.compress(text.encode("ascii"), 9)).decode("ascii")


def data(tour: Tour) -> str:
    """What the page's scripts read."""
    events: List[object] = list(tour.states.events)
    whole = {"first": tour.states.first, "events": events, "summary": tour.states.summary, "console": tour.console.hex()}
    return pressed(json.dumps(whole, separators=(",", ":")))


def scripts() -> str:
    """The page's scripts, one after another."""
    return "\n".join((HERE / name).read_text(encoding="utf-8") for name in SCRIPTS)


def page(tour: Tour) -> str:
    """The whole page."""
    parts = {
        "title": escape(tour.title),
        "style": sheet().removeprefix("<style>").removesuffix("</style>\n") + (HERE / "tour.css").read_text(encoding="utf-8"),
        "hatch": HATCH,
        "pieces": pieces(tour),
        "data": data(tour),
        "scripts": scripts(),
    }
    template = (HERE / "page.html").read_text(encoding="utf-8")
    return re.sub(r"\{\{([a-z]+)\}\}", lambda found: parts[found[1]], template)
