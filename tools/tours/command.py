"""The command: its words, the two replays that it asks for, and the page that it writes. A refusal is one line, and nothing is written then."""
from typing import Sequence

from diagrams.command import PASSED, Refusal, Wish, asked, place_of, put, report_of, span_of, title_of, wish_of
from diagrams.story import told

from .lines import BadStates, States, read
from .page import Tour, page

USAGE = """usage: tools/tour [OPTIONS] PROGRAM SCRIPT > page.html

Makes one page, which asks for nothing else, on which the replay of a script can be walked through: the space-time diagram, the state after
each event, and the event in words.

  --nodes N, --sets N, --ways N, --log N, --watch ADDRESS
                   as `safetynet replay` has them
  --from A, --to B only the events from place A to place B, at most 5000
  --title TEXT     what the page is called [default: the files' names]
  --hops           also mark the rows in which a message hopped
  --safetynet FILE the program to ask [default: $SAFETYNET, or safetynet or bin/safetynet beside tools/]

Status 0: made. 1: the page couldn't be written, or what the program said has another form. 2: an option is refused. Where the program
refuses, its status, with its lines on standard error.
"""
VALUED = PASSED + ("--from", "--to", "--title", "--safetynet")
EVENTS = 5000


def states_of(wish: Wish, begin: int, end: int, count: int) -> States:
    """The states from the event at `begin` to that at `end`, of so many events. Raises Refusal where the program refuses, or says another form."""
    only = (f"--only={begin}-{end}",) if (begin, end) != (1, count) else ()
    try:
        states = read(asked(wish, ("--states",) + only).report)
    except BadStates as cause:
        raise Refusal(1, str(cause)) from None
    if len(states.events) != end - begin + 1:
        raise Refusal(1, f"the states have {len(states.events)} events, and {end - begin + 1} were asked for")
    return states


def made(wish: Wish) -> str:
    """The page that is wished for. Raises Refusal where there is none."""
    for name in ("--from", "--to"):
        place_of(wish, name)
    title = title_of(wish)
    said = asked(wish, ())
    report = report_of(said)
    begin, end = span_of(wish, len(report.events), EVENTS)
    states = states_of(wish, begin, end, len(report.events))
    return page(Tour(told(report), title, begin, end, wish.hops, states, said.console))


def main(given: Sequence[str]) -> int:
    """Makes what the words ask for, and returns the status."""
    if "--help" in given or "-h" in given:
        return put("tour", lambda: USAGE)
    return put("tour", lambda: made(wish_of(given, VALUED, "tools/tour")))
