"""What a report tells of each message and of each node: lives from sending to end, checkpoints, validated cuts and recoveries.

Places are those of events, from 1; 0 is the start, before the first event."""
from typing import Dict, List, NamedTuple, Tuple

from .report import Event, Message, Report

# Answers by which a message is known to stand at its receiver, where it waits.
WAITING = ("held", "homebusy", "logfull", "netfull", "arrived")
# Answers by which nothing changed.
REFUSED = frozenset(
    "waits needsevict logfull netfull ended notcached putopen missopen checkpointsfull arrived notarrived nomessage held homebusy"
    " alreadydead notready cutoff noinput".split()
)
# How a message's life ends. GONE: an event found it no longer in flight, and no line told of its end: a switch died with it. DROPPED: a
# recovery took away as many as were in flight. UNCLEAR: it took away fewer, so it may have gone before. FLYING: no event ends it.
DELIVERED, LOST, GONE, DROPPED, UNCLEAR, FLYING = "delivered", "lost", "gone", "dropped", "unclear", "flying"


class Life(NamedTuple):
    """A message from the event that sent it to the one that ended it; `end` is 0 while none has."""

    message: Message
    sent_at: int
    end: int
    fate: str
    hops: Tuple[int, ...]
    tries: Tuple[int, ...]
    may_be_gone: bool


class Checkpoint(NamedTuple):
    """Where a node's interval of this number begins: at an edge, at a recovery that went back to it, or at the start."""

    place: int
    number: int
    is_return: bool


class Cut(NamedTuple):
    """A checkpoint that was validated, with the place of each node's own."""

    place: int
    number: int
    marks: Tuple[Checkpoint, ...]


class Recovery(NamedTuple):
    """A recovery, and from where on each node's work was taken back."""

    event: Event
    number: int
    marks: Tuple[Checkpoint, ...]


class Story(NamedTuple):
    """All of a report: `lanes` has each node's checkpoints in their order."""

    report: Report
    lives: List[Life]
    lanes: List[List[Checkpoint]]
    cuts: List[Cut]
    recoveries: List[Recovery]


class Teller:
    """What is known after some of the events."""

    def __init__(self, report: Report) -> None:
        self.open: Dict[int, Life] = {}
        self.ended: Dict[int, Life] = {}
        start = Checkpoint(0, 0, False)
        self.lanes: List[List[Checkpoint]] = [[start] for _ in range(report.nodes)]
        self.standing: List[Dict[int, Checkpoint]] = [{0: start} for _ in range(report.nodes)]
        self.cuts: List[Cut] = []
        self.recoveries: List[Recovery] = []

    def end(self, number: int, place: int, fate: str) -> None:
        """A message's life ends here."""
        life = self.open.pop(number)
        self.ended[number] = life._replace(end=place, fate=fate)

    def begin(self, event: Event) -> None:
        """The lives of what an event sent begin."""
        for message in event.sent:
            self.open[message.number] = Life(message, event.place, 0, FLYING, (), (), False)
            if message.is_lost:
                self.end(message.number, event.place, LOST)

    def move(self, event: Event) -> None:
        """A hop, a delivery or a loss, of a message that is in flight as far as the report tells."""
        number = int(event.operands[0])
        if number not in self.open:
            return
        life = self.open[number]
        if event.answer in WAITING:
            self.open[number] = life._replace(tries=life.tries + (event.place,))
        elif event.answer == "hopped":
            self.open[number] = life._replace(hops=life.hops + (event.place,))
        elif event.answer == "delivered":
            self.end(number, event.place, DELIVERED)
        elif event.answer in ("lost", "lostindead"):
            self.end(number, event.place, LOST)
        elif event.answer == "nomessage":
            self.end(number, event.place, GONE)

    def take_checkpoint(self, event: Event) -> None:
        """A node's next interval begins."""
        node, number = int(event.operands[0]), int(event.numbers[0])
        self.standing[node][number] = Checkpoint(event.place, number, False)
        self.lanes[node].append(self.standing[node][number])

    def go_back(self, event: Event) -> None:
        """All nodes go back to one checkpoint, and what is in flight is dropped."""
        number, dropped = int(event.numbers[0]), int(event.numbers[4])
        self.recoveries.append(Recovery(event, number, tuple(known[number] for known in self.standing)))
        fate = DROPPED if dropped == len(self.open) else UNCLEAR
        for message in list(self.open):
            self.end(message, event.place, fate)
        back = Checkpoint(event.place, number, True)
        for node, known in enumerate(self.standing):
            self.standing[node] = {**{k: mark for k, mark in known.items() if k < number}, number: back}
            self.lanes[node].append(back)

    def tell(self, event: Event) -> None:
        """One more event."""
        if event.kind in ("hop", "deliver", "lose"):
            self.move(event)
        elif event.answer == "edged":
            self.take_checkpoint(event)
        elif event.answer == "validated":
            number = int(event.numbers[0])
            self.cuts.append(Cut(event.place, number, tuple(known[number] for known in self.standing)))
        elif event.answer == "recovered":
            self.go_back(event)
        elif event.answer == "killed":
            for number, life in self.open.items():
                self.open[number] = life._replace(may_be_gone=True)
        self.begin(event)


def told(report: Report) -> Story:
    """The story of a report."""
    teller = Teller(report)
    for event in report.events:
        teller.tell(event)
    lives = sorted([*teller.ended.values(), *teller.open.values()], key=lambda life: life.message.number)
    return Story(report, lives, teller.lanes, teller.cuts, teller.recoveries)
