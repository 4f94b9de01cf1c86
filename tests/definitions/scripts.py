"""Random scripts for machines of 1 to 16 nodes. Each event is chosen by the state before it, which the definitions give.

A script is a mixture of single events, most of them with an effect, and of rounds in which all nodes come to a checkpoint and report it: one event
after another comes to no validation on a machine of many nodes. Its length is from a few events to some hundred, and short ones are as many as long ones.
"""
import math
import random
from itertools import islice
from typing import Iterator, NamedTuple

from compare import PROGRAMS, Machine, Shape, candidates
from translation import Con, Rec

SHORTEST, LONGEST = 3, 400


class Case(NamedTuple):
    """A program by its name; nodes, sets, ways and log entries; how many events; and what chooses them."""

    name: str
    program: str
    shape: Shape
    length: int
    choose: random.Random


def cases(count: int, seed: str) -> Iterator[Case]:
    for number in range(count):
        choose = random.Random(f"{seed} of the states {number}")
        shape = (choose.randint(1, 16), choose.choice([1, 2, 16, 256]), choose.choice([1, 2, 4, 16]), choose.choice([4, 5, 8, 256, 4096]))
        length = round(math.exp(choose.uniform(math.log(SHORTEST), math.log(LONGEST))))
        yield Case(f"case {number}", choose.choice(sorted(PROGRAMS)), shape, length, choose)


def carrying(flight: Rec) -> Con:
    """The event that brings a message nearer."""
    kind = "Deliver" if flight["place"] // 2 == flight["message"]["to"] else "Hop"
    return Con((f"Event.{kind}", flight["message"]["id"]))


def moves(machine: Machine, event: Con) -> bool:
    """Whether the event carries its message on, by the definitions."""
    answer: str = machine.foreseen(event)[0]
    return answer in ("Answer.Hopped", "Answer.Delivered", "Answer.LostInDead")


def carried(machine: Machine, choose: random.Random, most: int) -> Iterator[Con]:
    """So many events at most that carry messages on. One in eight is refused by its receiver, where it comes so."""
    for _ in range(most):
        flights = machine.state["fabric"]["net"]["flights"]
        events = [carrying(flight) for flight in choose.sample(flights, min(4, len(flights)))]
        found = next((event for event in events if choose.random() < 0.125 or moves(machine, event)), None)
        if found is None:
            return
        yield found


def of_two_nodes(machine: Machine, choose: random.Random, most: int) -> Iterator[Con]:
    """Steps of two nodes with all that they send, so that blocks move between them."""
    nodes = [choose.randrange(machine.config["nodes"]) for _ in range(2)]
    for _ in range(most // 4):
        yield Con(("Event.Step", choose.choice(nodes)))
        yield from carried(machine, choose, 3)


def checkpoint(machine: Machine, choose: random.Random) -> Iterator[Con]:
    """All nodes have an edge and report it; what is in flight is carried as long as that is worth while; then comes the validation."""
    nodes = range(machine.config["nodes"])
    yield from carried(machine, choose, 4 * len(nodes))
    for node in nodes:
        yield Con(("Event.Edge", node))
    for node in nodes:
        yield Con(("Event.Report", node))
    yield from carried(machine, choose, 8 * len(nodes))
    yield Con(("Event.Validate",))


def seldom(machine: Machine, choose: random.Random) -> Con:
    """An event that needs something else first: a line that is there is given up, a message that is in flight is lost, a switch dies."""
    nodes, flights = machine.state["fabric"]["nodes"], machine.state["fabric"]["net"]["flights"]
    lines = [(n, block) for n, node in enumerate(nodes) for block, line in enumerate(node["cache"]["lines"]) if line["state"][0] != "LineState.Absent"]
    kinds = {"Evict": 5 if lines else 0, "Lose": 2 if flights else 0, "Recover": 1, "Kill": 0.5}
    kind = choose.choices(list(kinds), list(kinds.values()))[0]
    if kind == "Evict":
        return Con(("Event.Evict", *choose.choice(lines)))
    if kind == "Lose":
        return Con(("Event.Lose", choose.choice(flights)["message"]["id"]))
    return Con(("Event.Kill", choose.randrange(min(4, 2 * len(nodes))))) if kind == "Kill" else Con(("Event.Recover",))


def endless(machine: Machine, choose: random.Random) -> Iterator[Con]:
    while True:
        part = choose.random()
        if part < 0.05:
            yield from checkpoint(machine, choose)
        elif part < 0.2:
            yield from of_two_nodes(machine, choose, choose.randint(4, 24))
        elif part < 0.25:
            yield seldom(machine, choose)
        else:
            yield candidates(machine, choose)


def events_of(case: Case, machine: Machine) -> Iterator[Con]:
    """The events of a case; each is chosen once the one before it is applied to the machine."""
    return islice(endless(machine, case.choose), case.length)
