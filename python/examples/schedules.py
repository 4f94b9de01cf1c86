"""What the examples share: the messages in flight, as the answers tell them, and schedules that guess.

An event that can't happen is answered and changes nothing. So a schedule may name messages that aren't sent yet, and many events go by one call.
"""
from __future__ import annotations

import argparse
from typing import Dict, List

from safetynet import Answer, Deliver, Edge, Event, Hop, Machine, Message, Report, Step, Validate

# Enough guesses for what two to four nodes send until they have nothing more to do.
AHEAD = 32


class InFlight:
    """The messages that were sent and neither taken nor lost, each with the place of the event that sent it.

    What stood in a switch as it died is found out once an event names it.
    """

    def __init__(self) -> None:
        self.messages: Dict[int, Message] = {}
        self.since: Dict[int, int] = {}
        self.last = 0

    def note(self, answer: Answer) -> None:
        """Take in what an event was answered."""
        if answer.name in ("delivered", "lost", "lostindead", "nomessage") and answer.event.word in ("hop", "deliver", "lose"):
            self.messages.pop(int(answer.event.operands()[0]), None)
        if answer.name == "recovered":
            self.messages.clear()
        for message in answer.sent:
            self.last = message.id
            if not message.lost:
                self.messages[message.id] = message
                self.since[message.id] = answer.place

    @classmethod
    def of(cls, machine: Machine) -> "InFlight":
        """The messages in flight of a machine, by its answers so far."""
        flight = cls()
        for answer in machine.answers:
            flight.note(answer)
        return flight


def moves(flight: InFlight, ahead: int) -> List[Event]:
    """Each message in flight, and each of so many that may be sent next, goes on and is taken where it can be."""
    known = sorted(flight.messages) + [flight.last + place for place in range(1, ahead + 1)]
    return [event for id in known for event in (Hop(id), Hop(id), Deliver(id))]


def checkpoint_events(flight: InFlight, nodes: int) -> List[Event]:
    """Every node takes a checkpoint and reports it, and the recovery point rises where it can."""
    events: List[Event] = [Edge(node) for node in range(nodes)]
    events += moves(flight, AHEAD)
    events += [Report(node) for node in range(nodes)]
    events += moves(flight, AHEAD)
    return [*events, Validate(), *moves(flight, AHEAD)]


def checkpoint(machine: Machine) -> bool:
    """Let every node take a checkpoint and validate it, by one call; whether the recovery point rose."""
    answers = machine.apply_all(checkpoint_events(InFlight.of(machine), machine.nodes))
    return any(answer.name == "validated" for answer in answers)


def address(text: str) -> int:
    """An address as the command line has it: eight hexadecimal digits."""
    return int(text, 16)


def parser(text: str) -> argparse.ArgumentParser:
    """The options that every example has."""
    found = argparse.ArgumentParser(description=text, formatter_class=argparse.ArgumentDefaultsHelpFormatter)
    found.add_argument("--seed", type=int, default=1, help="of what is drawn")
    found.add_argument("--nodes", type=int, default=2, help="how many nodes, 1 to 16")
    return found
