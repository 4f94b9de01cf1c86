#!/usr/bin/env python3
"""Compares the statistics of `replay --statistics` with those that are folded here from a reference simulator's report of the same replay.

    tests/compare_statistics.py PROGRAM SIMULATOR [COUNT] [SEED]

PROGRAM is the built program, SIMULATOR a reference simulator; programs and scripts are those of compare_replay.py, and a recovery stands
behind each script, so that what was in flight is told. Of the simulator only the groups of events and messages are read, and how many bytes
it wrote to the console.

All numbers are compared but three that no report tells: how many entries a log had, how many bytes a node held, and how long each byte was
held. Of these it is asked that they lie within what the report does tell: no log is larger than it may be; what a recovery undid was in
logs; and no byte waited longer than there were events. How many blocks a node's cache owned isn't in the simulator's report either; it is
counted in the states that the program's own `replay --states` tells.
"""
import json
import random
import re
import subprocess
import sys
import tempfile
from collections import Counter
from dataclasses import dataclass, field
from pathlib import Path
from typing import Dict, List, Optional, Sequence, Tuple

from compare_replay import hexadecimal_image, program, script

# The answers of what was done; any other refuses. `validated 3` and the like have numbers behind the word.
DONE = ["retired", "missed", "evicted", "putbegun", "edged", "hopped", "lostindead", "delivered", "lost", "killed", "reported", "validated",
        "recovered", "given"]

REFUSED = ["waits", "needsevict", "logfull", "netfull", "ended", "notcached", "putopen", "missopen", "checkpointsfull", "arrived",
           "notarrived", "nomessage", "held", "homebusy", "alreadydead", "notready", "cutoff", "noinput"]

# The states of a line that owns its block, as `replay --states` has them.
OWNING = "OME"

KINDS = ["gets", "getm", "fwdgets", "fwdgetm", "inv", "datas", "datam", "datae", "upgok", "invack", "unblock", "putreq", "putgo", "putdata",
         "putdone", "ready", "advance"]

LEADS = ["loss", "switch", "wait"]

OF_NODE = ["retired", "committed", "taken_back", "waiting", "most_waiting", "most_checkpoints"]

EVENT_LINE = re.compile(r"(\d+) ([a-z]+)((?: \S+)*): ([a-z]+)((?: \S+)*)")

MESSAGE_LINE = re.compile(r"  msg (\d+) ([a-z]+) (\d+) (\d+) (\d+) (\d+)(.*)")

Lines = Dict[str, int]


@dataclass
class Message:
    """A message as it was sent. `number` stands in the block's place: of an advance it is the recovery point."""
    kind: str
    receiver: int
    number: int
    lost: bool


@dataclass
class Group:
    """An event of a report: its number, its word, what follows it, the same of its answer, and what was sent."""
    place: int
    event: str
    operands: List[str]
    answer: str
    said: List[int]
    sent: List[Tuple[int, Message]] = field(default_factory=list)


def numbers_in(words: Sequence[str]) -> List[int]:
    return [int(word) for word in words if word.isdigit()]


def groups_of(report: str) -> List[Group]:
    """The groups of a report, up to its summary."""
    groups: List[Group] = []
    for line in report.splitlines():
        event, message = EVENT_LINE.fullmatch(line), MESSAGE_LINE.fullmatch(line)
        if event:
            place, word, operands, answer, said = event.groups()
            groups.append(Group(int(place), word, operands.split(), answer, numbers_in(said.split())))
        elif message and groups:
            number, kind, _, receiver, _, block, rest = message.groups()
            groups[-1].sent.append((int(number), Message(kind, int(receiver), int(block), rest.endswith(" lost"))))
    return groups


@dataclass
class Spread:
    """How often something was measured, the sum, and the greatest."""
    count: int = 0
    sum: int = 0
    greatest: int = 0

    def add(self, value: int) -> None:
        self.count, self.sum, self.greatest = self.count + 1, self.sum + value, max(self.greatest, value)

    def lines(self, name: str) -> Lines:
        return {f"{name}_count": self.count, f"{name}_sum": self.sum, f"{name}_greatest": self.greatest}


class Fold:
    """The statistics of a report's groups."""

    def __init__(self, nodes: int) -> None:
        self.nodes = nodes
        self.events = 0
        self.answers: Counter[str] = Counter()
        self.kinds: Counter[str] = Counter()
        self.leads: Counter[str] = Counter()
        self.lost_at_once = 0
        self.lead: Optional[str] = None
        self.now, self.known = [0] * nodes, [0] * nodes
        self.sent: Dict[int, Message] = {}
        # Of each record that waits its node and its interval, in order of retirement.
        self.waiting: List[Tuple[int, int]] = []
        self.of_node = [dict.fromkeys(OF_NODE, 0) for _ in range(nodes)]
        # When intervals ended that aren't validated: the number of the event, and how many instructions had retired.
        self.ended: List[Tuple[int, int]] = []
        self.spreads = {name: Spread() for name in ["validation_events", "validation_instructions", "undone_instructions",
                                                    "undone_entries", "dropped_messages"]}
        self.recoveries: List[str] = []
        # How many messages were in flight when each recovery came, less those that were lost with a switch.
        self.lost_in_switch = 0
        self.flights = 0

    def add(self, group: Group) -> None:
        """Counts what a group of the report comes to."""
        self.events += 1
        self.answers[group.answer] += 1
        retired, validated = group.answer == "retired", group.answer == "validated"
        if retired:
            self.retire(int(group.operands[0]))
        elif group.answer == "edged":
            self.edge(group, int(group.operands[0]))
        elif validated:
            self.validate(group)
        elif group.answer == "delivered":
            self.deliver(int(group.operands[0]))
        self.trouble(group)
        if group.answer == "recovered":
            self.recover(group)
        self.send(group)
        for node in range(self.nodes):
            numbers = self.of_node[node]
            numbers["most_checkpoints"] = max(numbers["most_checkpoints"], self.now[node] - self.known[node])

    def retire(self, node: int) -> None:
        self.waiting.append((node, self.now[node]))
        numbers = self.of_node[node]
        numbers["retired"] += 1
        numbers["waiting"] += 1
        numbers["most_waiting"] = max(numbers["most_waiting"], numbers["waiting"])

    def edge(self, group: Group, node: int) -> None:
        self.now[node] = group.said[0]
        if min(self.now) >= group.said[0]:
            self.ended.append((group.place, self.answers["retired"]))

    def validate(self, group: Group) -> None:
        for node, interval in self.waiting:
            if interval == group.said[0] - 1:
                self.of_node[node]["committed"] += 1
                self.of_node[node]["waiting"] -= 1
        self.waiting = [(node, interval) for node, interval in self.waiting if interval >= group.said[0]]
        event, retired = self.ended.pop(0)
        self.spreads["validation_events"].add(group.place - event)
        self.spreads["validation_instructions"].add(self.answers["retired"] - retired)

    def deliver(self, number: int) -> None:
        message = self.sent[number]
        self.flights -= 1
        if message.kind == "advance":
            self.known[message.receiver] = max(self.known[message.receiver], message.number)

    def trouble(self, group: Group) -> None:
        """What may lead to a recovery; a recovery that comes now was led to by what came before it."""
        if group.answer in ("lost", "lostindead"):
            self.flights -= 1
        if group.answer == "lost":
            self.lead = self.lead or "loss"
        elif group.answer in ("lostindead", "killed"):
            self.lead = self.lead or "switch"
        elif group.answer == "validated":
            self.lead = None

    def recover(self, group: Group) -> None:
        """Counts a recovery: what led to it, what it undoes and drops, and the line that tells of it."""
        point, entries, dropped = group.said
        self.leads[self.lead or "wait"] += 1
        self.lead = None
        self.spreads["undone_instructions"].add(len(self.waiting))
        self.spreads["undone_entries"].add(entries)
        self.spreads["dropped_messages"].add(dropped)
        self.recoveries.append(f"stat recovery {len(self.recoveries) + 1} at {group.place} to {point} undone {len(self.waiting)}"
                               f" entries {entries} messages {dropped}")
        for node, _ in self.waiting:
            self.of_node[node]["taken_back"] += 1
            self.of_node[node]["waiting"] -= 1
        self.waiting, self.ended = [], []
        self.now, self.known = [point] * self.nodes, [point] * self.nodes
        self.lost_in_switch += self.flights - dropped
        self.flights = 0

    def send(self, group: Group) -> None:
        for number, message in group.sent:
            self.sent[number] = message
            self.kinds[message.kind] += 1
            self.lost_at_once += message.lost
            self.flights += not message.lost
        if any(message.lost for _, message in group.sent):
            self.lead = self.lead or "switch"

    def lines(self) -> Lines:
        """What each line must say, by what stands before its value."""
        lines = {"events": self.events, "lost_at_once": self.lost_at_once}
        lines.update({answer: self.answers[answer] for answer in DONE})
        lines.update({f"refused_{answer}": self.answers[answer] for answer in REFUSED})
        lines.update({f"sent_{kind}": self.kinds[kind] for kind in KINDS})
        lines.update({f"recoveries_by_{lead}": self.leads[lead] for lead in LEADS})
        for name, spread in self.spreads.items():
            lines.update(spread.lines(name))
        for node, numbers in enumerate(self.of_node):
            lines.update({f"{node} {name}": value for name, value in numbers.items()})
        return lines


def most_owned(states: str, nodes: int) -> List[int]:
    """How many blocks each node's cache owned at most after an event, in the lines of `replay --states`."""
    most = [0] * nodes
    for text in states.splitlines():
        told = json.loads(text) if not text.startswith("#") else {}
        for node in (told.get("state") or told.get("parts") or {"nodes": []})["nodes"]:
            owned = sum(line["state"] in OWNING for line in node["lines"])
            most[node["node"]] = max(most[node["node"]], owned)
    return most


def statistics_in(report: str) -> Tuple[Lines, List[str]]:
    """The numbers of a report's statistics by what stands before them, and its lines of recoveries."""
    stats = [line[len("stat "):] for line in report.splitlines() if line.startswith("stat ")]
    recoveries = [f"stat {line}" for line in stats if line.startswith("recovery ")]
    numbers = [line.rsplit(" ", 1) for line in stats if not line.startswith("recovery ")]
    return {name: int(value) for name, value in numbers}, recoveries


def differences(found: Lines, recoveries: List[str], fold: Fold, owned: List[int], released: int, log: int) -> List[str]:
    """What the statistics say otherwise than the fold and the blocks that were owned, or beyond what it bounds."""
    expected = fold.lines()
    expected.update({f"{node} most_owned": most for node, most in enumerate(owned)})
    wrong = [f"{name} is {found.get(name)} and not {value}" for name, value in expected.items() if found.get(name) != value]
    if recoveries != fold.recoveries:
        wrong.append(f"recoveries are {recoveries} and not {fold.recoveries}")
    entries = [found.get(f"{node} most_entries", -1) for node in range(fold.nodes)]
    held = [found.get(f"{node} most_held", -1) for node in range(fold.nodes)]
    most_undone = fold.spreads["undone_entries"].greatest
    bounds = {
        "no log is larger than it may be": all(0 <= count <= log for count in entries),
        "what a recovery undid was in logs": most_undone <= sum(entries),
        "a node holds no more bytes than records": all(0 <= count <= fold.of_node[node]["most_waiting"] for node, count in enumerate(held)),
        "each released byte was held": found.get("release_events_count") == released,
        "no byte waits longer than there are events": 0 <= found.get("release_events_greatest", -1) <= fold.events,
        "the sum of waits lies between the greatest and so many of it":
            found.get("release_events_greatest", 0) <= found.get("release_events_sum", -1) <= released * fold.events,
    }
    # What was lost with a switch is known where a recovery came last.
    if fold.flights == 0:
        bounds["messages are sent, taken, lost or dropped"] = found.get("lost_in_switch") == fold.lost_in_switch
    known = set(expected) | {"lost_in_switch", "release_events_count", "release_events_sum", "release_events_greatest"}
    known |= {f"{node} {name}" for node in range(fold.nodes) for name in ("most_entries", "most_held")}
    wrong += [f"not so: {bound}" for bound, holds in bounds.items() if not holds]
    return wrong + [f"{name} is not a statistic" for name in found if name not in known]


def run(command: Sequence[str], folder: str) -> Tuple[int, bytes, str]:
    done = subprocess.run(command, cwd=folder, capture_output=True)
    return done.returncode, done.stdout, done.stderr.decode()


def main() -> int:
    if len(sys.argv) < 3:
        print(__doc__)
        return 2
    built, simulator = (str(Path(name).resolve()) for name in sys.argv[1:3])
    count, seed = int(sys.argv[3]) if len(sys.argv) > 3 else 500, sys.argv[4] if len(sys.argv) > 4 else "1"
    events = recoveries = refused = 0
    with tempfile.TemporaryDirectory() as folder:
        for case in range(count):
            choose = random.Random(f"{seed} {case}")
            nodes, log = choose.choice([1, 2, 2, 3, 4, 4, 6, 8, 16]), choose.choice([4, 16, 256])
            Path(folder, "program").write_bytes(hexadecimal_image(choose, program(choose)))
            text = script(choose, simulator, nodes, folder).rstrip() + "\nrecover\n"
            Path(folder, "events.script").write_text(text)
            words = ["replay", "--nodes", str(nodes), "--log", str(log), "program", "events.script"]
            status, console, report = run([simulator, "--main", *words], folder)
            found = run([built, *words, "--statistics"], folder)
            if status != 0:
                refused += 1
                if found[0] != status or "stat " in found[2]:
                    print(f"case {case}: {found} of a replay with status {status}")
                    return 1
                continue
            fold = Fold(nodes)
            for group in groups_of(report):
                fold.add(group)
            states = run([built, *words, "--states"], folder)[2]
            numbers, lines = statistics_in(found[2])
            wrong = differences(numbers, lines, fold, most_owned(states, nodes), len(console), log)
            if found[0] != 0 or found[1] != console or wrong:
                print(f"case {case}, {' '.join(words)}: status {found[0]}; " + "; ".join(wrong))
                print(Path(folder, "program").read_bytes(), text)
                return 1
            events += fold.events
            recoveries += len(fold.recoveries)
    print(f"{count} scripts, no difference; {events} events, {recoveries} recoveries, {refused} scripts refused")
    return 0


if __name__ == "__main__":
    sys.exit(main())
