#!/usr/bin/env python3
"""Holds a picture of tools/diagram against the report of its replay: `diagram_elements.py REPORT PICTURE [FROM TO]`.

The picture is well-formed XML, has no script and refers to nothing outside itself. Each event of the range has an element with its place and
words, each message in flight during it has one of its kind and fate, and so have cuts and recoveries; there is a cross for each loss, and an
arrow's head for each delivery. All of that is read anew from the report's lines, by nothing that the tool is made of."""
import re
import sys
import xml.etree.ElementTree as ElementTree
from pathlib import Path
from typing import Dict, List, NamedTuple, Tuple

SVG = "{http://www.w3.org/2000/svg}"
OUTSIDE = re.compile(r"""<\s*(script|image|foreignObject|iframe|link|a)\b|\son[a-z]+\s*=|\bhref\s*=|@import|url\((?!#hatch\))|javascript:|<!ENTITY""", re.I)


class Sent(NamedTuple):
    """A message as the report's lines tell it: what it is called, and the places between which it was in flight, the last one 0 where none is."""

    words: str
    began: int
    ended: int
    fate: str


class Told(NamedTuple):
    """What the lines of a report tell."""

    events: List[Tuple[int, str]]
    messages: Dict[int, Sent]
    cuts: List[int]
    recoveries: List[int]


def end_all(told: Told, place: int, dropped: int) -> None:
    """A recovery: whatever is in flight ends here."""
    flying = [number for number, sent in told.messages.items() if not sent.ended]
    for number in flying:
        told.messages[number] = told.messages[number]._replace(ended=place, fate="dropped" if len(flying) == dropped else "unclear")
    told.recoveries.append(place)


def note_event(told: Told, place: int, words: str) -> None:
    """One line of an event."""
    told.events.append((place, words))
    about = re.match(r"(?:hop|deliver|lose) ([0-9]+): (delivered|lost|lostindead|nomessage)$", words)
    if about and int(about[1]) in told.messages and not told.messages[int(about[1])].ended:
        fate = {"delivered": "delivered", "nomessage": "gone"}.get(about[2], "lost")
        told.messages[int(about[1])] = told.messages[int(about[1])]._replace(ended=place, fate=fate)
    back = re.match(r"recover: recovered [0-9]+ undone [0-9]+ dropped ([0-9]+)$", words)
    if back:
        end_all(told, place, int(back[1]))
    if words.startswith("validate: validated "):
        told.cuts.append(place)


def told_by(report: str) -> Told:
    """What a report's lines tell."""
    told = Told([], {}, [], [])
    for line in report.splitlines():
        event = re.match(r"([0-9]+) (.*)$", line)
        message = re.match(r"  msg ([0-9]+) ([a-z]+) [0-9]+ [0-9]+ [0-9]+ ([0-9]+)", line)
        if event:
            note_event(told, int(event[1]), event[2])
        elif message:
            place = told.events[-1][0]
            is_lost = line.endswith(" lost")
            told.messages[int(message[1])] = Sent(f"{message[2]} {message[3]}", place, place if is_lost else 0, "lost" if is_lost else "flying")
    return told


def groups(root: ElementTree.Element, kind: str) -> Dict[str, ElementTree.Element]:
    """The groups whose first class this is, by their ids."""
    return {group.get("id", ""): group for group in root.iter(f"{SVG}g") if group.get("class", "").split(" ")[0] == kind}


def same(what: str, wanted: object, found: object) -> List[str]:
    """A fault where two things differ."""
    return [] if wanted == found else [f"{what}: {found} in place of {wanted}"]


def event_faults(root: ElementTree.Element, events: List[Tuple[int, str]]) -> List[str]:
    """What isn't so of the events' elements."""
    drawn = groups(root, "event")
    faults = same("events", sorted(f"event-{place}" for place, _ in events), sorted(drawn))
    for place, words in events:
        texts = [text.text for text in drawn[f"event-{place}"].iter(f"{SVG}text")] if not faults else [str(place), words]
        faults += same(f"words of event {place}", [str(place), words], texts)
    return faults


def label_faults(root: ElementTree.Element, messages: Dict[int, Sent]) -> List[str]:
    """What isn't so of the messages' labels: each message is named once, alone or in a row of numbers."""
    texts = [text.text or "" for text in root.iter(f"{SVG}text") if re.match("(label|note) ", text.get("class", ""))]
    named: List[Tuple[int, str]] = []
    for first, last, words in re.findall(r"\b([0-9]+)(?:–([0-9]+))?: ([a-z]+ [0-9]+)", ", ".join(texts)):
        named += [(number, words) for number in range(int(first), int(last or first) + 1)]
    return same("labels", sorted((number, sent.words) for number, sent in messages.items()), sorted(named))


def message_faults(root: ElementTree.Element, messages: Dict[int, Sent], last: int) -> List[str]:
    """What isn't so of the messages' elements."""
    drawn = groups(root, "message")
    faults = same("messages", sorted(f"message-{number}" for number in messages), sorted(drawn))
    for number, sent in messages.items():
        group = drawn.get(f"message-{number}")
        if group is None:
            continue
        faults += same(f"classes of message {number}", ["message", sent.words.split(" ")[0], sent.fate], group.get("class", "").split(" "))
        ends_here = sent.ended and sent.ended <= last
        crosses = sum(1 for path in group.iter(f"{SVG}path") if path.get("class", "").endswith(" cross"))
        faults += same(f"strokes of the cross of message {number}", 2 if ends_here and sent.fate in ("lost", "gone") else 0, crosses)
    return faults


def faults_of(report: str, picture: str, span: Tuple[int, int]) -> List[str]:
    """What isn't so of a picture of the events between two places."""
    told = told_by(report)
    first, last = span[0], min(span[1], len(told.events))
    root = ElementTree.fromstring(picture)
    messages = {number: sent for number, sent in told.messages.items() if sent.began <= last and (not sent.ended or sent.ended >= first)}
    faults = [f"reaches outside: {found.group(0)}" for found in OUTSIDE.finditer(picture)]
    faults += event_faults(root, [event for event in told.events if first <= event[0] <= last])
    faults += message_faults(root, messages, last) + label_faults(root, messages)
    for kind, places in (("cut", told.cuts), ("recovery", told.recoveries)):
        wanted = [place for place in places if first <= place <= last]
        faults += same(f"{kind}", wanted, sorted(int(name.split("-")[-1]) for name in groups(root, kind)))
    faults += same("first elements", [f"{SVG}title", f"{SVG}desc"], [child.tag for child in root][:2])
    untitled = [name for kind in ("event", "message") for name, group in groups(root, kind).items() if not (group.findtext(f"{SVG}title") or "")]
    return faults + [f"no title: {name}" for name in untitled]


def main(given: List[str]) -> int:
    """Says what isn't so, and returns 1 then."""
    span = (int(given[2]), int(given[3])) if len(given) > 2 else (1, 10**9)
    faults = faults_of(Path(given[0]).read_text("ascii"), Path(given[1]).read_text("utf-8"), span)
    for fault in faults[:10]:
        print(f"{given[1]}: {fault}"[:400], file=sys.stderr)
    return 1 if faults else 0


if __name__ == "__main__":
    sys.exit(main(sys.argv[1:]))
