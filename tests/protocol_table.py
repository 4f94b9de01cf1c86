#!/usr/bin/env python3
"""Holds the tables of docs/PROTOCOL.md against the definitions that they tell of, without any proof.

    tests/protocol_table.py [PAGE [CRATES]]

It compares which body, row and event belong together; in which state of an entry the home does which row; and what each row notes, opens,
closes, changes and sends, by name. Where rows of a table differ it says what the page has and what the definitions have, with status 1; where a
table or a definition isn't in the form that it reads it says so, with status 2. It can't see in which column of the cache's table a part stands,
to whom a message goes, nor what prose says, and leaves out the tables of a delivery's answers and of what a core finds.
"""
import argparse
import re
import sys
from difflib import SequenceMatcher
from pathlib import Path
from typing import Dict, Iterable, Iterator, List, NamedTuple, Tuple

HERE = Path(__file__).resolve().parent.parent
# The tables, by their first lines.
CACHE = "| Message | A | S | O | M | E |"
HOME = "| Message | idle, the home owns, no others | idle, the home owns, others | idle, another cache owns | idle, r owns | a transaction is open |"
DOES = "| Row | Noted | Changed | Sent |"
POINT = "| Message | What it does |"
SPELLINGS = "| Body | Row | Event |"
# The columns of the home's table that an event's condition names, beside that the message has come and no transaction is open. The owner
# sends no GetS, so "a cache owns" is another cache there.
SHARERS, SENDER = "N (other_sharers b i)", "b (b.net i).from"
COLUMNS = {
    f"(b.at_home ≡ true) × (count {SHARERS} ≡ 0)": [0],
    f"(b.at_home ≡ true) × (count {SHARERS} ≢ 0)": [1],
    f"(b.at_home ≡ true) × Lists {SHARERS} targets due": [0, 1],
    "(b.at_home ≡ false)": [2],
    f"OtherOwns {SENDER} × Lists {SHARERS} targets due": [2],
    f"Owns {SENDER} × Lists {SHARERS} targets due": [3],
    f"Owns {SENDER}": [3],
    "((b.at_home ≡ true) ⊎ (b.owner ≢ (b.net i).from))": [0, 1, 2],
}
OPEN = 4
# What a row does: a word for it, how the page says it, and how the definitions of `sn_model` say it.
DEEDS = [
    ("line", r"the line is (\w)", r"(?:with_line \S+ block|taken_over at block tag) ([A-Z])"),
    ("copy lost", r"the copy is lost", r"without_line at"),
    ("put closes", r"the put closes", r"closed_put"),
    ("one more in", r"one more is in", r"miss_with_ack"),
    ("fix", r"fix\((\w+), (\w+)\)", r"fixed_at \S+ (\w+) (\w+)"),
    ("note", r"\((\w+), ((?:Was|Not|Owned)\w*)", r"log_with_note \S+ (\w+) block \(?(?:Was(?=Owned))?(\w+)"),
    ("opens", r"an? (\w+) opens", r"transaction_by ([A-Z]\w+)"),
    ("closes", r"the transaction closes", r"without_transaction"),
    ("r owns", r"r owns", r"OfCache r\b"),
    ("home owns", r"the home owns d", r"Itself content"),
    ("r shares", r"r joins the sharers", r"slice_set \S+ r true"),
    ("no sharers", r"no sharers", r"no_sharers"),
]
ON_PAGE, IN_DEFINITIONS = 1, 2
PAGE, DEFINITIONS = "the page", "the definitions"
# What the page calls a body's fields, by their types, and the interval that an Unblock brings.
FIELDS = {"NodeId": "r", "u8": "due", "Block": "d", "Interval": "i"}
INTERVALS = {"interval": "i"}


class Unread(Exception):
    """A table or a definition isn't there in the form that is read here."""


class Module:
    """A file of definitions: the variants of each type, and of each function its type and the two sides of its clauses, in the file's order."""

    def __init__(self, file: Path) -> None:
        self.file = file
        text = re.sub(r"\n\s*(?=[ }])", " ", re.sub(r"\s*--.*", "", file.read_text(encoding="utf-8")))
        self.variants = {name: re.findall(r"([A-Z]\w*) :", rest) for name, rest in re.findall(r"^pub data (\w+) : (.*)$", text, re.M)}
        self.types: Dict[str, str] = dict(re.findall(r"^abbrev pub (\w+) : (.*)$", text, re.M))
        self.sides: Dict[str, List[Tuple[str, str]]] = {it: [] for it in self.types}
        for name, left, right in re.findall(r"^(\w+)( .*?)?\s=\s(.*)$", text, re.M):
            if name in self.types:
                self.sides[name].append((left, " ".join(right.split())))

    def clauses(self, name: str) -> List[Tuple[str, str]]:
        if not self.sides.get(name):
            raise Unread(f"{self.file}: {name} isn't a function with clauses")
        return self.sides[name]

    def by_variant(self, name: str) -> Dict[str, str]:
        """The right sides of a function with one clause for each variant of its last argument."""
        sides = [(re.search(r"\b([A-Z]\w*)(?: [\w ]+\))?$", left), right) for left, right in self.clauses(name)]
        by: Dict[str, str] = {it[1]: right for it, right in sides if it}
        if len(by) < len(sides):
            raise Unread(f"{self.file}: {name} hasn't one clause for each variant of its last argument")
        return by

    def reached(self, text: str, ends: Iterable[str]) -> str:
        """A text with the right sides of the functions here that it mentions, and of those that these mention, without those of `ends`."""
        whole, waiting, seen = text, re.findall(r"\w+", text), {*ends}
        while waiting:
            name = waiting.pop()
            if name in self.types and name not in seen:
                seen.add(name)
                more = " ".join(right for _, right in self.clauses(name))
                whole, waiting = f"{whole} {more}", waiting + re.findall(r"\w+", more)
        return whole


class Delivery(NamedTuple):
    """A delivery of `sn_coherence`: the body, the function of its row, the event, whether it waits for the home, and what else it asks."""

    body: str
    row: str
    event: str
    is_served: bool
    asks: str


# What is compared, and each of the two texts' lines of it by the text's name.
Compared = Tuple[str, Dict[str, List[str]]]


def bodies_in(file: Path) -> Dict[str, List[str]]:
    """The bodies of `sn_msg`, each with the types of its fields."""
    found = re.search(r"^pub enum Body \{\n(.*?)^\}", file.read_text(encoding="utf-8"), re.M | re.S)
    if not found:
        raise Unread(f"{file}: no enum Body")
    return {name: re.findall(r"\w+", fields) for name, fields in re.findall(r"^    (\w+)(?:\((.*)\))?,$", found[1], re.M)}


def rows_of(page: str, head: str) -> List[List[str]]:
    """The cells of the one table of the page that begins with this line."""
    found = re.findall(rf"^{re.escape(head)}\n\|[-|]+\|\n((?:\|.*\|\n)+)", page, re.M)
    if len(found) != 1:
        raise Unread(f"{len(found)} tables of the page begin with {head}")
    return [[it.strip() for it in row[1:-1].split("|")] for row in found[0].splitlines()]


class Protocol:
    """What the definitions say of each table."""

    def __init__(self, crates: Path) -> None:
        self.bodies = bodies_in(crates / "sn_msg/src/lib.rt")
        self.events, net = Module(crates / "sn_coherence/specs/Events.antt"), Module(crates / "sn_model/specs/NetEvents.antt")
        self.cache, self.home = Module(crates / "sn_model/specs/CacheRows.antt"), Module(crates / "sn_model/specs/HomeRows.antt")
        self.receivers, self.net = Module(crates / "sn_model/specs/Receivers.antt"), net
        self.deliveries = [*self.each_delivery()]
        self.outcomes = {body: self.outcome(text) for body, text in self.receivers.by_variant("receiver_of").items()}
        # the rows of `sn_model`, and what a node does that hears of a recovery point
        rows = [it for module in (self.cache, self.home) for it in module.types if module.types[it].endswith("Reply")]
        rows += [it for it in net.types if net.types[it].endswith("→ Node")]
        self.rows = {body: [it for it in rows if it in re.findall(r"\w+", text)] for body, text in self.outcomes.items()}

    def outcome(self, receiver: str) -> str:
        """What a message comes to by who takes it: the rows of its variant of the table's type, each by its function, and whether it waits."""
        found = re.fullmatch(r"receiver\.(\w+) (?:\(?(?:row|asked)\.(\w+).*|k)", receiver)
        by = self.net.by_variant("outcome_by")
        if not found or found[1] not in by:
            raise Unread(f"{self.receivers.file}: {receiver} isn't a receiver")
        if found[1] == "Cache" and "cache_reply" in by["Cache"]:
            return self.cache.by_variant("cache_reply")[found[2]]
        if found[1] == "Home" and "outcome_at_home" in by["Home"]:
            [(_, text)] = self.net.clauses("outcome_at_home")
            if not {"is_request", "unless_busy", "home_reply", "home_row"} <= {*re.findall(r"\w+", text)}:
                raise Unread(f"{self.net.file}: outcome_at_home doesn't go by is_request and home_row")
            chosen = self.home.reached(self.home.by_variant("home_row")[found[2]], ["home_row"])
            replies, waits = self.home.by_variant("home_reply"), self.home.by_variant("is_request")[found[2]] == "true"
            return " ".join([*(replies[it] for it in re.findall(r"\brow\.(\w+)", chosen)), *(["unless_busy"] if waits else [])])
        return self.net.reached(by[found[1]], [*self.cache.types, *self.home.types])

    def each_delivery(self) -> Iterator[Delivery]:
        allows, after = self.events.by_variant("Allows"), self.events.by_variant("after")
        if not self.events.variants.get("Event") == [*allows] == [*after]:
            raise Unread(f"{self.events.file}: Allows or after hasn't a clause for each Event")
        for event, right in allows.items():
            found = re.match(r"(Arrives|Served) b i (\w+)(?: × )?(.*)", right)
            if found:
                yield Delivery(found[2], after[event].split()[0], event, found[1] == "Served", found[3])
            elif {"net", "Arrives", "Served"} & {*re.findall(r"\w+", right)}:
                raise Unread(f"{self.events.file}: {event} doesn't begin with the message that has come")

    def ordered(self, module: Module) -> List[Tuple[str, str]]:
        """The rows of a file, in its order, each with its body."""
        return [(row, body) for row in module.types for body, rows in self.rows.items() if row in rows]

    def message(self, body: str) -> str:
        """A body as the page writes it."""
        fields = [FIELDS[it] for it in self.bodies[body]]
        return f"{body}({', '.join(fields)})" if fields else body

    def deeds(self, place: int, text: str) -> List[str]:
        """What a text says that a row does: either cells of the page, or a definition."""
        done = {" ".join([it[0], *(INTERVALS.get(word, word) for word in found.groups())]) for it in DEEDS for found in re.finditer(it[place], text)}
        return sorted(done | {f"sends {it}" for it in re.findall(r"\w+", text) if it in self.bodies})

    def spellings(self) -> Iterator[str]:
        for it in self.deliveries:
            own, other = self.rows.get(it.body, []), f"(in `sn_coherence`: `{it.row}`)"
            row = f"`{it.row}`" if it.row in own else f"`{own[0]}` {other}" if own else f"no row: `outcome_of` notes it {other}"
            yield f"`{it.body}` | {row} | `{it.event}`"

    def rows_by_state(self) -> Iterator[str]:
        """The home's table: of each message the row in each state of its block's entry."""
        cells: Dict[str, List[str]] = {}
        for it in self.deliveries:
            if it.row in self.home.types:
                cells.setdefault(it.body, ["✗"] * OPEN + ["HomeBusy" if "unless_busy" in self.outcomes[it.body] else "✗"])
                places = COLUMNS.get(it.asks) if it.is_served else None if it.asks else [OPEN]
                if places is None:
                    raise Unread(f"{self.events.file}: the condition of {it.event} names no columns of the home's table")
                for place in places:
                    cells[it.body][place] = f"`{it.row}`" if cells[it.body][place] == "✗" else f"{cells[it.body][place]} and `{it.row}`"
        return (" | ".join([self.message(body), *row]) for body, row in sorted(cells.items()))

    def what_messages_do(self) -> Iterator[str]:
        """The cache's table: of each message what it does. How a miss completes, and sends its Unblock, stands above that table."""
        for row, body in self.ordered(self.cache):
            yield f"{self.message(body)}: {'; '.join(self.deeds(IN_DEFINITIONS, self.cache.reached(row, ['reply_or_wait'])))}"

    def what_rows_do(self) -> Iterator[str]:
        """The home's rows: what each notes, changes and sends. Of an Unblock there is one for each way in which it goes on by the transaction's kind."""
        for row, _ in self.ordered(self.home):
            texts = {row: row}
            if row == "unblock":
                kinds: Dict[str, List[str]] = {}
                for left, right in self.home.clauses("unblock_of"):
                    kinds.setdefault(right, []).append(left.split()[-2])
                texts = {f"{row} of {'another' if it[1:] else 'a ' + it[0]}": right for right, it in kinds.items()}
            for name, text in texts.items():
                done = self.deeds(IN_DEFINITIONS, self.home.reached(text, []))
                columns = ([it for it in done if re.match(kind, it)] for kind in ("note ", "(?!note |sends )", "sends "))
                yield " | ".join([name, *map("; ".join, columns)])

    def compared(self, page: str) -> Iterator[Compared]:
        """What is said in more places than one: a name for it, and what each place says."""
        noted = [it for it in self.bodies if "Noted" in self.outcomes.get(it, "")]
        yield "Bodies with an event", {"sn_msg": sorted(self.bodies), "sn_coherence": sorted({it.body for it in self.deliveries})}
        yield "Bodies with an outcome", {"sn_msg": sorted(self.bodies), "sn_model": sorted(self.outcomes)}
        yield "Bodies with their rows", {
            "sn_model": sorted(f"{body} {row}" for body, rows in self.rows.items() for row in rows if body not in noted),
            "sn_coherence": sorted(f"{it.body} {it.row}" for it in self.deliveries if it.body not in noted),
        }
        yield SPELLINGS, {PAGE: [" | ".join(it) for it in rows_of(page, SPELLINGS)], DEFINITIONS: [*self.spellings()]}
        yield CACHE, {
            PAGE: [f"{it[0]}: {'; '.join(self.deeds(ON_PAGE, ' '.join(it[1:])))}" for it in rows_of(page, CACHE)],
            DEFINITIONS: [*self.what_messages_do()],
        }
        cells = (" | ".join([it[0], *(re.sub("(`.*`).*", r"\1", cell) for cell in it[1:])]) for it in rows_of(page, HOME))
        yield HOME, {PAGE: sorted(cells), DEFINITIONS: [*self.rows_by_state()]}
        done = [" | ".join([it[0].replace("`", ""), *("; ".join(self.deeds(ON_PAGE, cell)) for cell in it[1:])]) for it in rows_of(page, DOES)]
        yield DOES, {PAGE: done, DEFINITIONS: [*self.what_rows_do()]}
        yield POINT, {PAGE: [it[0].split(",")[0] for it in rows_of(page, POINT)], DEFINITIONS: [self.message(it).replace("(i)", "(k)") for it in noted]}


def differences(what: str, texts: Dict[str, List[str]]) -> Iterator[str]:
    """Where the two texts differ, what each has there."""
    if not all(texts.values()):
        raise Unread(f"nothing was read of {what}")
    (one, has), (other, due) = texts.items()
    for tag, begin, end, first, last in SequenceMatcher(None, has, due, autojunk=False).get_opcodes():
        if tag != "equal":
            parts = [f"{one}: {it}" for it in has[begin:end] or ["nothing"]] + [f"{other}: {it}" for it in due[first:last] or ["nothing"]]
            yield "\n    ".join([what, *parts])


def main() -> int:
    words = argparse.ArgumentParser(usage="tests/protocol_table.py [PAGE [CRATES]]")
    words.add_argument("page", nargs="?", type=Path, default=HERE / "docs/PROTOCOL.md")
    words.add_argument("crates", nargs="?", type=Path, default=HERE / "crates")
    wish = words.parse_args()
    try:
        compared = Protocol(wish.crates).compared(wish.page.read_text(encoding="utf-8"))
        found = [it for what, texts in compared for it in differences(what, texts)]
    except (Unread, OSError, KeyError) as error:
        print(f"can't be read: {error}", file=sys.stderr)
        return 2
    for it in found:
        print(it, file=sys.stderr)
    return 1 if found else 0


if __name__ == "__main__":
    sys.exit(main())
