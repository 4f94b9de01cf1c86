"""The program's pages, read into their parts: what man_page.py writes anew, and what a completion is held against. Called by itself it lists the
calls that show a page.

A page is a file of crates/safetynet_program/pages. It has blocks with an empty line between. A line that begins at the margin is prose, a
usage, or, where it ends with a colon and indented lines follow, the head of a list. Of indented lines two or three blanks begin an item,
whose text stands two blanks or more behind its term; four or more begin lines that are shown as they stand.
"""
import re
import sys
from pathlib import Path
from typing import Dict, List, NamedTuple, Optional, Tuple, Union

HERE = Path(__file__).resolve().parent.parent
PAGES = HERE / "crates/safetynet_program/pages"
# An item's blanks, its term and its text; of a status the number and its word are the term.
ITEM = re.compile(r" +(\d+  \S.*?|\D\S*(?: \S+)*?|\d+) {2,}(\S.*)")


class NotAPage(Exception):
    """The line of a page that has no form that is known here."""


class Item(NamedTuple):
    """A term and what is said of it, with the items below it."""

    term: str
    text: str
    below: "List[Item]"


class Prose(NamedTuple):
    text: str


class Usage(NamedTuple):
    """What stands behind `usage:`, from the program's name on."""

    text: str


class Shown(NamedTuple):
    """Lines that are shown as they stand."""

    lines: List[str]


class Items(NamedTuple):
    """A list, with the line above it, where it has one."""

    head: str
    items: List[Item]


Part = Union[Prose, Usage, Shown, Items]


class Command(NamedTuple):
    """A command by its page: what stands behind its options, and each option with the name of its value, if it has one."""

    name: str
    operands: List[str]
    options: Dict[str, str]


def indent(line: str) -> int:
    return len(line) - len(line.lstrip(" "))


def items_of(lines: List[str]) -> List[Item]:
    """The items of a list. Deeper lines go on with an item's text, or are items below it where that ends with a colon."""
    found: List[Item] = []
    margin = 4 if indent(lines[0]) >= 4 else 2
    place = 0
    while place < len(lines):
        line = lines[place]
        place += 1
        parts = ITEM.fullmatch(line)
        if indent(line) < margin + 2 and parts:
            found.append(Item(re.sub(" +", " ", parts[1]), parts[2], []))
        elif not found or indent(line) < margin + 2:
            raise NotAPage(line)
        elif found[-1].text.endswith(":") and indent(line) == margin + 2:
            end = next((it for it in range(place, len(lines)) if indent(lines[it]) < margin + 2), len(lines))
            found[-1] = found[-1]._replace(below=items_of(lines[place - 1 : end]))
            place = end
        else:
            found[-1] = found[-1]._replace(text=f"{found[-1].text} {line.strip()}")
    return found


def indented_part(head: str, lines: List[str]) -> Part:
    """What indented lines are, with the line above them."""
    least = min(map(indent, lines))
    if head == "examples:" or least >= 4:
        return Shown([it[least:] for it in lines])
    if not head and not ITEM.fullmatch(lines[0]):
        return Prose(" ".join(it.strip() for it in lines))
    return Items(head, items_of(lines))


def parts_of_block(lines: List[str]) -> List[Part]:
    """The parts of a page between two empty lines."""
    text = " ".join(it.strip() for it in lines)
    if lines[0].startswith("usage: "):
        return [Usage(text[len("usage: ") :])]
    first = next((place for place, it in enumerate(lines) if it.startswith(" ")), len(lines))
    if lines[0].startswith("exit status: ") or first == len(lines):
        return [Prose(text)]
    above = " ".join(lines[:first])
    if first == 1 and above.endswith(":"):
        shown = indented_part(above, lines[1:])
        return [Prose(above), shown] if isinstance(shown, Shown) else [shown]
    return [*([Prose(above)] if above else []), indented_part("", lines[first:])]


def text_of(page: str) -> str:
    return (PAGES / f"{page}.txt").read_text(encoding="ascii")


def parts_of(page: str) -> List[Part]:
    """The parts of a page, in their order."""
    blocks = [it.splitlines() for it in text_of(page).strip("\n").split("\n\n")]
    return [part for block in blocks for part in parts_of_block(block)]


def list_on(page: str, head: str) -> List[Item]:
    """The items of a page's list whose head begins so; none where it has no such list."""
    found = (it for it in parts_of(page) if isinstance(it, Items) and it.head.startswith(head))
    listed: Optional[Items] = next(found, None)
    return listed.items if listed else []


def command_names() -> List[str]:
    """The commands, in the overview's order."""
    return [it.term.split()[0] for it in list_on("overview", "commands:")]


def topics() -> List[str]:
    """What else has a page that `help` shows."""
    words = [it.term.split() for it in list_on("overview", "help:")]
    return [it[2] for it in words if it[1] == "help"]


def usage_of(command: str) -> str:
    return next(it.text for it in parts_of(command) if isinstance(it, Usage))


def read_command(name: str) -> Command:
    """A command by its page."""
    operands = re.sub(r"\[.*?\]", "", usage_of(name)).split()[2:]
    options = {word: value for word, _, value in (it.term.partition(" ") for it in list_on(name, "options"))}
    return Command(name, operands, options)


def version() -> str:
    """The version, as `safetynet --version` tells it behind the program's name."""
    return text_of("version").split()[1]


def newest_change() -> Tuple[str, str]:
    """The version at the top of CHANGELOG.md, which the gate holds against the program's, and its date."""
    found = re.search(r"^## (\S+) \((\d{4}-\d\d-\d\d)\)$", (HERE / "CHANGELOG.md").read_text(encoding="utf-8"), re.M)
    if not found:
        sys.exit("CHANGELOG.md has no version with a date")
    return found[1], found[2]


def calls_for_pages() -> List[str]:
    """Calls that show a page, each as PAGE=WORD,WORD."""
    calls = [call for it in command_names() for call in (f"{it}={it},--help", f"{it}=help,{it}", f"version={it},--version")]
    return [*calls, *(f"{it}=help,{it}" for it in topics()), "version=--version"]


if __name__ == "__main__":
    print("\n".join(calls_for_pages()))
