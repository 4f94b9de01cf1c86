#!/usr/bin/env python3
"""Writes the manual page of the program's pages.

    tools/man_page.py            prints it
    tools/man_page.py --write    writes docs/safetynet.1

Nothing is said there that the program's pages don't say, so the page changes with them, and the gate holds it against what this prints. Its
date is that of the version in CHANGELOG.md.
"""
import re
import sys
import textwrap
from typing import List

from pages import HERE, Item, Items, Part, Prose, Shown, Usage
from pages import command_names, list_on, newest_change, parts_of, topics, usage_of, version

PAGE = HERE / "docs/safetynet.1"
# The titles under which `man` has what these topics say.
TITLES = {"statuses": "EXIT STATUS"}
# So wide is an example, which is shown as it stands; `man` puts blanks before it.
WIDTH = 68


def title(page: str) -> str:
    """Where the manual has what a page of the program says: a topic in a section, a command under its own name."""
    return page if page in command_names() else TITLES.get(page, page.upper())


def plain(text: str) -> str:
    """A text without a meaning for the typesetter."""
    for letter, escaped in (("\\", "\\e"), ("-", "\\-"), ("^", "\\(ha"), ("~", "\\(ti")):
        text = text.replace(letter, escaped)
    return f"\\&{text}" if text.startswith((".", "'")) else text


def code(text: str) -> str:
    return plain(text).replace("'", "\\(aq").replace("`", "\\(ga")


def bold(text: str) -> str:
    return f"\\fB{code(text)}\\fR"


def prose(text: str) -> str:
    """Prose: what stands in backquotes is bold, and a page that is named is its section here."""
    text = re.sub(r"\(help (\w+)\)", lambda it: f"(see `{title(it[1])}`)", text)
    return "".join(bold(it) if place % 2 else plain(it) for place, it in enumerate(text.split("`")))


def words(text: str) -> str:
    """What is typed: names of values in italics, all else bold."""
    return re.sub(r"[^\s\[\]]+", lambda it: f"\\fI{code(it[0])}\\fR" if re.fullmatch(r"[A-Z@]+", it[0]) else bold(it[0]), text)


def lines_of(items: List[Item]) -> List[str]:
    """The items of a list, each a paragraph with its term."""
    found: List[str] = []
    for item in items:
        found += [".TP", words(item.term), prose(item.text)]
        if item.below:
            found += [".RS", *lines_of(item.below), ".RE"]
    return found


def wrapped(lines: List[str]) -> List[str]:
    """Lines of a shell: one that goes on after a backslash is broken anew, so that none is too wide."""
    calls = "\n".join(lines).replace("\\\n", " ").split("\n")
    broken = [textwrap.wrap(" ".join(it.split()), WIDTH, subsequent_indent="    ", break_on_hyphens=False) for it in calls]
    return [line for call in broken for line in [*(f"{it} \\" for it in call[:-1]), call[-1]]]


def shown(lines: List[str]) -> List[str]:
    """Lines that stand as they are."""
    are_calls = lines[0].startswith("safetynet ")
    return [".PP", ".EX", *map(code, wrapped(lines) if are_calls else lines), ".EE"]


def written(part: Part) -> List[str]:
    """A part of a page."""
    if isinstance(part, Usage):
        return [".PP", words(part.text)]
    if isinstance(part, Shown):
        return shown(part.lines)
    if isinstance(part, Prose):
        return [".PP", prose(part.text[:1].upper() + part.text[1:])]
    head = [".PP", prose(part.head[:1].upper() + part.head[1:])] if part.head else []
    return head + lines_of(part.items)


def section(head: str, parts: List[Part]) -> List[str]:
    """A section or a command's, whose first paragraph needs no mark."""
    body = [line for part in parts for line in written(part)]
    return [head, *(body[1:] if body[0] == ".PP" else body)]


def overview() -> List[str]:
    """What is said of all commands: the prose, how pages are called, and the examples."""
    parts = parts_of("overview")
    texts = [it for it in parts if isinstance(it, Prose) and not it.text.endswith(":")]
    about: List[Part] = [*texts, *(it for it in parts if isinstance(it, Items))]
    return section(".SH DESCRIPTION", about)


def examples() -> List[str]:
    return section(".SH EXAMPLES", [it for it in parts_of("overview") if isinstance(it, Shown)])


def name() -> str:
    """What the program is, in the words with which the overview begins."""
    first = next(it.text for it in parts_of("overview") if isinstance(it, Prose)).partition(":")[0]
    return plain(first[:1].lower() + first[1:])


def synopsis() -> List[str]:
    calls = [usage_of(it) for it in command_names()]
    calls += [it.term for it in list_on("overview", "help:") if it.term.endswith(("--help", "--version"))]
    return [".SH SYNOPSIS", *"\n.br\n".join(map(words, calls)).split("\n")]


def page() -> str:
    """The manual page."""
    lines = [f'.TH SAFETYNET 1 {newest_change()[1]} "safetynet {version()}" "User Commands"', ".SH NAME", f"safetynet \\- {name()}"]
    lines += [*synopsis(), *overview(), ".SH COMMANDS"]
    for command in command_names():
        lines += section(f".SS {command}", parts_of(command))
    for topic in topics():
        lines += section(f".SH {title(topic)}", parts_of(topic))
    return "\n".join(['.\\" tools/man_page.py wrote this of the program\'s pages: change those.', *lines, *examples(), ""])


def main(given: List[str]) -> int:
    if given not in ([], ["--write"]):
        print("usage: tools/man_page.py [--write]", file=sys.stderr)
        return 1
    if given:
        PAGE.write_text(page(), encoding="ascii")
    else:
        sys.stdout.write(page())
    return 0


if __name__ == "__main__":
    sys.exit(main(sys.argv[1:]))
