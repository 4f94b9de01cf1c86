#!/usr/bin/env python3
"""Holds the lessons against the program: `quoted_lessons.py PROGRAM [FILE..]`, of docs/lessons if no file is named.

In a block that begins with ```console a line after `$ ` is a command, which is done in a folder with the examples, and the lines below it stand one
behind the other among those that it writes, standard output first; `...` is a gap, and there may be others before the first line and behind the last. Where a word within `` looks like a line of a report, a command of
its lesson writes it. Pictures and pages that are linked are there, and a lesson has its parts. What isn't so is a line on standard error, and the
status is 1 then."""
import re
import subprocess
import sys
import tempfile
from pathlib import Path
from typing import Iterator, List, NamedTuple, Set, Tuple

ROOT = Path(__file__).resolve().parent.parent
LESSONS = ROOT / "docs/lessons"
BLOCK = re.compile(r"^```console\n(.*?)^```$", re.M | re.S)
CODE = re.compile(r"(?<!`)`([^`\n]+)`(?!`)")
# A line of a report: an event with its answer, a message, a core, a watched word, or a number of the summary.
REPORTED = re.compile(r"[0-9]+ [a-z]+( [0-9a-z]+)*: .+|msg [0-9]+ .+|core [0-9]+ .+|watch [0-9a-f]{8} .+|(events|point|committed|released) [0-9]+")
LINK = re.compile(r"\]\(([^)]+)\)")
TOOLS = ("./safetynet", "sed", "printf", "cat")
PARTS = ("**Goal.** ", "## The program", "## The script and its replay", "## What happens", "## Questions", "## A change to try", "](../pictures/")
QUESTIONS = 3


class Quote(NamedTuple):
    """A command, and the lines that stand below it."""

    command: str
    lines: List[str]


def quotes_of(text: str) -> Iterator[Quote]:
    """The commands of a lesson in their order."""
    for block in BLOCK.findall(text):
        for line in block.splitlines():
            if line.startswith("$ "):
                quote = Quote(line[2:], [])
                yield quote
            else:
                quote.lines.append(line)


def all_quotes(text: str) -> List[Quote]:
    """The same, once each has all its lines."""
    return list(quotes_of(text))


def written(command: str, folder: Path) -> List[str]:
    """What a command writes, line by line, standard output first."""
    done = subprocess.run(["bash", "-c", command], cwd=folder, stdin=subprocess.DEVNULL, capture_output=True, text=True, check=False)
    return [*done.stdout.splitlines(), *done.stderr.splitlines()]


def first_lacking(lines: List[str], found: List[str]) -> str:
    """The first of these lines that doesn't stand behind the one before it, or, behind a gap, further down; empty where all do."""
    at, is_gap = 0, True
    for line in lines:
        if line == "...":
            is_gap = True
            continue
        if line not in found[at:] or (not is_gap and found[at] != line):
            return line
        at, is_gap = found.index(line, at) + 1, False
    return ""


def judged(text: str, folder: Path) -> Tuple[List[str], int]:
    """What isn't so in a lesson, and how much was looked at."""
    faults: List[str] = []
    seen: Set[str] = set()
    quotes = all_quotes(text)
    for quote in quotes:
        if not quote.command.startswith(TOOLS):
            faults.append(f"a command begins with none of {', '.join(TOOLS)}: {quote.command}")
            continue
        found = written(quote.command, folder)
        seen.update(line.strip() for line in found)
        lacking = first_lacking(quote.lines, found)
        if lacking:
            faults.append(f"`{quote.command}` doesn't write, in its place: {lacking}")
    words = [word for word in CODE.findall(BLOCK.sub("", text)) if REPORTED.fullmatch(word)]
    faults += [f"no command of the lesson writes: {word}" for word in words if word not in seen]
    return faults, sum(len(quote.lines) + 1 for quote in quotes) + len(words)


def lacks(text: str, file: Path) -> List[str]:
    """What a page links that isn't there, and which parts a lesson lacks."""
    links = [link.split("#")[0] for link in LINK.findall(text) if "://" not in link]
    faults = [f"links what isn't there: {link}" for link in links if not (file.parent / link).exists()]
    if file.name != "README.md":
        faults += [f"lacks a part: {part}" for part in PARTS if part not in text]
        if text.count("<details><summary>") != QUESTIONS or text.count("</details>") != QUESTIONS:
            faults.append(f"hasn't {QUESTIONS} questions with an answer each")
    return faults


def main(given: List[str]) -> int:
    """Judges the lessons, and says how much it looked at."""
    program = Path(given[0]).resolve()
    files = [Path(name) for name in given[1:]] or sorted(LESSONS.glob("*.md"))
    faults: List[str] = []
    looked_at = 0
    for file in files:
        text = file.read_text("utf-8")
        with tempfile.TemporaryDirectory() as name:
            folder = Path(name)
            (folder / "examples").symlink_to(ROOT / "examples")
            (folder / "safetynet").symlink_to(program)
            found, count = judged(text, folder)
        faults += [f"{file.name}: {fault}" for fault in found + lacks(text, file)]
        looked_at += count
    for fault in faults:
        print(fault, file=sys.stderr)
    print(f"{len(files)} pages, {looked_at} commands and lines")
    return 1 if faults or looked_at == 0 else 0


if __name__ == "__main__":
    sys.exit(main(sys.argv[1:]))
