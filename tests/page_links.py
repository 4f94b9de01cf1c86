#!/usr/bin/env python3
"""Holds the pages against the repository: `page_links.py [FOLDER]`, of this one if no folder is named.

Each link of a page leads to a file or folder that is there, and to a heading of it where it names one; each path that a page names from the
repository's top, or from the page's own folder, begins one that is there. A word in capitals, as NAME, stands for any. What isn't so is a line on
standard error, and the status is 1 then.
"""
import os
import re
import sys
from pathlib import Path
from typing import Iterator, List, Set

TOP = Path(__file__).resolve().parent.parent
LINK = re.compile(r"\]\(([^)\s]+)\)")
HEADING = re.compile(r"^#+ (.*)$", re.M)
# What stands as it is: code, in which brackets and parentheses are no link.
AS_IT_IS = re.compile(r"^```.*?^```$|^ {4}.*$|`[^`\n]*`", re.M | re.S)
NAMED = re.compile(r"(?<![\w/.<{$-])(?:bench|campaigns|contrib|crates|docs|examples|python|tests|tools)/[\w./+-]*\w")
# Folders that hold what was made, and aren't the repository's.
MADE = {"out", "build", "target", "__pycache__", ".git"}


def files_below(top: Path) -> Set[str]:
    """All files and folders of the repository, by their paths from its top."""
    found: Set[str] = set()
    for at, folders, names in os.walk(top):
        folders[:] = [it for it in folders if it not in MADE]
        found |= {os.path.relpath(os.path.join(at, it), top) for it in [*folders, *names]}
    return found


def anchors_of(text: str) -> Set[str]:
    """The names by which a page's headings are linked to: in lower case, without marks, and with - for a blank."""
    return {re.sub(r"[^\w -]", "", it.strip().lower()).replace(" ", "-") for it in HEADING.findall(text)}


def dead_links(top: Path, page: str, text: str) -> Iterator[str]:
    """The links of a page that lead nowhere."""
    for link in LINK.findall(AS_IT_IS.sub("", text)):
        if re.match(r"[a-z]+:", link):
            continue
        file, _, anchor = link.partition("#")
        to = top / os.path.dirname(page) / file if file else top / page
        if not to.exists() or anchor and anchor not in anchors_of(to.read_text(encoding="utf-8")):
            yield link


def lacking_paths(there: Set[str], page: str, text: str) -> Iterator[str]:
    """The paths that a page names and that aren't there, nor begin one that is: of `tests/compare_*.py` only the beginning is a path."""
    for path in NAMED.findall(text):
        own = os.path.normpath(os.path.join(os.path.dirname(page), path))
        is_any = re.search(r"\b[A-Z]{2,}\b", path) or MADE & {*path.split("/")}
        if not is_any and not any(it.startswith((path, own)) for it in there):
            yield path


def faults(top: Path) -> List[str]:
    """A line for each fault of each page."""
    there, found = files_below(top), []
    for page in sorted(it for it in there if it.endswith(".md")):
        text = (top / page).read_text(encoding="utf-8")
        found += [f"{page}: the link {it} leads nowhere" for it in dead_links(top, page, text)]
        found += [f"{page}: there is no {it}" for it in lacking_paths(there, page, text)]
    return found


def main() -> int:
    """Says what isn't so."""
    found = faults(Path(sys.argv[1]) if sys.argv[1:] else TOP)
    for it in found:
        print(it, file=sys.stderr)
    return int(bool(found))


if __name__ == "__main__":
    sys.exit(main())
