#!/usr/bin/env python3
"""Holds docs/promises against the repository: what they name is there, each section says what it doesn't promise and what shows that it bites,
and no cell of a table is too long to read. Names what isn't so, and ends with status 1 then.
"""
import re
import sys
from pathlib import Path
from typing import Iterator, List, Set, Tuple

HERE = Path(__file__).resolve().parent.parent
INDEX = HERE / "docs/PROMISES.md"
PAGES = sorted((HERE / "docs/promises").glob("*.md"))
# The page that has no promises.
TESTED = "tested.md"
LONGEST = 200


def words_of_text() -> Set[str]:
    """All words of the crates' code, definitions and lemmas, and of their list, which has the names of the kit's crates too."""
    files = [it for part in ("src", "specs", "proofs") for it in HERE.glob(f"crates/*/{part}/**/*") if it.is_file()]
    texts = [it.read_text(encoding="utf-8") for it in [*files, HERE / "crates.txt"]]
    return {word for text in texts for word in re.findall(r"\w+", text)}


def sections(page: Path) -> Iterator[Tuple[str, str]]:
    """The heads and the texts of a page's sections."""
    for block in re.split(r"^## ", page.read_text(encoding="utf-8"), flags=re.M)[1:]:
        head, _, text = block.partition("\n")
        yield head, text


def edits_in(text: str) -> List[str]:
    """The edits that a section names behind *That it bites*, in its prose and in the brackets of its table."""
    found = text.partition("*That it bites.*")[2]
    prose = re.sub(r"^\|.*|\bof\s+`\w+`", "", found, flags=re.M)
    return [*re.findall(r"`(\w+)`", prose), *re.findall(r"^\| [^|]*\(`(\w+)`\)", found, re.M)]


def wrong_on(page: Path, words: Set[str], edits: Set[str]) -> Iterator[str]:
    """What isn't so of a page."""
    text = page.read_text(encoding="utf-8")
    rows = [it for it in text.splitlines() if it.startswith("|")]
    yield from (f"a cell of {len(it.strip())} letters: {it.strip()[:60]}" for row in rows for it in row.split("|") if len(it.strip()) > LONGEST)
    for name in sorted(set(re.findall(r"`([A-Za-z_][\w:]*)`", text))):
        lacking = [it for it in name.split("::") if it and it not in words | edits]
        yield from (f"`{it}` is in no crate" for it in lacking)
    for head, section in sections(page) if page.name != TESTED else ():
        marks = ("*Not promised", "*That it bites.*")
        yield from (f"{head}: no {it.strip('*')}" for it in marks if it not in section)
        yield from (f"{head}: no edit {it}" for it in edits_in(section) if it not in edits)


def main() -> int:
    words, edits = words_of_text(), {it.stem for it in HERE.glob("crates/*/must-fail/*.edit")}
    wrong = [f"{page.name}: {it}" for page in PAGES for it in wrong_on(page, words, edits)]
    listed = re.findall(r"\(promises/([\w.]+)\)", INDEX.read_text(encoding="utf-8"))
    if sorted(listed) != [it.name for it in PAGES]:
        wrong.append("PROMISES.md doesn't list each page of docs/promises once")
    for it in wrong:
        print(it, file=sys.stderr)
    return 1 if wrong else 0


if __name__ == "__main__":
    sys.exit(main())
