#!/usr/bin/env python3
"""Holds the texts of crates/help_pages against the pages beside the program's source, without a build.

The gate compares these pages with what the built program says; this tells at once where a text was changed and its page wasn't. Names what
differs, and ends with status 1 then.
"""
import re
import sys
from pathlib import Path
from typing import Dict

HERE = Path(__file__).resolve().parent.parent
TEXTS = HERE / "crates/help_pages/src/texts"
PAGES = HERE / "crates/safetynet_program/pages"
CONSTANT = re.compile(r'^pub const ([A-Z]+): &str = "((?:[^"\\]|\\.)*)";$', re.M | re.S)


def meant(literal: str) -> str:
    """The text of a literal: a backslash before a line's end takes that away, with the blanks behind it."""
    return re.sub(r"\\(\n\s*|.)", lambda it: {"n": "\n"}.get(it[1], it[1].strip()), literal)


def texts() -> Dict[str, str]:
    """The pages' texts in the source, by their names."""
    files = [it.read_text(encoding="utf-8") for it in sorted(TEXTS.glob("*.rt"))]
    return {name.lower(): meant(literal) for text in files for name, literal in CONSTANT.findall(text)}


def main() -> int:
    in_source = texts()
    beside = {it.stem: it.read_text(encoding="ascii") for it in PAGES.glob("*.txt")}
    differing = sorted(it for it in {*in_source, *beside} if in_source.get(it) != beside.get(it))
    for name in differing:
        print(f"the page {name}: {PAGES.relative_to(HERE)}/{name}.txt isn't the text of crates/help_pages", file=sys.stderr)
    return 1 if differing or not in_source else 0


if __name__ == "__main__":
    sys.exit(main())
