#!/usr/bin/env python3
"""Holds crates.txt against what the crates' sources mention.

    tools/crate_edges.py            says which lines differ, and then has status 1
    tools/crate_edges.py --write    writes them anew; the order of the crates stays
    tools/crate_edges.py --paths    says how many paths go down from all crates together; status 1 above MOST_PATHS

The toolchain walks every path of crates.txt, and a crate's check loads what its line names. So a line names those crates alone that the
crate's own code, clauses, definitions or proofs mention, and not what these stand on in their turn. Without a flag it also says which theorems stand
on a controller, by whatever way, since what they say holds of definitions alone.
"""
import functools
import re
import sys
from pathlib import Path
from typing import Dict, FrozenSet, Iterator, List, Tuple

HERE = Path(__file__).resolve().parent.parent
LIST = HERE / "crates.txt"
# An rt that remembers nothing reads the files of a crate about twice for each path to it, some thirty at a time.
MOST_PATHS = 400_000
# A change of a controller proves no theorem anew.
THEOREMS = [
    "state_parts",
    "sn_coherence",
    "sn_consistency",
    "projection_places",
    "fabric_coherence",
    "fabric_bounds",
    "consistent_cuts",
    "saved_points",
    "accepted_saves",
]
CONTROLLERS = ["mosi_cache", "home_directory", "sn_fabric", "sn_machine"]
# A name of the logic, the head of a path in code, and an import.
MENTIONS = [re.compile(r"Rattle\.(\w+)\."), re.compile(r"(?<![\w:])(\w+)::"), re.compile(r"^(?:pub )?use (\w+)", re.MULTILINE)]


@functools.lru_cache(maxsize=None)
def mentioned(crate: str) -> FrozenSet[str]:
    """The first word of each path that stands in the crate's sources, crates and others."""
    folder = HERE / "crates" / crate
    files = [it for part in ("src", "specs", "proofs") for it in (folder / part).rglob("*") if it.suffix in (".rt", ".antt")]
    texts = [it.read_text(encoding="utf-8") for it in files]
    return frozenset(found for text in texts for pattern in MENTIONS for found in pattern.findall(text))


def parted(line: str) -> Tuple[str, List[str]]:
    """A line's crate, and what it names behind the colon."""
    crate, _, named = line.partition(":")
    return crate.strip(), named.split()


def known(lines: List[str]) -> List[str]:
    """All that some line names: the repository's crates in their order, and before them the kit's."""
    crates = [parted(it)[0] for it in lines]
    kit = sorted({it for line in lines for it in parted(line)[1]} - {*crates})
    return kit + crates


def lacking(line: str, every: List[str]) -> List[str]:
    """The repository's crates that the sources mention and the line doesn't name."""
    crate, named = parted(line)
    return [it for it in every if it in mentioned(crate) and it not in named and it != crate and (HERE / "crates" / it).is_dir()]


def direct(line: str, every: List[str]) -> str:
    """The line with what its crate's sources mention: what stands there and is mentioned, and then what lacks."""
    crate, named = parted(line)
    words = [it for it in named if it in mentioned(crate)] + lacking(line, every)
    return f"{crate}: {' '.join(words)}".rstrip()


def under(crate: str, below: Dict[str, List[str]]) -> Iterator[str]:
    """What a crate stands on, by whatever way; each as often as a way leads to it."""
    for it in below.get(crate, []):
        yield it
        yield from under(it, below)


def on_controllers(lines: List[str]) -> List[str]:
    """The theorems that stand on a controller, each with it."""
    below: Dict[str, List[str]] = dict(parted(it) for it in lines)
    return [f"{theorem} stands on {it}" for theorem in THEOREMS for it in CONTROLLERS if it in under(theorem, below)]


def paths(lines: List[str]) -> int:
    """How many paths go down from all crates together, a crate's own beginning among them."""
    below: Dict[str, List[str]] = dict(parted(it) for it in lines)

    @functools.lru_cache(maxsize=None)
    def down(crate: str) -> int:
        return 1 + sum(down(it) for it in below[crate] if it in below)

    return sum(down(it) for it in below)


def main() -> int:
    whole = LIST.read_text(encoding="utf-8").splitlines()
    if sys.argv[1:] == ["--paths"]:
        found = paths([it for it in whole if it and not it.startswith("#")])
        print(f"{found} paths, of at most {MOST_PATHS}")
        return int(found > MOST_PATHS)
    every = known([it for it in whole if not it.startswith("#")])
    made = [it if it.startswith("#") else direct(it, every) for it in whole]
    if sys.argv[1:] == ["--write"]:
        LIST.write_text("\n".join(made) + "\n", encoding="utf-8")
        return 0
    for old, new in zip(whole, made):
        if old != new:
            print(f"{old}\n    its sources mention: {parted(new)[1]}", file=sys.stderr)
    wrong = on_controllers([it for it in whole if it and not it.startswith("#")])
    for it in wrong:
        print(it, file=sys.stderr)
    return int(whole != made or bool(wrong))


if __name__ == "__main__":
    sys.exit(main())
