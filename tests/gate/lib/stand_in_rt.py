#!/usr/bin/env python3
"""Stands in for rt in tests of ./safetynet and build.py, with what these take of it. CALLS names the file that gets a line a call.

A proof fails where the file FAILS names the crate, and where a text asks for a handle that isn't allowed. What is built has a sum of its
text and of the libraries below; the program prints the text of the library `low` and its words, and reports the words. `rt try` does the
same with the present text, and says what rt itself says behind it; the file FAILS.try has it answer otherwise, or not at all. Where the
file FAILS.first is there, no proof ends before the call has said what becomes of an answer. Where the file FAILS.why is there, both refuse the
file that the last word names. For `drive` standard input is put out too. Where the toolchain has a folder `kept`, it keeps there what was
proved; else it is one that keeps nothing.
"""
import hashlib
import os
import shutil
import sys
import time
from pathlib import Path
from types import SimpleNamespace
from typing import Dict, List, Sequence

KIT = Path(__file__).resolve().parent.parent
FAILS = os.environ["FAILS"]
if (KIT / "kept").is_dir():
    STORE = KIT / "kept"
REACHES = {"Net": r"\bnet\b"}


# The program: what it puts out is the text LOW and its words.
PROGRAM = """#!/usr/bin/env bash
if [ -e "$FAILS.why" ]; then
  echo "LOW"
  echo "# why: ${!#}:3: no event" >&2
  exit 4
fi
echo "LOW:$*"
echo "report of $*" >&2
exit 7
"""


def told(*words: str) -> None:
    """Notes a call."""
    with open(os.environ["CALLS"], "a") as calls:
        print(*words, file=calls)


def wait_for_an_answer() -> None:
    """Until the call has said on standard error whether there is an answer, where there is to be one first; at most half a minute."""
    latest = time.monotonic() + 30
    while Path(f"{FAILS}.first").exists() and "before the proof" not in (KIT / "err").read_text() and time.monotonic() < latest:
        time.sleep(0.02)


def text_in(folder: str) -> str:
    """All code of a crate."""
    return "".join(it.read_text() for it in Path(folder, "src").iterdir())


def sum_of(text: str, formats: Sequence[str]) -> str:
    """What a crate's product is known by."""
    return hashlib.sha256(repr((text, formats)).encode()).hexdigest()


def handles_of(root: str) -> str:
    """What HANDLES allows."""
    return Path(root, "HANDLES").read_text().split()[2].rstrip(".")


class Crate:
    """A crate, as rt's own file has it."""

    # what is allowed, which build.py sets, and where the library stands
    allowed = ""
    rlib = ""

    def __init__(self, folder: str, root: str, known: Dict[str, object]) -> None:
        self.folder, self.name, self.is_program = folder, Path(folder).name, folder.endswith("_program")
        rows = [it.split() for it in Path(root, "crates.txt").read_text().splitlines()]
        uses = next(it[1:] for it in rows if it[0] == f"{self.name}:")
        self.deps = [Crate(f"{root}/crates/{it}", root, known) for it in uses if Path(root, "crates", it).is_dir()]

    def below(self) -> "List[Crate]":
        """The crates below it, along each path."""
        return [it for dep in self.deps for it in [*dep.below(), dep]]

    def words(self, flags: List[str], keeps: bool = True) -> List[str]:
        """The words of a check."""
        return ["--incremental", "out", *flags] if keeps else flags

    def prove(self, words: List[str]) -> int:
        """Proves it, or doesn't."""
        told(self.name, *words)
        wait_for_an_answer()
        if Path(f"{FAILS}.hang.{self.name}").exists():
            Path(f"{FAILS}.hang.{self.name}").write_text(str(os.getpid()))
            time.sleep(60)
        text = text_in(self.folder)
        if self.name in Path(FAILS).read_text().split() or "threads" in text and "Threads" not in self.allowed:
            print(f"fn {self.name}::f: not proved")
            return 1
        if Path(f"{FAILS}.{self.name}").exists():
            time.sleep(0.1)
            Path(self.folder, "../left/src/lib.rt").write_text(Path(f"{FAILS}.{self.name}").read_text())
        if not self.is_program:
            Path(self.rlib).mkdir(exist_ok=True)
            Path(self.rlib, "text").write_text(text)
            Path(self.rlib, "format").write_text(sum_of(text, [Path(it.rlib, "format").read_text() for it in self.below()]))
        return 0

    def link(self, made: str, program: str) -> int:
        """Writes the program."""
        told(self.name, made, program)
        low = next(Path(it.rlib, "text").read_text().strip() for it in self.below() if it.name == "low")
        Path(self.folder, program).write_text(PROGRAM.replace("LOW", low))
        Path(self.folder, program).chmod(0o755)
        return 0


class Kept:
    """What earlier runs of the gate proved."""

    def __init__(self, crates: List[Crate]) -> None:
        self.formats: Dict[str, str] = {}

    def is_built(self, crate: Crate) -> None:
        """Takes note of a library that stands there."""
        self.formats[crate.name] = Path(crate.folder, "out/rlib", f"{crate.name}.rlib/format").read_text()

    def key(self, crate: Crate) -> str:
        """The sum of all that a crate's proof reads."""
        return sum_of(text_in(crate.folder), [self.formats[it.name] for it in crate.below()])

    def give(self, crate: Crate, tests: bool, key: str) -> bool:
        """Gives what was proved of the same, if there is such."""
        kept = STORE / f"proof-{crate.name}-{key}"
        if kept.is_dir():
            shutil.copytree(kept, f"{crate.folder}/out/rlib/{crate.name}.rlib")
        return kept.is_dir()


rtlib = SimpleNamespace(guarded=list, code_of=text_in)

if __name__ == "__main__" and sys.argv[1] == "doc":
    print(KIT / "START-HERE.md")
elif __name__ == "__main__" and sys.argv[1] == "version":
    print((KIT / "WHAT").read_text().strip())
elif __name__ == "__main__":
    told(*sys.argv[1:])
    words, asked = sys.argv[sys.argv.index("--") + 1 :], Path(f"{FAILS}.try")
    how = asked.read_text() if asked.exists() else ""
    low = Path("../low/src/lib.rt").read_text().strip()
    if how == "none":
        print("part of it", end="")
        print("checked: no-answer: more than 1 MiB\nrun=none proved=no", file=sys.stderr)
        sys.exit(6)
    if how == "slow":
        time.sleep(60)
    if how == "foretold":
        print("rt: a check will refuse this: src/main.rt: error[reserved-name]", file=sys.stderr)
    status, put, report = 7, f"{'other' if how == 'other' else low}:{' '.join(words)}", f"report of {' '.join(words)}"
    if Path(f"{FAILS}.why").exists():
        status, put, report = 4, low, f"# why: {words[-1]}:3: no event"
    print(put, *(sys.stdin.read().split() if words[:1] == ["drive"] else []))
    print(report, file=sys.stderr)
    print(f"checked: ended status={status}\nraces: not looked for, since a kit has no ThreadSanitizer", file=sys.stderr)
    print(f"run=ended status={status} runners=1 proved=no", file=sys.stderr)
    sys.exit(status)
