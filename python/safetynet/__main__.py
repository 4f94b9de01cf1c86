"""``python -m safetynet litmus FILE.litmus..``: the package's own command; the machine's are those of `safetynet`."""
from __future__ import annotations

import os
import sys
from typing import List

from .litmus.command import main as litmus


def main(words: List[str]) -> int:
    """Does the command that the words name; the exit status."""
    if not words or words[0] in ("-h", "--help"):
        print("usage: python -m safetynet litmus FILE.. [OPTIONS]\n\nlitmus  run litmus tests in herd's form (python -m safetynet litmus --help)")
        return 0 if words else 2
    if words[0] != "litmus":
        print(f"python -m safetynet: {words[0]}: the command is litmus", file=sys.stderr)
        return 2
    try:
        return litmus(words[1:])
    except BrokenPipeError:
        # who read the log has gone; Python would complain once more as it ends
        os.dup2(os.open(os.devnull, os.O_WRONLY), sys.stdout.fileno())
        return 1


if __name__ == "__main__":
    sys.exit(main(sys.argv[1:]))
