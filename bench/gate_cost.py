#!/usr/bin/env python3
"""What the gate costs: processor seconds of each crate's proof, tests and must-fail edits.

    bench/gate_cost.py LOG rt ci [NAME..]    runs the command, and writes a line into LOG for each of its checks as it ends
    bench/gate_cost.py LOG --of PROCESS      the same of a command that runs already
    bench/gate_cost.py LOG                   the table of a LOG, as docs/MEASURES.md has it
    bench/gate_cost.py LOG --edits [LEAST]   its must-fail edits by their cost, those of LEAST seconds (0) and more

`rt ci` itself tells no times, and works on several crates at once. So this looks at the command's processes once a second: each
check is a process whose words name the crate. What a check did in its last second is lost, and a check that was shorter than a
second may be. What an earlier run on this machine proved takes no time, so measure with nothing kept (`rt ci --anew`).
"""
import contextlib
import os
import re
import subprocess
import sys
import time
from collections import defaultdict
from pathlib import Path
from typing import Callable, DefaultDict, Dict, List, Optional, Sequence, TextIO, Tuple

TICKS = os.sysconf("SC_CLK_TCK")
KINDS = ["proof", "tests", "seed", "edit"]
# A process's parent, and its processor seconds.
Stat = Tuple[int, float]
# A check's crate, its kind, and the edit that it tries.
Check = Tuple[str, str, str]


def stat_of(process: str) -> Stat:
    """Its parent and its processor seconds, with those of the children that it has waited for."""
    fields = Path(f"/proc/{process}/stat").read_text().rsplit(")", 1)[1].split()
    return int(fields[1]), sum(map(int, fields[11:15])) / TICKS


def descendants(top: int) -> Dict[int, Stat]:
    """The living processes below one: their parents, and their processor seconds."""
    found: Dict[int, Stat] = {}
    for name in os.listdir("/proc"):
        if name.isdigit():
            try:
                found[int(name)] = stat_of(name)
            except (OSError, IndexError):
                continue
    below, grown = {top}, True
    while grown:
        new = {it for it, (parent, _) in found.items() if parent in below} - below
        below, grown = below | new, bool(new)
    return {it: found[it] for it in below - {top} if it in found}


def what_is(process: int, top: int) -> Optional[Check]:
    """The crate and the kind of a check, and the edit that it tries, or None where the process is none. The command works where top is."""
    words = Path(f"/proc/{process}/cmdline").read_bytes().decode(errors="replace").split("\0")
    if not words[0].endswith("/rattle") or "--crate-name" not in words:
        return None
    crate, folder = words[words.index("--crate-name") + 1], os.readlink(f"/proc/{process}/cwd")
    if "/rt-edit-" not in folder:
        return crate, "tests" if "--test" in words else "proof", "-"
    over = words[words.index("--incremental") + 1] if "--incremental" in words else ""
    return (crate, "seed", "-") if over.endswith("/seed") else (crate, "edit", edit_in(Path(f"/proc/{top}/cwd/crates", crate), folder))


def edit_in(crate: Path, folder: str) -> str:
    """The name of the edit whose new lines stand in this folder's files, and its old ones don't; `crate` is the crate as it was."""
    for edit in sorted((crate / "must-fail").glob("*.edit")):
        text = edit.read_text()
        files = re.findall(r"^file: (.*)$", text, re.M)
        pairs = re.findall(r"^old: (.*)\nnew: ?(.*)$", text, re.M)
        try:
            now = "".join(Path(folder, it).read_text() for it in files)
            was = "".join((crate / it).read_text() for it in files)
        except OSError:
            continue
        if now != was and all(new in now and now.count(old) < max(was.count(old), 1 + new.count(old)) for old, new in pairs):
            return edit.stem
    return "?"


def checks_among(now: Dict[int, Stat], top: int) -> Dict[int, Check]:
    """Of the processes below a command, those that are checks of their own: a check's helpers have its words too."""
    found: Dict[int, Check] = {}
    for it, (parent, _) in now.items():
        with contextlib.suppress(OSError, IndexError):
            what = what_is(it, top)
            if what and not (parent in now and what_is(parent, top)):
                found[it] = what
    return found


def used_by(process: int, now: Dict[int, Stat]) -> float:
    """Its processor seconds, with those of all that lives below it."""
    return now[process][1] + sum(used_by(it, now) for it, (parent, _) in now.items() if parent == process)


def watch(top: int, log: TextIO, has_ended: Callable[[], bool]) -> None:
    """Writes a line for each check below a process as it ends: crate, kind, edit, processor seconds, seconds."""
    known: Dict[int, Tuple[Check, float, float, float]] = {}
    while True:
        ended = has_ended()
        now = {} if ended else descendants(top)
        for it in set(known) - set(now):
            (crate, kind, edit), begun, last, used = known.pop(it)
            log.write(f"{crate} {kind} {edit} {used:.1f} {last - begun:.0f}\n")
            log.flush()
        if ended:
            return
        for it, what in checks_among(now, top).items():
            # a helper that was just waited for counts in neither look
            what, begun, _, used = known.get(it, (what, time.time(), 0.0, 0.0))
            known[it] = what, begun, time.time(), max(used, used_by(it, now))
        time.sleep(1)


def minutes(seconds: float) -> str:
    """Seconds as minutes."""
    return f"{seconds / 60:.1f}"


def table(lines: Sequence[List[str]]) -> None:
    """The rows of docs/MEASURES.md: dearest crates first, and the sum."""
    used: DefaultDict[str, DefaultDict[str, float]] = defaultdict(lambda: defaultdict(float))
    edits: DefaultDict[str, int] = defaultdict(int)
    for crate, kind, _, seconds, _ in lines:
        used[crate][kind] += float(seconds)
        edits[crate] += kind == "edit"
    rows = [(crate, [of[it] for it in KINDS[:2]] + [of["seed"] + of["edit"]], edits[crate]) for crate, of in used.items()]
    rows.sort(key=lambda it: -sum(it[1]))
    print("| Crate | Proof | Tests | Edits | How many | Together |\n|---|---|---|---|---|---|")
    for crate, parts, many in rows:
        print(f"| `{crate}` | {' | '.join(f'{it:.0f} s' for it in parts)} | {many} | {sum(parts):.0f} s |")
    sums = [sum(of[at] for _, of, _ in rows) for at in range(3)]
    print(f"| all | {' | '.join(minutes(it) + ' min' for it in sums)} | {sum(it for *_, it in rows)} | {minutes(sum(sums))} min |")


def dearest(lines: Sequence[List[str]], least: float) -> None:
    """The edits that cost so much and more, the dearest first."""
    for crate, _, edit, seconds, _ in sorted((it for it in lines if it[1] == "edit"), key=lambda it: -float(it[3])):
        if float(seconds) >= least:
            print(f"{float(seconds):6.1f} s  {crate}/{edit}")


def main(words: List[str]) -> None:
    """Does what the words say."""
    if not words or words[0].startswith("-"):
        sys.exit(__doc__)
    path, rest = words[0], words[1:]
    if rest[:1] == ["--of"]:
        top = int(rest[1])
        with open(path, "a", encoding="utf-8") as log:
            watch(top, log, lambda: not os.path.isdir(f"/proc/{top}"))
    elif rest and rest[0] != "--edits":
        with open(path, "w", encoding="utf-8") as log:
            ran = subprocess.Popen(rest)
            watch(ran.pid, log, lambda: ran.poll() is not None)
        sys.exit(ran.returncode)
    else:
        with open(path, encoding="utf-8") as log:
            lines = [it.split() for it in log]
        dearest(lines, float(rest[1]) if rest[1:] else 0) if rest else table(lines)


if __name__ == "__main__":
    main(sys.argv[1:])
