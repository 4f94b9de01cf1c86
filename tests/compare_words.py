#!/usr/bin/env python3
"""Compares what lines of words come to with a reference simulator: good ones and bad ones, over all commands and options.

    tests/compare_words.py PROGRAM SIMULATOR [COUNT] [SEED]

PROGRAM is the built program, SIMULATOR a reference simulator; it takes the same words, and `--main --probe` before them, to name a status
as the program does and to have its probe. Each of the COUNT (20,000) lines has a command with its files, and some of its options in any order and in either
form; two thirds then have something wrong: a value that is no number or out of its range, a word that is lacking, doubled, changed or
strange, an option of another command, a file that isn't there. Console, report and exit status must be the same; of a run on several
nodes, whose turns come in an order of their own each time, only whether it is done, or with which status it is refused; and of what was seen of a run
only the last line. A call that
isn't done also says why in the line above its last; the simulator has no such line. The commands are those that the program's own page names
and the simulator has too: `judge` and the option `--order` are left out. Lines that it answers itself, as those for help, are left out, and so are those with words
that mean something to the simulator alone.
"""
import random
import sys
import tempfile
from collections import Counter
from pathlib import Path
from typing import Dict, List, Sequence, Tuple

from outcomes import Outcome, called, commands_of, is_explained, seen_last, without_reason

# A command's files, options with a value, and flags.
COMMANDS: Dict[str, Tuple[List[str], List[str], List[str]]] = {
    "replay": (["program", "events.script"], ["nodes", "sets", "ways", "log", "watch"], ["trace"]),
    "roll": (["program", "events.script", "calls.control"], ["nodes", "sets", "ways", "log", "watch"], []),
    "save": (["program", "events.script"], ["nodes", "sets", "ways", "log"], []),
    "resume": (["program", "point.save", "events.script"], ["watch"], []),
    "run": (["program"], ["nodes", "sets", "ways", "log", "watch", "interval", "wait", "lose-every", "kill", "budget", "seed"], ["trace", "journal"]),
    "monitor": (["program"], ["nodes", "sets", "ways", "log", "watch", "interval", "wait", "lose-every", "kill", "budget", "seed"], []),
    "check": (["program", "records.trace"], ["nodes"], []),
    "demo": (["20"], [], []),
    "asm": (["text.s"], [], []),
    "dis": (["program"], [], []),
}

FILES = {
    "program": "800012b7\n00100313\n0062a3af\n05d00893\n00000073\n",
    "events.script": "step 0\nstep 0\nstep 0\ndeliver 1\ndeliver 2\ndeliver 3\nstep 0\nedge 0\nreport 0\nrecover\n",
    "calls.control": "order 0\nrepeat 1\ndeliver 2\nlose 1\ndeliver 3\nfinish\nfinish\n",
    "records.trace": "0 00000000 0\n0 00000000 0\n0 00000000 0\n",
    "point.save": "safetynet-save 1\nconfig 2 16 4 256\nmarks 1 4 9\nowner 64 0\nrec 0 00000000 0\nrec 0 00000000 0\nrec 0 00000000 0\nend\n",
    "text.s": "loop:\naddi t0, t0, 1\njal zero, loop\n",
    "bad": "fly\n",
    "-odd": "80000137\n",
    "": "",
}

# The least and the greatest of a number's values.
RANGES = {"nodes": (1, 16), "sets": (1, 256), "ways": (1, 16), "log": (4, 4096), "size": (1, 1_000_000), "interval": (1, 1_000_000),
          "wait": (1, 1_000_000), "lose-every": (0, 1_000_000), "budget": (1, 1_000_000), "seed": (0, 2**64 - 1)}

# How often an option is given. A run without a budget may take a million events where recoveries come before anything is done.
OFTEN = {"nodes": 0.7, "budget": 0.9, "wait": 0.2}

# How a run that was done ends: done, out of budget, cut off, trapped.
ENDS = [0, 6, 8, 10]

ANSWERED_ITSELF = ["--help", "-h", "help", "--version"]

STRANGE = ["-x", "--", "-", "", "-4", "4", "=", "--=", "--=4", "---nodes", "--nodes", "--nodes==4", "--unknown", "--unknown=1", "-n", "-n4", "-h",
           "--Nodes=4", "--node=4", "--trace", "--trace=", "--trace=x", "--watch", "--sets", "--log=", "--nodes=4", "--ways=2", "\u00e9", "-\u00e9",
           "--\u00e9=1", "--journal", "--journal=", "--kill", "--kill=a0@0", "--lose_every=4", "--loseevery=4", "a b", "program", "bad", "none", "-odd", "*", "--nodes =4", "-V"]


def number(choose: random.Random, name: str) -> str:
    """A number of the range in some spelling, or none."""
    least, greatest = RANGES[name]
    small = min(greatest, 40)
    value = choose.choice([least, small, choose.randrange(least, small + 1)])
    if choose.random() < 0.7:
        return str(value).zfill(choose.choice([1, 1, 1, 2, 5, 20]))
    return choose.choice([str(least - 1), str(greatest + 1), str(value).zfill(21), f"+{value}", f"-{value}", f" {value}", f"{value} ", "", "-", "--",
                          f"0x{value:x}", f"{value}.0", f"{value}a", "a", "\u0663", "18446744073709551615", "18446744073709551616",
                          str(value + 2**64), str(value + 2**32), str(value + 256), "99999999999999999999", "1_0", "--trace"])


def address(choose: random.Random) -> str:
    """A word's address in some spelling, or none."""
    value = choose.choice([0x80000000, 0x80001000, 0x803FFFFC, 0x80000000 + 4 * choose.randrange(2**20)])
    if choose.random() < 0.7:
        return choose.choice([f"{value:08x}", f"{value:08X}"])
    return choose.choice([f"{value + choose.randrange(1, 4):08x}", "7ffffffc", "80400000", "00000000", "ffffffff", f"{value:x}0", f"{value:x}"[:-1],
                          f"0x{value:x}", f"+{value:x}"[:8], f" {value:x}"[:8], "", "8000000g", "8000_000", "\u0668" * 4, "-8000000", "--trace"])


def kill(choose: random.Random) -> str:
    """A switch and a number of events in some spelling, or none."""
    side, node, events = choose.choice("ab"), choose.randrange(4), choose.choice([0, 7, 20, 1_000_000])
    if choose.random() < 0.7:
        return f"{side}{node}@{str(events).zfill(choose.choice([1, 1, 5, 20]))}"
    return choose.choice([f"{side}{choose.choice([4, 15, 16, 2**64])}@{events}", f"{side}0{node}@{events}", f"{side}{node}", f"{side}@{events}", f"c{node}@{events}",
                          f"{side.upper()}{node}@{events}", f"{node}@{events}", f"{side}{node}@", f"{side}{node}@1000001", f"{side}{node}@+{events}",
                          f"{side}{node} @{events}", f"{side}{node}@@{events}", f"{side}{node}@{events}@0", f"{side}{node}@{events:021d}", "@", "", "\u00e9@0"])


def value_of(choose: random.Random, name: str) -> str:
    return address(choose) if name == "watch" else kill(choose) if name == "kill" else number(choose, name)


def option(choose: random.Random, name: str) -> List[str]:
    """An option with its value, in one of its two forms."""
    value = value_of(choose, name)
    return choose.choice([[f"--{name}", value], [f"--{name}={value}"]])


def good(choose: random.Random, command: str) -> List[str]:
    """The words of a command, whose values alone may be wrong."""
    files, options, flags = COMMANDS[command]
    chosen = [name for name in options if choose.random() < (OFTEN.get(name, 0.4) if command in ("run", "monitor") else 0.4)]
    parts = [option(choose, name) for name in chosen] + [[f"--{flag}"] for flag in flags if choose.random() < 0.3]
    choose.shuffle(parts)
    files = [number(choose, "size")] if command == "demo" and choose.random() < 0.5 else files
    for file in files:
        parts.insert(choose.randrange(len(parts) + 1), [file])
    # The files stand in their order.
    places = [place for place, part in enumerate(parts) if len(part) == 1 and not part[0].startswith("--")]
    for place, file in zip(places, files):
        parts[place] = [file]
    words = sum(parts, [command])
    if choose.random() < 0.1:
        words.insert(choose.randrange(1, len(words) + 1), "--")
    return words


def changed(choose: random.Random, words: List[str]) -> List[str]:
    """The words with one thing wrong, in most cases."""
    place = choose.randrange(len(words))
    kind = choose.choice(["strange", "strange", "strange", "lacking", "doubled", "exchanged", "file", "other", "case", "option", "joined"])
    if kind == "strange":
        return words[:place] + [choose.choice(STRANGE)] + words[place:]
    if kind == "lacking":
        return words[:place] + words[place + 1:]
    if kind == "doubled":
        return words[:place] + [words[place]] + words[place:]
    if kind == "exchanged":
        other = choose.randrange(len(words))
        return [words[{place: other, other: place}.get(it, it)] for it in range(len(words))]
    if kind == "file":
        return [choose.choice(["none", "bad", "", "-", "-odd", "."]) if word in FILES and choose.random() < 0.7 else word for word in words]
    if kind == "other":
        return [choose.choice([*COMMANDS, "fly", "", "Replay", "repla", "replays"]), *words[1:]]
    if kind == "case":
        return words[:place] + [choose.choice([words[place].upper(), words[place][:-1], words[place] + "s"])] + words[place + 1:]
    if kind == "option":
        return words[:place + 1] + option(choose, choose.choice([*RANGES, "watch", "kill"])) + words[place + 1:]
    return words[:place] + ["=".join(words[place:place + 2])] + words[place + 2:]


def line(choose: random.Random, commands: Sequence[str]) -> List[str]:
    """A line of words: a third of them good, the others with one thing wrong or a few."""
    words = good(choose, choose.choice(commands))
    for _ in range(choose.choice([0, 0, 1, 1, 2, 3])):
        words = changed(choose, words) if words else words
    return words


def is_left_out(words: Sequence[str], commands: Sequence[str]) -> bool:
    """Whether the program answers these words itself, or the simulator has no such command."""
    is_own = len(words) == 0 or words[0] in ANSWERED_ITSELF or (len(words) == 2 and words[1] in ANSWERED_ITSELF)
    return is_own or (words[0] in COMMANDS and words[0] not in commands)


def is_same(words: Sequence[str], found: Outcome, expected: Outcome) -> bool:
    """Whether both came to the same: where both are done that is enough of a run on several nodes; and of what was seen the last line is."""
    if words[0] == "monitor":
        return seen_last(found) == seen_last(expected)
    has_turns = words[0] == "run" and all(done[0] in ENDS and b"core 1 " in done[2] for done in (found, expected))
    return has_turns or found == expected


def main() -> int:
    if len(sys.argv) < 3:
        print(__doc__)
        return 2
    built, simulator = (str(Path(name).resolve()) for name in sys.argv[1:3])
    count, seed = int(sys.argv[3]) if len(sys.argv) > 3 else 20_000, sys.argv[4] if len(sys.argv) > 4 else "1"
    statuses: Counter[int] = Counter()
    commands, case, done = commands_of(built, COMMANDS), 0, 0
    with tempfile.TemporaryDirectory() as folder:
        for name, text in FILES.items():
            if name:
                Path(folder, name).write_text(text)
        while done < count:
            case += 1
            words = line(random.Random(f"{seed} {case}"), commands)
            if is_left_out(words, commands):
                continue
            done += 1
            found, expected = called([built, *words], folder), called([simulator, "--main", "--probe", *words], folder)
            if not is_same(words, without_reason(found), expected):
                print(f"case {case}, {words}: {found} and not {expected}")
                return 1
            if not is_explained(found):
                print(f"case {case}, {words}: {found} doesn't say why")
                return 1
            statuses[found[0]] += 1
    print(f"{count} lines of words for {', '.join(commands)}, no difference; of each status {dict(sorted(statuses.items()))}")
    return 0


if __name__ == "__main__":
    sys.exit(main())
