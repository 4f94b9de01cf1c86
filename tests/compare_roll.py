#!/usr/bin/env python3
"""Compares `roll` with a reference simulator, on random programs, scripts and controls.

    tests/compare_roll.py PROGRAM SIMULATOR [COUNT] [SEED]

PROGRAM is the built program, SIMULATOR a reference simulator; both take `roll [OPTIONS] FILE SCRIPT CONTROL`, and the simulator
`--main --probe` before it, as in compare_replay.py. Console, report and exit status must be the same.

Programs and scripts are those of compare_replay.py. Half of the controls lead a recovery to its end, in any order of the nodes, with
orders that are lost, repeated and late, and go on after it; the others are controls at random, more messages than may be in flight,
and lines that are no controls. A tenth of the scripts kills both switches of a node at its end.
"""
import random
import sys
import tempfile
from pathlib import Path
from typing import Dict, List, Set, Tuple

import compare_replay

# Options whose values are out of their range.
WRONG: List[Tuple[str, compare_replay.Value]] = [("nodes", 0), ("nodes", 17), ("sets", 257), ("log", 3), ("watch", "80000001"), ("nodes", "4x")]

# The most control messages in flight.
MOST_MESSAGES = 64


def led(choose: random.Random, nodes: int) -> List[str]:
    """Controls that lead a recovery to its end, most of them: a model of what is in flight, by number, and what was noted."""
    lines: List[str] = []
    flights: Dict[int, Tuple[str, int]] = {}
    noted: Set[int] = set()
    next_id, over = 1, 0
    while over < 3 and len(lines) < 400:
        draw = choose.random()
        if flights and draw < 0.55:
            number = choose.choice(list(flights))
            lines.append(f"deliver {number}")
            kind, node = flights.pop(number)
            if kind == "order":
                flights[next_id] = ("done", node)
                next_id += 1
            else:
                noted.add(node)
        elif flights and draw < 0.63:
            number = choose.choice(list(flights))
            lines.append(f"lose {number}")
            del flights[number]
        elif flights and draw < 0.75:
            number = choose.choice(list(flights))
            lines.append(f"repeat {number}")
            if len(flights) < MOST_MESSAGES:
                flights[next_id] = flights[number]
                next_id += 1
        elif draw < 0.95:
            missing = [node for node in range(nodes) if node not in noted] or list(range(nodes))
            node = choose.choice(missing) if choose.random() < 0.8 else choose.randrange(nodes)
            lines.append(f"order {node}")
            if len(flights) < MOST_MESSAGES:
                flights[next_id] = ("order", node)
                next_id += 1
        else:
            lines.append("finish")
        if len(noted) == nodes:
            lines += ["finish"] if over == 0 else []
            over += 1
    return lines


def control(choose: random.Random, nodes: int, sent: int) -> str:
    """A control at random, most of whose numbers are near those that are in flight."""
    kind = choose.choices(["order", "repeat", "lose", "deliver", "finish"], [6, 3, 1, 6, 1])[0]
    if kind == "finish":
        return kind
    if kind == "order":
        return f"order {choose.randrange(nodes)}"
    near = choose.randrange(max(0, sent - 8), sent + 2)
    return f"{kind} {near if choose.random() < 0.95 else choose.choice([0, 10**6, 2**64 - 1])}"


def wrong_line(choose: random.Random, nodes: int) -> str:
    """A line that is no control of so many nodes."""
    return choose.choice([f"order {nodes}", "order", "order 00", "Order 0", " order 0", "order 0 ", "repeat", "repeat 01", "lose -1", "finish 0",
                          "deliver 18446744073709551616", "deliver 1 2", "step 0", "finish ", "\t", "over"])


def controls(choose: random.Random, nodes: int) -> str:
    """The text of a control file at random."""
    kind = choose.choices(["led", "random", "full", "none"], [55, 30, 10, 5])[0]
    if kind == "led":
        lines = led(choose, nodes)
    elif kind == "random":
        lines = [control(choose, nodes, place // 2) for place in range(choose.randrange(0, 150))]
    elif kind == "full":
        lines = ["order 0"] + ["repeat 1"] * (MOST_MESSAGES - choose.randrange(0, 4))
        lines += [control(choose, nodes, MOST_MESSAGES + place // 2) for place in range(60)]
    else:
        lines = []
    if choose.random() < 0.1:
        lines.insert(choose.randrange(len(lines) + 1), wrong_line(choose, nodes))
    if choose.random() < 0.2:
        lines.insert(choose.randrange(len(lines) + 1), choose.choice(["", "# a comment"]))
    end = choose.choice(["\n", "\n", "\n", "\r\n"])
    text = "".join(line + end for line in lines)
    return choose.choice([text, text, text.rstrip()])


def words(choose: random.Random, nodes: int) -> List[str]:
    """The words after `roll`: the three files and the options, each in one of its two forms."""
    values: Dict[str, compare_replay.Value] = {"nodes": nodes}
    if choose.random() < 0.5:
        values |= compare_replay.sizes(choose)
        if choose.random() < 0.05:
            name, value = choose.choice(WRONG)
            values[name] = value
    return compare_replay.with_files(choose, compare_replay.options(choose, values), ["program", "events.script", "calls.control"])


def main() -> int:
    if len(sys.argv) < 3:
        print(__doc__)
        return 2
    built, simulator = (str(Path(name).resolve()) for name in sys.argv[1:3])
    count, seed = int(sys.argv[3]) if len(sys.argv) > 3 else 1000, sys.argv[4] if len(sys.argv) > 4 else "1"
    answers = finished = cut_off = refused = 0
    with tempfile.TemporaryDirectory() as folder:
        for case in range(count):
            choose = random.Random(f"{seed} {case}")
            nodes = choose.choice([1, 2, 2, 3, 4, 4, 6, 8, choose.randrange(1, 17)])
            file = choose.choice([compare_replay.hexadecimal_image, compare_replay.elf_file])(choose, compare_replay.program(choose))
            Path(folder, "program").write_bytes(file)
            script = compare_replay.script(choose, simulator, nodes, folder)
            if choose.random() < 0.1:
                node = choose.randrange(nodes)
                script += f"\nkill a{node}\nkill b{node}\n"
            text = controls(choose, nodes)
            Path(folder, "events.script").write_text(script)
            Path(folder, "calls.control").write_text(text)
            if choose.random() < 0.05:
                Path(folder, "program").write_bytes(compare_replay.spoiled(choose, file))
            given = words(choose, nodes)
            found, expected = (compare_replay.run(it, given, folder, "roll") for it in ([built], [simulator, "--main", "--probe"]))
            if found != expected:
                print(f"case {case}, {' '.join(given)}: {found} and not {expected}")
                print(Path(folder, "program").read_bytes(), script, text)
                return 1
            answers += found[2].count(b": ")
            finished += found[2].count(b": finished")
            cut_off += found[2].count(b": cutoff")
            refused += found[0] != 0
    print(f"{count} controls, no difference; {answers} answers, {finished} recoveries finished, {cut_off} times cut off, {refused} files refused")
    return 0


if __name__ == "__main__":
    sys.exit(main())
