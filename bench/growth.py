#!/usr/bin/env python3
"""How the time of an event grows: with the entries of a log, the messages in flight and the nodes.

    bench/growth.py PROGRAM SIMULATOR [EVENTS]

Each row is a replay of about EVENTS events (200,000 without that word) by the program and by a reference simulator in the same
run, the least of three times, in nanoseconds an event. Both write their whole report to a file.
"""
import subprocess
import sys
import tempfile
import time
from typing import List

COUNTER = "800012b7\n00100313\n0062a3af\n03f3f513\n03050513\n00100893\n00000073\nfedff06f\n"


def least_time(command: List[str], folder: str) -> float:
    """The least of three times of a command, in seconds."""
    times = []
    for _ in range(3):
        with open(f"{folder}/report", "w") as report:
            begun = time.monotonic()
            subprocess.run(command, cwd=folder, stdout=subprocess.DEVNULL, stderr=report, check=True)
            times.append(time.monotonic() - begun)
    return min(times)


def generated(simulator: str, folder: str, events: int) -> None:
    """Writes a program that counts for ever, and events for it on four nodes that the simulator generates."""
    command = [simulator, "gen", str(events), "four.hex", "four.script"]
    subprocess.run(command, cwd=folder, capture_output=True, check=True)


def run_on(simulator: str, folder: str, nodes: int, events: int) -> int:
    """Writes the journal of the simulator's own run on so many nodes as a script; how many events it has."""
    words = ["--interval", "20", "--wait", "2000", "--budget", str(events), "--journal"]
    made = subprocess.run(
        [simulator, "run", "program.hex", "--nodes", str(nodes), *words], cwd=folder, capture_output=True, text=True
    )
    lines = [line for line in made.stderr.splitlines() if line and not line.startswith("#")]
    with open(f"{folder}/run.script", "w") as script:
        script.write("\n".join(lines) + "\n")
    return len(lines)


def in_flight(folder: str, messages: int, events: int, oldest: bool) -> int:
    """Writes a script: reports up to so many messages in flight, and then one goes, the oldest or the newest, whenever one comes; how many events."""
    lines = ["report 0"] * messages
    last = messages
    gone = 0
    while len(lines) + 2 <= events:
        gone += 1
        lines += [f"lose {gone if oldest else last}", "report 0"]
        last += 1
    with open(f"{folder}/flight.script", "w") as script:
        script.write("\n".join(lines) + "\n")
    return len(lines)


def row(label: str, programs: List[str], folder: str, words: List[str], events: int) -> None:
    """Measures one command by each program, and prints a row."""
    times = [least_time([program, "replay", *words], folder) / events * 1e9 for program in programs]
    print(f"| {label} | {events:,} | " + " | ".join(f"{one:,.0f}" for one in times) + " |", flush=True)


def main() -> int:
    if len(sys.argv) < 3:
        print(__doc__)
        return 2
    programs = [sys.argv[1], sys.argv[2]]
    simulator = sys.argv[2]
    events = int(sys.argv[3]) if len(sys.argv) > 3 else 200_000
    with tempfile.TemporaryDirectory() as folder:
        with open(f"{folder}/program.hex", "w") as program:
            program.write(COUNTER)
        print("| What grows | Events | Program, ns an event | Simulator, ns an event |\n|---|---|---|---|")
        generated(simulator, folder, events)
        for log in [4, 16, 64, 256, 1024, 4096]:
            row(f"log of {log:,} entries", programs, folder, ["--log", str(log), "four.hex", "four.script"], events)
        for oldest in [True, False]:
            for messages in [1, 16, 128, 1023]:
                count = in_flight(folder, messages, events, oldest)
                label = f"{messages:,} messages in flight, the {'oldest' if oldest else 'newest'} goes"
                row(label, programs, folder, ["--nodes", "1", "program.hex", "flight.script"], count)
        for nodes in [1, 2, 4, 8, 16]:
            count = run_on(simulator, folder, nodes, events)
            row(f"{nodes} nodes", programs, folder, ["--nodes", str(nodes), "program.hex", "run.script"], count)
    return 0


if __name__ == "__main__":
    sys.exit(main())
