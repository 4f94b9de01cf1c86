#!/usr/bin/env python3
"""Times the readers of scripts and traces on 1,000,000 lines, beside a reference simulator's readers in the same run.

    bench/readers.py SIMULATOR_SOURCE

SIMULATOR_SOURCE is the folder of the simulator's source. A trace and a script are made, of 1,000,000 items each, with every kind of line.
Each side is a small program of its own, made in a folder of its own; the one here is proved and built there by `rt run`. Each reads the
file, and then its items from the bytes, and prints the time of the second and how many items there were. The programs take turns, three
times each; the most memory of a process is what the system says of it.
"""
import os
import random
import re
import subprocess
import sys
import tempfile
from pathlib import Path
from typing import Iterator, Tuple

from small_repository import below, listed, needs_of, with_program

ITEMS = 1_000_000
TURNS = 3

HERE = """#![tactic(auto)]

use sn_io::{FileStore, Store};
use sn_text::{read_script, read_trace};
use std::alloc::Global;
use std::io;
use std::time::Instant;

const LIMIT: usize = 33_554_432;

// How many items a text has, 0 where it is refused. A trace begins with a digit.
fn count(alloc: Global, bytes: &[u8]) -> usize {
    if bytes.is_empty() || bytes.len() > LIMIT {
        return 0;
    }
    if bytes[0] < b'a' {
        read_trace(alloc, bytes, 16).map_or(0, |records| records.len())
    } else {
        read_script(alloc, bytes, 16).map_or(0, |events| events.len())
    }
}

fn main(rt: HostRuntime) -> io::Result<()> {
    let mut store = FileStore::new(&rt);
    let mut bytes = Vec::new(rt.alloc());
    if store.fetch("text", LIMIT, &mut bytes).is_err() {
        return Ok(());
    }
    let start = Instant::now(&rt)?;
    let items = count(rt.alloc(), bytes.as_slice());
    println!(rt; "timed {} {items}", start.elapsed(&rt)?.as_nanos())
}
"""

MODULES = "asm driver explore facts fuzz ghost image isa rng roll routes rows save state step text top".split()

MODS = "#![allow(dead_code, unused)]\n" + "".join(f'#[path = "SOURCE/{name}.rs"]\nmod {name};\n' for name in MODULES)

THERE = """
fn main() {
    let bytes = std::fs::read("text").unwrap();
    let start = std::time::Instant::now();
    let items = if bytes[0] < b'a' {
        text::read_trace(&bytes, 16, isa::Stage::E).map_or(0, |records| records.len())
    } else {
        text::read_script(&bytes, 16, isa::Stage::E).map_or(0, |events| events.len())
    };
    println!("timed {} {items}", start.elapsed().as_nanos());
}
"""

NAMES = "sn_text sn_io rv_core sn_base byteorder itoa"


def trace() -> Iterator[str]:
    """The lines of random records."""
    for _ in range(ITEMS):
        core, seen, done = random.randrange(16), random.choice([0, random.getrandbits(32)]), random.randrange(2)
        read = random.choice(["", "", "", f" {random.randrange(256):02x}"])
        yield f"{core} {seen:08x} {done}{read}\n"


def script() -> Iterator[str]:
    """The lines of random events."""
    for _ in range(ITEMS):
        node, number = random.randrange(16), random.randrange(10_000_000)
        yield random.choice([
            f"step {node}", f"evict {node} {random.randrange(65536)}", f"edge {node}", f"hop {number}", f"deliver {number}", f"lose {number}",
            f"kill {random.choice('ab')}{node}", f"report {node}", "validate", "recover", f"input {node} {random.randrange(256):02x}"]) + "\n"


def measured(program: Path, folder: Path) -> Tuple[float, float]:
    """The milliseconds that the program prints, how many items it read, and the most memory that it took, in MiB."""
    process = subprocess.Popen([str(program)], cwd=folder, stdout=subprocess.PIPE, text=True)
    assert process.stdout
    line = re.match(r"timed (\d+) (\d+)$", process.stdout.read().strip())
    _, _, usage = os.wait4(process.pid, 0)
    if line is None or int(line[2]) != ITEMS:
        sys.exit(f"{program} didn't read all of the text")
    return int(line[1]) / 1e6, usage.ru_maxrss / 1024


def build_here(folder: Path, program: str) -> Path:
    """The program, over copies of the crates of this repository that it stands on."""
    needs = needs_of(listed())
    lower = below(NAMES.split(), needs)
    every = sorted({name for crate in lower for name in needs[crate]} | set(NAMES.split()))
    timed = with_program(folder, "timed", " ".join(every), {"src/main.rt": program})
    done = subprocess.run(["rt", "run"], cwd=timed, capture_output=True, text=True)
    if not (timed / "out" / "timed").exists():
        sys.exit(f"nothing was built: {done.stdout[-2000:]}{done.stderr[-3000:]}")
    return timed / "out" / "timed"


def build_there(folder: Path, program: str, source: str) -> Path:
    """The program, over the simulator's source."""
    (folder / "timed.rs").write_text((MODS + program).replace("SOURCE", str(Path(source).resolve())))
    subprocess.run(["rustc", "--edition", "2021", "-C", "opt-level=3", "timed.rs"], cwd=folder, check=True, stderr=subprocess.DEVNULL)
    return folder / "timed"


def main() -> None:
    if len(sys.argv) != 2:
        sys.exit(__doc__)
    random.seed(1)
    with tempfile.TemporaryDirectory() as room:
        folder = Path(room)
        programs = {"simulator": build_there(folder, THERE, sys.argv[1]), "here": build_here(folder, HERE)}
        for kind, lines in [("trace", trace()), ("script", script())]:
            with open(folder / "text", "w") as text:
                text.writelines(lines)
            size = (folder / "text").stat().st_size / 2**20
            for _ in range(TURNS):
                for name, program in programs.items():
                    milliseconds, memory = measured(program, folder)
                    print(f"{kind:7} {size:.1f} MiB {name:10} {milliseconds:6.0f} ms, at most {memory:.1f} MiB")


if __name__ == "__main__":
    main()
