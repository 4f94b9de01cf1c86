#!/usr/bin/env python3
"""Times the flat machine on one trace, beside a reference simulator's flat machine in the same run.

    bench/flat.py SIMULATOR_SOURCE [TURNS]

SIMULATOR_SOURCE is the folder of the simulator's source, whose isa.rs and image.rs have its flat machine. Four cores, in
turn, do a loop of twelve instructions: registers, a store, a load, an atomic exclusive or, a load-reserved and a
store-conditional that is done. The loop's state comes back, so one turn's records, TURNS (500,000) times over, are the trace.
Each machine is a small program of its own, made in a folder of its own; the one here is proved and built there by `rt run`. Each
prints the time of its steps, without the start, and how many were legal: all of them, in both.
"""
import re
import subprocess
import sys
import tempfile
from pathlib import Path
from typing import Dict, List, Tuple

from small_repository import with_program

NODES = 4
# lui x5, 0x80001; slli x6, x10, 6; add x5, x5, x6: each core has a block of its own
SETUP = ["800012b7", "00651313", "006282b3"]
# addi x7, x0, 7; sw x7, 0(x5); lw x8, 0(x5); amoxor.w x9, x7, (x5); lr.w x11, (x5); sc.w x12, x7, (x5); xor x13, x8, x9;
# sub x14, x13, x7; srli x15, x14, 3; slt x16, x15, x14; bne x9, x7, 8; jal x0, -44
LOOP = ["00700393", "0072a023", "0002a403", "2072a4af", "1002a5af", "1872a62f", "009446b3", "40768733", "00375793", "00e7a833", "00749463", "fd5ff06f"]
# what each instruction of the loop sees, and whether it is the store-conditional
SEEN = [0, 0, 7, 7, 0, 0, 0, 0, 0, 0, 0, 0]
DONE = 5

MENTIONED = "rv_decode rv_core sn_flat elf_load sn_base bitflags byteorder thiserror"

HERE = """#![tactic(auto)]

use rv_core::Record;
use sn_base::{Image, NodeId};
use sn_flat::Flat;
use std::alloc::Global;
use std::io;
use std::time::Instant;

fn records(alloc: Global, rows: &[(u32, bool)]) -> Option<Vec<Record>> {
    let mut records = Vec::new(alloc);
    for row in rows {
        for number in 0..NODESu8 {
            records.push(Record { core: NodeId::new(number)?, seen: row.0, sc_done: row.1, read: None }).ok()?;
        }
    }
    Some(records)
}

fn follow(flat: &mut Flat, image: &Image, records: &[Record]) -> usize {
    let mut legal = 0usize;
    for record in records {
        if flat.step(image, record).is_ok() {
            legal = legal.saturating_add(1);
        }
    }
    legal
}

fn main(rt: HostRuntime) -> io::Result<()> {
    let alloc = rt.alloc();
    let (Ok(image), Some(setup), Some(turn)) = (elf_load::load(alloc, b"TEXT"), records(alloc, &[SETUP]), records(alloc, &[TURN])) else {
        return Ok(());
    };
    let Ok(mut flat) = Flat::start(alloc, &image, NODES) else {
        return Ok(());
    };
    let mut legal = follow(&mut flat, &image, setup.as_slice());
    let start = Instant::now(&rt)?;
    for _ in 0..TURNSu32 {
        legal = legal.saturating_add(follow(&mut flat, &image, turn.as_slice()));
    }
    let milliseconds = start.elapsed(&rt)?.as_millis();
    println!(rt; "timed {milliseconds} {legal}")?;
    Ok(())
}
"""

THERE = """#![allow(dead_code)]
#[path = "SOURCE/image.rs"]
mod image;
#[path = "SOURCE/isa.rs"]
mod isa;
use isa::{Flat, Record, Stage};
use std::sync::Arc;

fn records(rows: &[(u32, bool)]) -> Vec<Record> {
    rows.iter().flat_map(|row| (0..NODES).map(|core| Record { core, seen: row.0, sc_done: row.1, read: None })).collect()
}

fn follow(flat: &mut Flat, records: &[Record]) -> usize {
    records.iter().filter(|record| flat.step(record).is_some()).count()
}

fn main() {
    let words: &[u32] = &[WORDS];
    let bytes: Vec<u8> = words.iter().flat_map(|word| word.to_le_bytes()).collect();
    let segment = image::Segment { start: 0x8000_0000, size: bytes.len() as u32, bytes, write: false, exec: true };
    let image = Arc::new(image::Image { segments: vec![segment], entry: 0x8000_0000 });
    let mut flat = Flat::start(&image, NODES, Stage::E);
    let mut legal = follow(&mut flat, &records(&[SETUP]));
    let turn = records(&[TURN]);
    let start = std::time::Instant::now();
    for _ in 0..TURNS {
        legal += follow(&mut flat, &turn);
    }
    println!("timed {} {legal}", start.elapsed().as_millis());
}
"""


def row(seen: int, done: bool) -> str:
    """What an instruction sees, and whether it is done, as both programs' languages write it."""
    return f"({seen}, {'true' if done else 'false'})"


def filled(text: str, turns: int, source: str = "") -> str:
    """A program's text with the loop, its records and the numbers in it."""
    values: Dict[str, str] = {
        "WORDS": ", ".join("0x" + word for word in SETUP + LOOP),
        "SETUP": ", ".join(row(0, False) for _ in SETUP),
        "TURNS": str(turns),
        "TURN": ", ".join(row(seen, place == DONE) for place, seen in enumerate(SEEN)),
        "NODES": str(NODES),
        "TEXT": "".join(word + "\\n" for word in SETUP + LOOP),
        "SOURCE": source,
    }
    return re.sub("WORDS|SETUP|TURNS|TURN|NODES|TEXT|SOURCE", lambda found: values[found[0]], text)


def answer_of(command: List[str], folder: Path) -> Tuple[int, int]:
    """What the program prints: the milliseconds of all turns, and how many steps were legal."""
    done = subprocess.run(command, cwd=folder, capture_output=True, text=True)
    line = re.search(r"^timed (\d+) (\d+)$", done.stdout, re.MULTILINE)
    if line is None:
        sys.exit(f"{command[0]} said nothing: {done.stdout[-500:]}{done.stderr[-2000:]}")
    return int(line[1]), int(line[2])


def time_here(folder: Path, turns: int) -> Tuple[int, int]:
    timed = with_program(folder, "timed", MENTIONED, {"src/main.rt": filled(HERE, turns)})
    return answer_of(["rt", "run"], timed)


def time_there(folder: Path, turns: int, source: str) -> Tuple[int, int]:
    (folder / "timed.rs").write_text(filled(THERE, turns, str(Path(source).resolve())))
    subprocess.run(["rustc", "--edition", "2021", "-C", "opt-level=3", "timed.rs"], cwd=folder, check=True, stderr=subprocess.DEVNULL)
    return answer_of([str(folder / "timed")], folder)


def main() -> None:
    if len(sys.argv) not in (2, 3):
        sys.exit(__doc__)
    turns = int(sys.argv[2]) if len(sys.argv) == 3 else 500_000
    steps = turns * len(LOOP) * NODES
    with tempfile.TemporaryDirectory() as room:
        folder = Path(room)
        there, here = time_there(folder, turns, sys.argv[1]), time_here(folder, turns)
    for name, (milliseconds, legal) in [("simulator", there), ("here", here)]:
        if legal != steps + len(SETUP) * NODES:
            sys.exit(f"{name}: only {legal} steps were legal")
        print(f"{name:10} {steps} steps, {1_000_000 * milliseconds / steps:.1f} ns a step")


if __name__ == "__main__":
    main()
