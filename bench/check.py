#!/usr/bin/env python3
"""Times the checker of traces on one trace in memory, beside a reference simulator's flat machine in the same run.

    bench/check.py SIMULATOR_SOURCE [TURNS]

SIMULATOR_SOURCE is the folder of the simulator's source, whose isa.rs and image.rs have its flat machine. Four cores, in
turn, do a loop of twelve instructions, each on a block of its own (bench/flat.py has the program); TURNS (20,833) of these
turns are a million records. Each side judges all of them, from the image on. Here it is done twice, on one processor and on
all of four, by the same proved program; the peak memory of the whole program is given as bytes a record, the records
included.
"""
import os
import subprocess
import sys
import tempfile
from pathlib import Path
from typing import Tuple

sys.path.insert(0, str(Path(__file__).resolve().parent))
import flat  # noqa: E402
from small_repository import with_program  # noqa: E402

MENTIONED = "trace_check sn_base sn_io rv_core rv_decode sn_consistency projection_places byteorder rayon"

HERE = """#![tactic(auto)]

use rv_core::Record;
use sn_base::{Image, NodeId, Segment};
use sn_io::OpenGate;
use std::alloc::Global;
use std::io;
use std::time::Instant;
use trace_check::check;

fn add(records: &mut Vec<Record>, rows: &[(u32, bool)]) -> Option<()> {
    for row in rows {
        for number in 0..NODESu8 {
            records.push(Record { core: NodeId::new(number)?, seen: row.0, sc_done: row.1, read: None }).ok()?;
        }
    }
    Some(())
}

fn trace(alloc: Global) -> Option<Vec<Record>> {
    let mut records = Vec::with_capacity(alloc, TURNS * 48 + 12).ok()?;
    add(&mut records, &[SETUP])?;
    for _ in 0..TURNSu32 {
        add(&mut records, &[TURN])?;
    }
    Some(records)
}

fn program(alloc: Global) -> Option<Image> {
    let words: [u32; 15] = [WORDS];
    let mut bytes = Vec::new(alloc);
    for word in words {
        bytes.extend_from_slice(&word.to_le_bytes()).ok()?;
    }
    bytes.truncate(64);
    let mut segments = Vec::new(alloc);
    segments.push(Segment { start: 0x8000_0000, size: 64, bytes, write: false, exec: true }).ok()?;
    Some(Image::new(segments, 0x8000_0000))
}

fn main(rt: HostRuntime) -> io::Result<()> {
    let alloc = rt.alloc();
    let (Some(image), Some(records)) = (program(alloc), trace(alloc)) else {
        return Ok(());
    };
    let start = Instant::now(&rt)?;
    let legal = check(&rt, alloc, &image, NODES, records.as_slice(), &OpenGate::new()).is_ok();
    let milliseconds = start.elapsed(&rt)?.as_millis();
    let count = if legal { records.len() } else { 0 };
    println!(rt; "timed {milliseconds} {count}")?;
    Ok(())
}
"""

THERE = """#![allow(dead_code)]
#[path = "SOURCE/image.rs"]
mod image;
#[path = "SOURCE/isa.rs"]
mod isa;
use isa::{Flat, Record, Stage};
use std::sync::Arc;

fn add(records: &mut Vec<Record>, rows: &[(u32, bool)]) {
    records.extend(rows.iter().flat_map(|row| (0..NODES).map(|core| Record { core, seen: row.0, sc_done: row.1, read: None })));
}

fn main() {
    let words: &[u32] = &[WORDS];
    let bytes: Vec<u8> = words.iter().flat_map(|word| word.to_le_bytes()).collect();
    let segment = image::Segment { start: 0x8000_0000, size: bytes.len() as u32, bytes, write: false, exec: true };
    let image = Arc::new(image::Image { segments: vec![segment], entry: 0x8000_0000 });
    let mut records = Vec::new();
    add(&mut records, &[SETUP]);
    for _ in 0..TURNS {
        add(&mut records, &[TURN]);
    }
    let start = std::time::Instant::now();
    let mut flat = Flat::start(&image, NODES, Stage::E);
    let legal = records.iter().all(|record| flat.step(record).is_some());
    println!("timed {} {}", start.elapsed().as_millis(), if legal { records.len() } else { 0 });
}
"""


def made_here(folder: Path, turns: int) -> Path:
    timed = with_program(folder, "timed", MENTIONED, {"src/main.rt": flat.filled(HERE, turns)})
    flat.answer_of(["rt", "run"], timed)
    return timed / "out" / "timed"


def made_there(folder: Path, turns: int, source: str) -> Path:
    (folder / "there.rs").write_text(flat.filled(THERE, turns, str(Path(source).resolve())))
    subprocess.run(["rustc", "--edition", "2021", "-C", "opt-level=3", "there.rs"], cwd=folder, check=True, stderr=subprocess.DEVNULL)
    return folder / "there"


def best_of(program: Path, processors: int, folder: Path) -> Tuple[int, int]:
    """The least time of twenty runs on so many processors, and how many records were legal."""
    pin = ["taskset", "-c", "0" if processors == 1 else f"0-{processors - 1}"]
    return min(flat.answer_of([*pin, str(program)], folder) for _ in range(20))


def peak_of(program: Path) -> int:
    """The most memory that a run had, in KiB."""
    with subprocess.Popen([str(program)], stdout=subprocess.DEVNULL) as run:
        return int(os.wait4(run.pid, 0)[2].ru_maxrss)


def main() -> None:
    if len(sys.argv) not in (2, 3):
        sys.exit(__doc__)
    turns = int(sys.argv[2]) if len(sys.argv) == 3 else 20_833
    wanted = (turns * len(flat.LOOP) + len(flat.SETUP)) * flat.NODES
    with tempfile.TemporaryDirectory() as name:
        folder = Path(name)
        there, here = made_there(folder, turns, sys.argv[1]), made_here(folder, turns)
        rows = [("simulator, one processor", there, 1), ("here, one processor", here, 1), ("here, four processors", here, 4)]
        for label, program, processors in rows:
            milliseconds, legal = best_of(program, processors, folder)
            if legal != wanted:
                sys.exit(f"{label}: the trace was refused")
            print(f"{label:26} {wanted} records, {milliseconds} ms")
        print(f"peak memory of a run {peak_of(here) * 1024 / wanted:.0f} bytes a record")


if __name__ == "__main__":
    main()
