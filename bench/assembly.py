#!/usr/bin/env python3
"""Times the assembler and the disassembler as their texts grow.

    bench/assembly.py

A small program is made in a folder of its own, over copies of the crates that it stands on, and run there by `rt run`, proved as the
repository is. It writes texts of 1,000 to 1,000,000 lines, of which every fifth is a label of its own with a branch to it, makes
words of them and lines of the words. Its lines say the call, how many lines the text has, the nanoseconds, and how many words or
bytes came out. The first size is done twice, since a first run also pays for memory that is new to the program.
"""
import re
import subprocess
import sys
import tempfile
from pathlib import Path

from small_repository import with_program

PROGRAM = """#![tactic(auto)]

use itoa::Buffer;
use rv_asm::{assemble, disassemble};
use std::io;
use std::time::Instant;

fn add(text: &mut Vec<u8>, part: &str) -> Option<()> {
    text.extend_from_slice(part.as_bytes()).ok()
}

// A label, three instructions and a branch back to the label, so many times.
fn text_of(rt: &HostRuntime, parts: u32) -> Option<Vec<u8>> {
    let mut text = Vec::new(rt.alloc());
    let mut buffer = Buffer::new();
    for number in 0..parts {
        add(&mut text, "L")?;
        add(&mut text, buffer.format(number))?;
        add(&mut text, ":\\naddi x5, x5, 1\\nlw a0, -4(sp)\\namoadd.w x1, x2, (x3)\\nbne x5, x6, L")?;
        add(&mut text, buffer.format(number))?;
        add(&mut text, "\\n")?;
    }
    Some(text)
}

fn time_size(rt: &HostRuntime, parts: u32, lines: u32) -> io::Result<()> {
    let Some(text) = text_of(rt, parts) else {
        return Ok(());
    };
    let start = Instant::now(rt)?;
    let Ok(words) = assemble(rt.alloc(), text.as_slice()) else {
        return Ok(());
    };
    println!(rt; "timed assemble {lines} {} {}", start.elapsed(rt)?.as_nanos(), words.len())?;
    let start = Instant::now(rt)?;
    let Ok(back) = disassemble(rt.alloc(), words.as_slice()) else {
        return Ok(());
    };
    println!(rt; "timed disassemble {lines} {} {}", start.elapsed(rt)?.as_nanos(), back.len())
}

fn main(rt: HostRuntime) -> io::Result<()> {
    time_size(&rt, 200, 1_000)?;
    time_size(&rt, 200, 1_000)?;
    time_size(&rt, 2_000, 10_000)?;
    time_size(&rt, 20_000, 100_000)?;
    time_size(&rt, 200_000, 1_000_000)
}
"""

NAMES = "rv_asm rv_statement text_lines rv_decode sn_base itoa byteorder"


def main() -> None:
    with tempfile.TemporaryDirectory() as folder:
        timed = with_program(Path(folder), "timed", NAMES, {"src/main.rt": PROGRAM})
        done = subprocess.run(["rt", "run"], cwd=timed, capture_output=True, text=True)
    rows = re.findall(r"^timed (\w+) (\d+) (\d+) (\d+)$", done.stdout, re.MULTILINE)
    if not rows:
        sys.exit(f"nothing was timed: {done.stdout[-2000:]}{done.stderr[-3000:]}")
    print(f"{'call':12} {'lines':>9} {'ms':>9} {'ns a line':>10} {'gave':>9}")
    for call, lines, nanoseconds, gave in rows[2:]:
        print(f"{call:12} {lines:>9} {int(nanoseconds) / 1e6:9.2f} {int(nanoseconds) / int(lines):10.0f} {gave:>9}")


if __name__ == "__main__":
    main()
