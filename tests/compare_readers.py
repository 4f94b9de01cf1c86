#!/usr/bin/env python3
"""Compares the readers and writers of scripts and traces with a reference simulator's.

    tests/compare_readers.py SIMULATOR_SOURCE [COUNT] [SEED]

SIMULATOR_SOURCE is the folder of the simulator's source. COUNT (200,000) random texts, scripts and traces of a few lines, most of them with
a byte or two changed, are read by both as a script and as a trace of four nodes. Each prints the items as it writes them, or the cause and its
line. Each side is a small program, built as in bench/readers.py.
"""
import random
import subprocess
import sys
import tempfile
from collections import Counter
from pathlib import Path

sys.path.insert(0, str(Path(__file__).resolve().parent.parent / "bench"))
import readers  # noqa: E402

HERE = """#![tactic(auto)]

use rv_core::Record;
use sn_base::Event;
use sn_io::{FileStore, Store};
use sn_text::{Line, ScriptCause, ScriptFault, read_script, read_trace};
use std::io;
use std::io::Write;

const LIMIT: usize = 100_000_000;

fn cause<W: Write>(out: &mut W, fault: ScriptFault) -> io::Result<()> {
    match fault {
        ScriptFault::Refused(ScriptCause::BadLine(n)) => writeln!(out, "badline {n}"),
        ScriptFault::Refused(ScriptCause::OutOfRange(n)) => writeln!(out, "outofrange {n}"),
        _ => writeln!(out, "other 0"),
    }
}

fn events<W: Write>(out: &mut W, line: &mut Line, events: &[Event]) -> io::Result<()> {
    for event in events {
        line.clear();
        line.script(event);
        out.write_all(line.bytes())?;
    }
    writeln!(out, "script read")
}

fn records<W: Write>(out: &mut W, line: &mut Line, records: &[Record]) -> io::Result<()> {
    for record in records {
        line.clear();
        line.trace(record);
        out.write_all(line.bytes())?;
    }
    writeln!(out, "trace read")
}

fn main(rt: HostRuntime) -> io::Result<()> {
    let alloc = rt.alloc();
    let mut store = FileStore::new(&rt);
    let mut bytes = Vec::new(alloc);
    let Ok(mut line) = Line::new(alloc) else {
        return Ok(());
    };
    if store.fetch("text", LIMIT, &mut bytes).is_err() {
        return Ok(());
    }
    let mut out = rt.stdout();
    for text in bytes.as_slice().split(|byte| *byte == 0xff) {
        if text.len() > LIMIT {
            return Ok(());
        }
        match read_script(alloc, text, 4) {
            Ok(read) => events(&mut out, &mut line, read.as_slice())?,
            Err(fault) => cause(&mut out, fault)?,
        }
        match read_trace(alloc, text, 4) {
            Ok(read) => records(&mut out, &mut line, read.as_slice())?,
            Err(fault) => cause(&mut out, fault)?,
        }
    }
    Ok(())
}
"""

THERE = """
fn shown(answer: Result<Vec<String>, text::ScriptCause>, kind: &str) {
    match answer {
        Ok(lines) => {
            for line in lines {
                println!("{line}");
            }
            println!("{kind} read")
        }
        Err(text::ScriptCause::BadLine(n)) => println!("badline {n}"),
        Err(text::ScriptCause::OutOfRange(n)) => println!("outofrange {n}"),
        Err(_) => println!("other 0"),
    }
}
fn main() {
    let bytes = std::fs::read("text").unwrap();
    for part in bytes.split(|byte| *byte == 0xff) {
        shown(text::read_script(part, 4, isa::Stage::E).map(|events| events.iter().map(text::event_text).collect()), "script");
        shown(text::read_trace(part, 4, isa::Stage::E).map(|records| records.iter().map(text::trace_text).collect()), "trace");
    }
}
"""

ODD = "0123456789abfAFg x#+-\r\n\t\0"


def record() -> str:
    """A record of a trace, of five nodes where there are four."""
    read = random.choice(["", "", f" {random.randrange(256):02x}"])
    return f"{random.randrange(5)} {random.getrandbits(32):08x} {random.randrange(2)}{read}"


def event() -> str:
    """An event of a script, some of whose numbers are too great."""
    node, message = random.randrange(5), random.choice([0, 5, 2**64 - 1, 2**64])
    return random.choice([
        f"step {node}", f"evict {node} {random.choice([0, 65535, 65536])}", f"edge {node}", f"hop {message}", f"deliver {message}",
        f"lose {message}", f"kill {random.choice('abc')}{node}", f"report {node}", "validate", "recover", f"input {node} {random.randrange(256):02x}"])


def spoiled(text: str) -> str:
    """A text with a byte more, less or changed, or as it was."""
    place, byte = random.randrange(len(text) + 1), random.choice(ODD)
    return random.choice([text[:place] + byte + text[place:], text[:place] + text[place + 1:], text[:place] + byte + text[place + 1:], text])


def text() -> str:
    """A few lines of a script or of a trace, most with something wrong."""
    item = random.choice([record, event])
    lines = [random.choice(["", "# " + item(), item(), item(), item()]) for _ in range(random.randrange(5))]
    whole = "".join(line + random.choice(["\n", "\n", "\n", "\r\n"]) for line in lines)
    if random.randrange(2):
        whole = whole[:-1]
    for _ in range(random.randrange(3)):
        whole = spoiled(whole)
    return whole


def main() -> None:
    if len(sys.argv) not in (2, 3, 4):
        sys.exit(__doc__)
    count = int(sys.argv[2]) if len(sys.argv) > 2 else 200_000
    random.seed(int(sys.argv[3]) if len(sys.argv) > 3 else 1)
    with tempfile.TemporaryDirectory() as room:
        folder = Path(room)
        (folder / "text").write_bytes(b"\xff".join(text().encode() for _ in range(count)))
        programs = [readers.build_there(folder, THERE, sys.argv[1]), readers.build_here(folder, HERE)]
        there, here = [subprocess.run([str(program)], cwd=folder, capture_output=True, text=True).stdout for program in programs]
    if there != here:
        first = next(pair for pair in zip(there.splitlines() + [""], here.splitlines() + [""]) if pair[0] != pair[1])
        sys.exit(f"simulator: {first[0]!r}, here: {first[1]!r}")
    ends = Counter(" ".join(line.split()[:2]) if line.endswith(" read") else line.split()[0] for line in there.splitlines()
                   if line.endswith(" read") or line.startswith(("badline", "outofrange", "other")))
    print(f"{count} texts, {len(there.splitlines())} lines: no difference; {dict(ends)}")


if __name__ == "__main__":
    main()
