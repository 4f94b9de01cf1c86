#!/usr/bin/env python3
"""Times the calls of a node's cache for caches of several sizes, as they were at an old revision and as they are.

    bench/cache_body.py OLD_REVISION [CALLS]

Each state of the crates stands under one and the same small program, in a folder of its own, where it is proved and built by
`rt run`. The program fills a cache with Shared lines, so that every set is full, and then makes CALLS (100,000) calls of each kind
on blocks in no order: a probe of a block that has a line, a probe of one whose set is full, a search for the least line of a set
that may go, and a replacement (a line is dropped, a miss begins, and its answer comes). The table has the processor time of a
call, before and after; there is none where a call came to something else than it should.
"""
import re
import subprocess
import sys
import tempfile
from pathlib import Path
from typing import Dict, List, Optional, Tuple

from small_repository import listed, needs_of, with_program

Size = Tuple[int, int]

# The sets and ways of the caches.
SIZES: List[Size] = [(1, 1), (4, 2), (64, 4), (256, 4), (256, 16)]
KINDS = ["hit", "full", "least", "replace"]

PROGRAM = """#![tactic(auto)]

ghost use Rattle.std.specs.Prelude.{◌≡◌};

use log_buffer::LogBuffer;
use mosi_cache::{Cache, CacheStep, Need, AccessProbe};
use sn_base::{Answer, Block, BlockNo, Config, NodeId};
use sn_msg::{Body, Message};
use std::alloc::Global;
use std::io;
use std::time::CpuClock;

#[derive(Drop)]
struct Timed {
    cache: Cache,
    log: LogBuffer,
    here: NodeId,
    ghost own: { cache.node ≡ here },
}

impl Timed {
    fn new(alloc: Global, sets: u16, ways: u8) -> Option<Timed> {
        let config = Config { nodes: 1, sets, ways, log: 4 };
        if !config.fits() {
            return None;
        }
        let here = NodeId::new(0)?;
        let (Ok(cache), Ok(log)) = (Cache::new(alloc, here, &config), LogBuffer::new(alloc, 4)) else {
            return None;
        };
        Some(Timed { cache, log, here })
    }

    fn fill(&mut self, number: u16) -> bool {
        let block = BlockNo::new(number);
        if self.cache.open_block().is_some() || self.cache.probe(block, Need::Read, 1, &self.log) != AccessProbe::Miss {
            return false;
        }
        let _ = self.cache.begin_miss(block, Need::Read, 1);
        let message = Message { id: 1, from: self.here, to: self.here, tag: 1, block, body: Body::DataS(Block::zero()) };
        self.cache.receive(&message, 1, &mut self.log) != CacheStep::LogFull
    }

    fn replace(&mut self, old: u16, new: u16) -> bool {
        let block = BlockNo::new(old);
        if self.cache.evict_answer(block) != Answer::Evicted {
            return false;
        }
        self.cache.drop_shared(block);
        self.fill(new)
    }

    fn probed(&self, number: u16, wanted: AccessProbe) -> bool {
        self.cache.open_block().is_none() && self.cache.probe(BlockNo::new(number), Need::Read, 1, &self.log) == wanted
    }
}

fn filled(timed: &mut Timed, lines: u16) -> u32 {
    let mut done = 0u32;
    for number in 0..lines {
        if timed.fill(number) {
            done = done.saturating_add(1);
        }
    }
    done
}

fn number_of(call: u32) -> u16 {
    (call.wrapping_mul(2_654_435_761) >> 16) as u16
}

fn hits(timed: &Timed, lines: u16) -> u32 {
    let mut done = 0u32;
    for call in 0..CALLSu32 {
        if lines != 0 && timed.probed(number_of(call) % lines, AccessProbe::Ready) {
            done = done.saturating_add(1);
        }
    }
    done
}

fn full(timed: &Timed, lines: u16) -> u32 {
    let mut done = 0u32;
    for call in 0..CALLSu32 {
        if timed.probed(number_of(call) | lines, AccessProbe::NeedsEvict) {
            done = done.saturating_add(1);
        }
    }
    done
}

fn least(timed: &Timed) -> u32 {
    let mut done = 0u32;
    for call in 0..CALLSu32 {
        if timed.cache.least_line(BlockNo::new(number_of(call)), false).is_some() {
            done = done.saturating_add(1);
        }
    }
    done
}

fn replaced(timed: &mut Timed, lines: u16) -> u32 {
    let mut done = 0u32;
    for call in 0..CALLSu32 {
        let number = (call & 0xffff) as u16;
        if timed.replace(number, number.wrapping_add(lines)) {
            done = done.saturating_add(1);
        }
    }
    done
}

fn time<R: Print + CpuClock + AllocGlobal>(rt: &R, sets: u16, ways: u8, lines: u16) -> io::Result<()> {
    let Some(mut timed) = Timed::new(rt.alloc(), sets, ways) else {
        return Ok(());
    };
    let count = filled(&mut timed, lines);
    let start = rt.thread_cpu_time()?.as_nanos();
    let hit = hits(&timed, lines);
    let after_hits = rt.thread_cpu_time()?.as_nanos();
    let full = full(&timed, lines);
    let after_full = rt.thread_cpu_time()?.as_nanos();
    let least = least(&timed);
    let after_least = rt.thread_cpu_time()?.as_nanos();
    let replaced = replaced(&mut timed, lines);
    let end = rt.thread_cpu_time()?.as_nanos();
    println!(rt; "timed {sets} {ways} {count} {hit} {full} {least} {replaced}")?;
    println!(rt; "stamps {start} {after_hits} {after_full} {after_least} {end}")?;
    Ok(())
}

fn main(rt: HostRuntime) -> io::Result<()> {
TIMES
    Ok(())
}
"""


def program_text(calls: int) -> str:
    times = [f"    time(&rt, {sets}, {ways}, {sets * ways})?;" for sets, ways in SIZES]
    return re.sub("CALLS|TIMES", lambda found: {"CALLS": str(calls), "TIMES": "\n".join(times)}[found[0]], PROGRAM)


def times_of(folder: Path, revision: Optional[str], calls: int) -> Dict[Size, List[float]]:
    """The time of a call of each kind, for each size, over the crates as they stand in the revision or, with none, here."""
    mentioned = ["mosi_cache", *needs_of(listed(revision))["mosi_cache"]]
    timed = with_program(folder, "timed", " ".join(mentioned), {"src/main.rt": program_text(calls)}, revision)
    done = subprocess.run(["rt", "run"], cwd=timed, capture_output=True, text=True)
    found = re.findall(r"^timed (.*)\nstamps (.*)$", done.stdout, re.MULTILINE)
    if len(found) != len(SIZES):
        sys.exit(f"rt run said too little: {done.stdout[-500:]}{done.stderr[-2000:]}")
    return {size: times_in(counts, stamps, calls) for size, (counts, stamps) in zip(SIZES, found)}


def times_in(counts: str, stamps: str, calls: int) -> List[float]:
    """The nanoseconds of a call of each kind, of the two lines that the program prints of a cache."""
    sets, ways, lines, *done = (int(word) for word in counts.split())
    if lines != sets * ways or done != [calls] * len(KINDS):
        sys.exit(f"not every call came to what it should: {counts}")
    at = [int(word) for word in stamps.split()]
    return [(end - start) / calls for start, end in zip(at, at[1:])]


def main() -> None:
    if len(sys.argv) not in (2, 3):
        sys.exit(__doc__)
    calls = int(sys.argv[2]) if len(sys.argv) == 3 else 100_000
    with tempfile.TemporaryDirectory() as before, tempfile.TemporaryDirectory() as after:
        was, now = times_of(Path(before), sys.argv[1], calls), times_of(Path(after), None, calls)
    print(f"{'sets x ways':12}" + "".join(f"{kind:>22}" for kind in KINDS))
    for sets, ways in SIZES:
        pairs = [f"{a:.0f} -> {b:.0f} ns" for a, b in zip(was[(sets, ways)], now[(sets, ways)])]
        print(f"{f'{sets} x {ways}':12}" + "".join(f"{pair:>22}" for pair in pairs))


if __name__ == "__main__":
    main()
