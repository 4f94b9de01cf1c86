#!/usr/bin/env python3
"""Times calls of the structures inside a node and a network as they fill, by an older revision's bodies and by the present ones.

    bench/bodies.py REVISION [STRUCTURE ..]

REVISION is a revision of this repository, as git names it. STRUCTURE is one of the sections below; all, if none is named. For
each revision a small program per structure is made in a folder of its own, over copies of the crates that it stands on, and run
there by `rt run`, proved as the repository is. Each program makes its structure at each size and repeats each call; its lines say
the call, the size, the nanoseconds of all calls, how many there were, and something that the calls saw, which has to be the same by
both bodies. Both run one after the other, so that a busy machine shows in both. The first size is done twice, since a first run
also pays for memory that is new to the program.
"""
import re
import subprocess
import sys
import tempfile
from pathlib import Path
from typing import Dict, Optional, Tuple

from small_repository import with_program

ROOT = Path(__file__).resolve().parent.parent

HEAD = """#![tactic(auto)]

GHOST
use std::alloc::Global;
use std::io;
use std::time::Instant;
"""

LOG = {
    "src/main.rt": HEAD.replace("GHOST", """ghost use Rattle.std.specs.Prelude.{◌≡◌, ℕ, ◌+◌, ◌≤◌, ◌<◌, [], false, length};
ghost use Rattle.log_buffer.specs.Log.{logged_to};
""") + """use log_buffer::LogBuffer;
use sn_base::{BlockNo, Entries, Old};

const CALLS: u32 = 20_000;

// Notes the first blocks in an interval.
fn fill(log: &mut LogBuffer, interval: u32, blocks: u16)
    requires { (b : ℕ) → logged_to log.old.entries false b ≤ interval + 1 }
    ensures { (b : ℕ) → logged_to log.new.entries false b ≤ interval + 1 }
{
    'each: for number in 0..blocks {
        if log.room() == 0 {
            return;
        }
        log.note(interval, BlockNo::new(number), Old::NotOwned);
    }
}

// The blocks that are asked for, one after another.
fn block_of(turn: u32, mask: u16) -> BlockNo {
    BlockNo::new(((turn & 0xffff) as u16) & mask)
}

// Notes them again.
fn repeat(log: &mut LogBuffer, interval: u32, mask: u16)
    requires { (b : ℕ) → logged_to log.old.entries false b ≤ interval + 1 }
    ensures { (b : ℕ) → logged_to log.new.entries false b ≤ interval + 1 }
{
    'each: for turn in 0..CALLS {
        if log.room() == 0 {
            return;
        }
        log.note(interval, block_of(turn, mask), Old::NotOwned);
    }
}

fn count_has(log: &LogBuffer, home_side: bool, mask: u16) -> usize {
    let mut found = 0usize;
    for turn in 0..CALLS {
        if log.has(0, home_side, block_of(turn, mask)) {
            found = found.wrapping_add(1);
        }
    }
    found
}

fn count_old(log: &LogBuffer, mask: u16) -> usize {
    let mut found = 0usize;
    for turn in 0..CALLS {
        if log.old_at(false, block_of(turn, mask), 1).is_some() {
            found = found.wrapping_add(1);
        }
    }
    found
}

fn time_asking(rt: &HostRuntime, log: &LogBuffer, size: u16, mask: u16) -> io::Result<()> {
    let start = Instant::now(rt)?;
    let found = count_has(log, false, mask);
    println!(rt; "timed has {size} {} {CALLS} {found}", start.elapsed(rt)?.as_nanos())?;
    let start = Instant::now(rt)?;
    let found = count_has(log, true, mask);
    println!(rt; "timed has-not {size} {} {CALLS} {found}", start.elapsed(rt)?.as_nanos())?;
    let start = Instant::now(rt)?;
    let found = count_old(log, mask);
    println!(rt; "timed old_at {size} {} {CALLS} {found}", start.elapsed(rt)?.as_nanos())
}

fn time_freeing(rt: &HostRuntime, log: &mut LogBuffer, size: u16) -> io::Result<()> {
    let start = Instant::now(rt)?;
    log.free_below(1);
    println!(rt; "timed free_below-half {size} {} 1 {}", start.elapsed(rt)?.as_nanos(), log.count())?;
    let start = Instant::now(rt)?;
    log.clear();
    println!(rt; "timed clear-half {size} {} 1 {}", start.elapsed(rt)?.as_nanos(), log.count())
}

// The first half of the entries is of interval 0 and the second, of the same blocks, of interval 1. One place is left, so that
// a note is looked up, and could add an entry if it were new. The size is a power of two.
fn time_size(rt: &HostRuntime, size: u16) -> io::Result<()> {
    let start = Instant::now(rt)?;
    let Ok(mut log) = LogBuffer::new(rt.alloc(), size.saturating_add(1)) else {
        return Ok(());
    };
    println!(rt; "timed new {size} {} 1 0", start.elapsed(rt)?.as_nanos())?;
    let half = size / 2;
    let mask = half.wrapping_sub(1);
    let start = Instant::now(rt)?;
    fill(&mut log, 0, half);
    fill(&mut log, 1, half);
    println!(rt; "timed note-new {size} {} {size} {}", start.elapsed(rt)?.as_nanos(), log.count())?;
    let start = Instant::now(rt)?;
    repeat(&mut log, 1, mask);
    println!(rt; "timed note-again {size} {} {CALLS} {}", start.elapsed(rt)?.as_nanos(), log.count())?;
    time_asking(rt, &log, size, mask)?;
    time_freeing(rt, &mut log, size)
}

fn main(rt: HostRuntime) -> io::Result<()> {
    time_size(&rt, 4)?;
    time_size(&rt, 4)?;
    time_size(&rt, 16)?;
    time_size(&rt, 64)?;
    time_size(&rt, 256)?;
    time_size(&rt, 1024)?;
    time_size(&rt, 4096)
}
""",
    "proofs/Lib.antt": "pub mod Notes\n",
    "proofs/Notes.antt": """use Rattle.std.proofs.Common.{◌≡◌, ℕ, ◌+◌, ◌≤◌, Bool, true, false, List, refl, arith}
use Rattle.std.specs.Prelude.{nat_eq}
use Rattle.std.proofs.lemmas.Bool.Decides.{nat_tests}
use Rattle.sn_base.specs.declared.log.Old.TheVariants.{NotOwned}
use Rattle.log_buffer.specs.Log.{LogEntry, noted, logged_to}
use Rattle.log_buffer.proofs.Laws.{logged_to-noted, logged_to-noted_other}

by_block : (t : Bool) (es : List LogEntry) (i b c : ℕ) → nat_eq b c ≡ t → logged_to es false b ≤ i + 1 → logged_to es false c ≤ i + 1 → logged_to (noted es i b NotOwned) false c ≤ i + 1
by_block true es i b c h k l = let e : b ≡ c = grind (arith, nat_tests) in rw (← e, logged_to-noted es i b NotOwned k) (omega arith)
by_block false es i b c h k l = rw (logged_to-noted_other es i b NotOwned false c h) l

pub noted-le : (es : List LogEntry) (i b : ℕ) → ((c : ℕ) → logged_to es false c ≤ i + 1) → (c : ℕ) → logged_to (noted es i b NotOwned) false c ≤ i + 1
noted-le es i b h c = by_block (nat_eq b c) es i b c refl (h b) (h c)
""",
    "proofs/fill/Invariants.antt": """use Rattle.std.proofs.Common.{ℕ, ◌+◌, ◌≤◌, false}
use Rattle.log_buffer.specs.Log.{logged_to}
use Rattle.timed.proofs.fill.Given as goal

abbrev pub invariant-each : goal.invariant-each
invariant-each l = (b : ℕ) → logged_to l.log.entries false b ≤ l.interval + 1
""",
    "proofs/fill/Answers.antt": """use Rattle.timed.proofs.Notes.{noted-le}
use Rattle.timed.proofs.fill.Goals as goal

pub each-preserved : goal.each-preserved
each-preserved c = rw c.note.ensures (noted-le c.each.log.entries c.args.interval _ c.each.invariant)
""",
    "proofs/repeat/Invariants.antt": """use Rattle.std.proofs.Common.{ℕ, ◌+◌, ◌≤◌, false}
use Rattle.log_buffer.specs.Log.{logged_to}
use Rattle.timed.proofs.repeat.Given as goal

abbrev pub invariant-each : goal.invariant-each
invariant-each l = (b : ℕ) → logged_to l.log.entries false b ≤ l.interval + 1
""",
    "proofs/repeat/Answers.antt": """use Rattle.timed.proofs.Notes.{noted-le}
use Rattle.timed.proofs.repeat.Goals as goal

pub each-preserved : goal.each-preserved
each-preserved c = rw c.note.ensures (noted-le c.each.log.entries c.args.interval _ c.each.invariant)
""",
}

NET = {
    "src/main.rt": HEAD.replace("GHOST", """ghost use Rattle.std.specs.Prelude.{◌≡◌, ◌<◌};
""") + """use sn_base::{BlockNo, NodeId};
use sn_msg::Body;
use switch_net::{HopAnswer, Net};

const CALLS: u32 = 5_000;

// Sends a message, and says its number.
fn send(net: &mut Net, from: NodeId, to: NodeId) -> u64
    requires { net.old.routes.nodes ≡ 16 }
    ensures { net.new.routes ≡ net.old.routes }
{
    let id = net.next_id();
    if net.spare() > 0 && id < u64::MAX {
        net.send(from, to, 0, BlockNo::new(0), Body::Ready(0));
    }
    id
}

fn take(net: &mut Net, id: u64) -> bool
    ensures { net.new.routes ≡ net.old.routes }
{
    match net.take(id) {
        Ok(_) => true,
        Err(_) => false,
    }
}

fn hop(net: &mut Net, id: u64) -> HopAnswer
    ensures { net.new.routes ≡ net.old.routes }
{
    net.hop(id)
}

fn fill(net: &mut Net, node: NodeId, messages: u32)
    requires { net.old.routes.nodes ≡ 16 }
    ensures { net.new.routes ≡ net.old.routes }
{
    'each: for _ in 0..messages {
        send(net, node, node);
    }
}

fn count_looks(net: &Net, oldest: u64, mask: u64) -> usize {
    let mut found = 0usize;
    for turn in 0..CALLS {
        if net.look(oldest.wrapping_add(u64::from(turn) & mask)).is_ok() {
            found = found.wrapping_add(1);
        }
    }
    found
}

// The newest message arrives.
fn deliver_newest(net: &mut Net, node: NodeId) -> usize
    requires { net.old.routes.nodes ≡ 16 }
    ensures { net.new.routes ≡ net.old.routes }
{
    let mut taken = 0usize;
    'each: for _ in 0..CALLS {
        let id = send(net, node, node);
        if take(net, id) {
            taken = taken.wrapping_add(1);
        }
    }
    taken
}

// The oldest message arrives.
fn deliver_oldest(net: &mut Net, node: NodeId, oldest: u64) -> usize
    requires { net.old.routes.nodes ≡ 16 }
    ensures { net.new.routes ≡ net.old.routes }
{
    let mut taken = 0usize;
    'each: for number in 0..CALLS {
        send(net, node, node);
        if take(net, oldest.wrapping_add(u64::from(number))) {
            taken = taken.wrapping_add(1);
        }
    }
    taken
}

// Messages go their way of hops, the newest each time; how many hops they made.
fn hop_newest(net: &mut Net, from: NodeId, to: NodeId) -> u32
    requires { net.old.routes.nodes ≡ 16 }
    ensures { net.new.routes ≡ net.old.routes }
{
    let id = send(net, from, to);
    let mut hops = 0u32;
    'each: for _ in 0..16 {
        if hop(net, id) == HopAnswer::Hopped {
            hops = hops.wrapping_add(1);
        }
    }
    hops
}

fn time_looks(rt: &HostRuntime, net: &Net, size: u32) -> io::Result<()> {
    let start = Instant::now(rt)?;
    let found = count_looks(net, 1, u64::from(size.wrapping_sub(1)));
    println!(rt; "timed look {size} {} {CALLS} {found}", start.elapsed(rt)?.as_nanos())
}

fn time_newest(rt: &HostRuntime, net: &mut Net, node: NodeId, size: u32) -> io::Result<()>
    requires { net.old.routes.nodes ≡ 16 }
    ensures { net.new.routes ≡ net.old.routes }
{
    let start = Instant::now(rt)?;
    let taken = deliver_newest(net, node);
    println!(rt; "timed deliver-newest {size} {} {CALLS} {taken}", start.elapsed(rt)?.as_nanos())
}

fn time_oldest(rt: &HostRuntime, net: &mut Net, node: NodeId, size: u32) -> io::Result<()>
    requires { net.old.routes.nodes ≡ 16 }
    ensures { net.new.routes ≡ net.old.routes }
{
    let start = Instant::now(rt)?;
    let taken = deliver_oldest(net, node, 1);
    println!(rt; "timed deliver-oldest {size} {} {CALLS} {taken}", start.elapsed(rt)?.as_nanos())
}

fn time_hops(rt: &HostRuntime, net: &mut Net, from: NodeId, to: NodeId, size: u32) -> io::Result<()>
    requires { net.old.routes.nodes ≡ 16 }
    ensures { net.new.routes ≡ net.old.routes }
{
    let start = Instant::now(rt)?;
    let hops = hop_newest(net, from, to);
    println!(rt; "timed hop-newest {size} {} 16 {hops}", start.elapsed(rt)?.as_nanos())
}

fn node(number: u8) -> NodeId
    requires { number < 16 }
    ensures { result ≡ number }
{
    NodeId::new(number).unwrap()
}

fn time_size(rt: &HostRuntime, net: &mut Net, size: u32) -> io::Result<()>
    requires { net.old.routes.nodes ≡ 16 }
{
    let one = node(1);
    fill(net, one, size);
    time_looks(rt, net, size)?;
    time_oldest(rt, net, one, size)?;
    time_newest(rt, net, one, size)?;
    time_hops(rt, net, one, node(14), size)
}

fn time_new(rt: &HostRuntime, size: u32) -> io::Result<()> {
    match Net::new(rt.alloc(), 16) {
        Ok(mut net) => time_size(rt, &mut net, size),
        Err(_) => Ok(()),
    }
}

fn main(rt: HostRuntime) -> io::Result<()> {
    time_new(&rt, 1)?;
    time_new(&rt, 1)?;
    time_new(&rt, 4)?;
    time_new(&rt, 16)?;
    time_new(&rt, 64)?;
    time_new(&rt, 256)?;
    time_new(&rt, 1023)
}
""",
    "proofs/hop/Answers.antt": """use Rattle.std.proofs.Common.{◌≡◌, ℕ, Bool, true, false, Option, Some, None, refl, ap, ◌∙◌}
use Rattle.std.specs.Prelude.{if◌then◌else◌}
use Rattle.route_plan.specs.Distances.{is_dead}
use Rattle.switch_net.specs.declared.flight.Flight.{Flight}
use Rattle.switch_net.specs.Net.{NetData, has_arrived, next_switch, after_hop, find_flight, without, moved}
use Rattle.timed.proofs.hop.Goals as goal

step : (a b : Bool) (n m o : NetData) → m.routes ≡ n.routes → o.routes ≡ n.routes → (if a then n else if b then m else o).routes ≡ n.routes
step true b n m o h k = refl
step false true n m o h k = h
step false false n m o h k = k

after : (n : NetData) (id : ℕ) (f : Option Flight) → (after_hop n id f).routes ≡ n.routes
after n id None = refl
after n id (Some f) =
    step (has_arrived f) (is_dead n.dead (next_switch n.routes f)) n (record n { flights = without n.flights id }) (record n { flights = moved n.flights id (next_switch n.routes f) }) refl refl

pub returns : goal.returns
returns c = ap (λ (n : NetData). n.routes) c.hop.ensures.after ∙ after c.args.net.now c.args.id (find_flight c.args.net.now.flights c.args.id)
""",
    "proofs/fill/Invariants.antt": """use Rattle.std.proofs.Common.{◌≡◌}
use Rattle.timed.proofs.fill.Given as goal

abbrev pub invariant-each : goal.invariant-each
invariant-each l = l.net.routes ≡ l.initial.net.routes
""",
    "proofs/deliver_newest/Invariants.antt": """use Rattle.std.proofs.Common.{◌≡◌}
use Rattle.timed.proofs.deliver_newest.Given as goal

abbrev pub invariant-each : goal.invariant-each
invariant-each l = l.net.routes ≡ l.initial.net.routes
""",
    "proofs/deliver_oldest/Invariants.antt": """use Rattle.std.proofs.Common.{◌≡◌}
use Rattle.timed.proofs.deliver_oldest.Given as goal

abbrev pub invariant-each : goal.invariant-each
invariant-each l = l.net.routes ≡ l.initial.net.routes
""",
    "proofs/hop_newest/Invariants.antt": """use Rattle.std.proofs.Common.{◌≡◌}
use Rattle.timed.proofs.hop_newest.Given as goal

abbrev pub invariant-each : goal.invariant-each
invariant-each l = l.net.routes ≡ l.initial.net.routes
""",
}

HOME = {
    "src/main.rt": HEAD.replace("GHOST", """ghost use Rattle.std.specs.Prelude.{◌≡◌, ◌<◌, ◌≤◌};
""") + """use home_directory::Home;
use log_buffer::LogBuffer;
use sn_base::{BlockNo, Image, NodeId, Segment};
use sn_msg::{Body, Message};
use std::alloc::AllocError;

// A program of one instruction.
fn image(alloc: Global) -> Result<Image, AllocError> {
    let mut bytes = Vec::new(alloc);
    bytes.extend_from_slice(&[0x13, 0x05, 0x10, 0x04])?;
    let mut segments = Vec::new(alloc);
    segments.push(Segment { start: 0x8000_0000, size: 4, bytes, write: false, exec: true })?;
    Ok(Image::new(segments, 0x8000_0000))
}

// A message about the block comes, which the home answers and which changes nothing.
fn touch(home: &mut Home, log: &mut LogBuffer, here: NodeId, number: u16) -> bool
    requires node { home.old.node ≡ here }
    requires alone { home.old.nodes ≡ 1 }
    ensures node { home.new.node ≡ home.old.node }
    ensures alone { home.new.nodes ≡ home.old.nodes }
{
    let block = BlockNo::new(number);
    if block.home(1) != here {
        return false;
    }
    let message = Message { id: 1, from: here, to: here, tag: 0, block, body: Body::PutReq };
    home.receive(&message, 0, log);
    true
}

// So it is for the first blocks; how many messages came.
fn touch_all(home: &mut Home, log: &mut LogBuffer, here: NodeId, size: u32) -> u32
    requires node { home.old.node ≡ here }
    requires alone { home.old.nodes ≡ 1 }
    ensures node { home.new.node ≡ home.old.node }
    ensures alone { home.new.nodes ≡ home.old.nodes }
{
    let mut came = 0u32;
    'each: for number in 0..size {
        if touch(home, log, here, (number & 0xffff) as u16) {
            came = came.wrapping_add(1);
        }
    }
    came
}

fn time_restore(rt: &HostRuntime, home: &mut Home, size: u32) -> io::Result<()>
    ensures node { home.new.node ≡ home.old.node }
    ensures alone { home.new.nodes ≡ home.old.nodes }
{
    let start = Instant::now(rt)?;
    home.begin_restore();
    println!(rt; "timed begin_restore {size} {} 1 0", start.elapsed(rt)?.as_nanos())
}

// The blocks are touched twice, so that memory that is new to the program counts in the first row alone.
fn time_size(rt: &HostRuntime, home: &mut Home, log: &mut LogBuffer, here: NodeId, size: u32) -> io::Result<()>
    requires node { home.old.node ≡ here }
    requires alone { home.old.nodes ≡ 1 }
{
    touch_all(home, log, here, size);
    time_restore(rt, home, size)?;
    let start = Instant::now(rt)?;
    let came = touch_all(home, log, here, size);
    println!(rt; "timed receive {size} {} {} {came}", start.elapsed(rt)?.as_nanos(), size.max(1))?;
    time_restore(rt, home, size)
}

fn time_new(rt: &HostRuntime, size: u32) -> io::Result<()> {
    let Some(here) = NodeId::new(0) else {
        return Ok(());
    };
    let Ok(image) = image(rt.alloc()) else {
        return Ok(());
    };
    let start = Instant::now(rt)?;
    let Ok(mut home) = Home::new(rt.alloc(), here, 1, &image) else {
        return Ok(());
    };
    println!(rt; "timed new {size} {} 1 0", start.elapsed(rt)?.as_nanos())?;
    let Ok(mut log) = LogBuffer::new(rt.alloc(), 4) else {
        return Ok(());
    };
    time_size(rt, &mut home, &mut log, here, size)
}

fn main(rt: HostRuntime) -> io::Result<()> {
    time_new(&rt, 0)?;
    time_new(&rt, 0)?;
    time_new(&rt, 16)?;
    time_new(&rt, 256)?;
    time_new(&rt, 4096)?;
    time_new(&rt, 65536)
}
""",
    "proofs/touch_all/Invariants.antt": """use Rattle.std.proofs.Common.{◌≡◌}
use Rattle.timed.proofs.touch_all.Given as goal

abbrev pub invariant-each : goal.invariant-each
invariant-each l = (l.home.node ≡ l.initial.home.node) × (l.home.nodes ≡ l.initial.home.nodes)
""",
}

# each structure: the crates that its program names, and the program
STRUCTURES = {
    "log": ("log_buffer sn_base byteorder", LOG),
    "home": ("home_directory sn_base sn_msg rv_core rv_decode log_buffer route_plan sn_model byteorder rollback", HOME),
    "net": ("switch_net sn_msg sn_base route_plan byteorder", NET),
}


def times_of(folder: Path, revision: Optional[str], structure: str) -> Dict[Tuple[str, int], Tuple[float, int]]:
    """The nanoseconds of each call at each size, and what the calls saw."""
    names, program = STRUCTURES[structure]
    folder.mkdir()
    timed = with_program(folder, "timed", names, program, revision)
    done = subprocess.run(["rt", "run"], cwd=timed, capture_output=True, text=True)
    rows = re.findall(r"^timed (\S+) (\d+) (\d+) (\d+) (\d+)$", done.stdout, re.MULTILINE)
    if not rows:
        sys.exit(f"{structure}: nothing was timed: {done.stdout[-2000:]}{done.stderr[-3000:]}")
    return {(call, int(size)): (int(nanoseconds) / int(calls), int(seen)) for call, size, nanoseconds, calls, seen in rows}


def main() -> None:
    if len(sys.argv) < 2 or any(word not in STRUCTURES for word in sys.argv[2:]):
        sys.exit(__doc__)
    revision, structures = sys.argv[1], sys.argv[2:] or list(STRUCTURES)
    for structure in structures:
        with tempfile.TemporaryDirectory() as folder:
            before = times_of(Path(folder) / "before", revision, structure)
            after = times_of(Path(folder) / "after", None, structure)
        print(f"{structure:24} {'size':>6} {'before, ns':>12} {'after, ns':>12}")
        for call, size in after:
            if before[(call, size)][1] != after[(call, size)][1]:
                sys.exit(f"{call} at {size}: the two saw different things")
            print(f"{call:24} {size:6} {before[(call, size)][0]:12.1f} {after[(call, size)][0]:12.1f}")


if __name__ == "__main__":
    main()
