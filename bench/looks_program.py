"""The program of bench/looks.py: turns of monitored machines on the calling thread, and watchers that look beside them."""

PROGRAM = """//! Turns of monitored machines on the calling thread, and watchers that look beside them.
#![tactic(auto)]

ghost use Rattle.std.specs.Prelude.{◌≡◌, ◌≤◌, IfSome};
ghost use Rattle.sn_model.specs.Machine.{start_of};

use elf_load::load;
use sn_base::{Config, Rules};
use sn_driver::{Driver, Turn};
use sn_machine::Machine;
use sn_monitor::{Monitored, Published, Watcher};
use std::alloc::Global;
use std::env;
use std::io;
use std::sync::Wait;
use std::sync::atomic::{AtomicBool, Ordering};
use std::thread;
use std::thread::{Threads, join_mut};
use std::time::{Clock, CpuClock, Duration};

/// Each core jumps to itself.
const LOOPS: &str = "0000006f\\n";

/// Each core adds 1 to the word at 80001000, for ever.
const ADDS: &str = "800012b7\\n00100313\\n0062a3af\\nffdff06f\\n";

/// So many looks are as many as there are until the turns have ended.
const UNTIL_THE_END: u32 = 4_294_967_295;

/// What is to be run.
#[derive(Clone, Copy)]
struct Run {
    nodes: u8,
    interval: u32,
    turns: u32,
    /// One or three.
    machines: u32,
    looks: u32,
    yields: bool,
    /// The address of the word that is watched.
    watch: u32,
}

/// A machine that is monitored.
struct Timed {
    monitored: Monitored,
    nodes: u32,
    ghost some: { 1 ≤ nodes },
    ghost same: { monitored.machine.config.nodes ≡ nodes },
}

/// What the turns came to: how many did an event, how many published and how many lacked memory for it, and their time.
#[derive(Clone, Copy)]
struct Turned {
    done: u32,
    published: u32,
    lacking: u32,
    processor: Duration,
    clock: Duration,
}

/// What a watcher saw: how many looks there were, the last point, how often a point was below the one before, and the time of all looks.
#[derive(Clone, Copy)]
struct Looked {
    looks: u32,
    point: u32,
    falls: u32,
    processor: Duration,
}

/// The end of a machine: the receipt's point, that of a look once all turns are had, and the machine's.
#[derive(Clone, Copy)]
struct Ended {
    told: u32,
    seen: u32,
    point: u32,
}

fn processor_time<T: CpuClock>(rt: &T) -> Duration {
    match rt.thread_cpu_time() {
        Ok(time) => time,
        Err(_) => Duration::from_secs(0),
    }
}

fn clock_time<T: Clock>(rt: &T) -> Duration {
    match rt.monotonic() {
        Ok(time) => time,
        Err(_) => Duration::from_secs(0),
    }
}

/// A machine at the start of its program, with room for all turns.
fn machine(alloc: Global, run: &Run) -> Option<Machine>
    ensures fresh { IfSome result (λ m. (m.applied ≡ 0) × (m.state ≡ start_of m.image m.config.nodes)) }
    ensures nodes { IfSome result (λ m. m.config.nodes ≡ run.now.nodes) }
{
    let config = Config {
        nodes: run.nodes,
        sets: 16,
        ways: 4,
        log: 256,
    };
    if !config.fits() || run.turns > 2_000_000 {
        return None;
    }
    let program = if run.nodes == 1 { LOOPS } else { ADDS };
    let Ok(image) = load(alloc, program.as_bytes()) else {
        return None;
    };
    let Ok(mut machine) = Machine::new(alloc, image, config) else {
        return None;
    };
    if machine.reserve(run.turns).is_err() {
        return None;
    }
    Some(machine)
}

/// The start of a run, and its watcher.
fn begun<T: Wait>(rt: &T, alloc: Global, run: &Run) -> Option<(Timed, Watcher)> {
    if run.nodes < 1 || run.nodes > 16 || run.interval < 1 {
        return None;
    }
    if run.watch < 0x8000_0000 || run.watch >= 0x8000_2000 || run.watch % 4 != 0 {
        return None;
    }
    let machine = machine(alloc, run)?;
    let rules = Rules {
        interval: run.interval,
        wait: 20_000,
        lose_every: 0,
        kill: None,
    };
    let driver = Driver::new(rules, run.nodes);
    match Monitored::new(rt, alloc, machine, driver, run.watch) {
        Ok((monitored, watcher)) => Some((
            Timed {
                monitored,
                nodes: u32::from(run.nodes),
            },
            watcher,
        )),
        Err(_) => None,
    }
}

impl Timed {
    /// One turn.
    fn step<T: Wait>(&mut self, rt: &T, turn: u32, turned: &mut Turned) {
        if self.monitored.spare() == 0 {
            return;
        }
        let pick = turn.wrapping_mul(2_654_435_761) >> 8;
        let (did, published) = self.monitored.turn(rt, turn % self.nodes, pick);
        if matches!(did, Turn::Did(_, _)) {
            turned.done = turned.done.saturating_add(1);
        }
        match published {
            Published::Nothing => {}
            Published::New => turned.published = turned.published.saturating_add(1),
            Published::Memory => turned.lacking = turned.lacking.saturating_add(1),
        }
    }

    /// The watcher looks once more, and both are let go.
    fn end<T: Wait>(self, rt: &T, watcher: Watcher) -> Ended {
        let Timed {
            mut monitored,
            nodes: _,
        } = self;
        let mut watcher = watcher;
        let told = monitored.receipt().last().point();
        let seen = watcher.look().point();
        let machine = monitored.end(rt);
        Ended {
            told,
            seen,
            point: machine.recovered().point(),
        }
    }
}

fn no_turns() -> Turned {
    Turned {
        done: 0,
        published: 0,
        lacking: 0,
        processor: Duration::from_secs(0),
        clock: Duration::from_secs(0),
    }
}

/// All turns of one machine.
fn turn_one<T: Wait + Clock + CpuClock>(
    rt: &T,
    timed: &mut Timed,
    turns: u32,
    over: &AtomicBool,
) -> Turned {
    let mut turned = no_turns();
    let clock = clock_time(rt);
    let processor = processor_time(rt);
    for turn in 0..turns {
        timed.step(rt, turn, &mut turned);
    }
    turned.processor = processor_time(rt).saturating_sub(processor);
    turned.clock = clock_time(rt).saturating_sub(clock);
    over.store(true, Ordering::SeqCst);
    turned
}

/// Three machines.
struct Three {
    first: Timed,
    second: Timed,
    third: Timed,
}

/// As many turns of three machines together, in rounds.
fn turn_three<T: Wait + Clock + CpuClock>(
    rt: &T,
    machines: &mut Three,
    turns: u32,
    over: &AtomicBool,
) -> Turned {
    let mut turned = no_turns();
    let clock = clock_time(rt);
    let processor = processor_time(rt);
    for turn in 0..turns / 3 {
        machines.first.step(rt, turn, &mut turned);
        machines.second.step(rt, turn, &mut turned);
        machines.third.step(rt, turn, &mut turned);
    }
    turned.processor = processor_time(rt).saturating_sub(processor);
    turned.clock = clock_time(rt).saturating_sub(clock);
    over.store(true, Ordering::SeqCst);
    turned
}

/// All looks of one watcher.
fn look_on<T: CpuClock>(rt: &T, watcher: &mut Watcher, run: &Run, over: &AtomicBool) -> Looked {
    let mut looks = 0u32;
    let mut point = 0u32;
    let mut falls = 0u32;
    let start = processor_time(rt);
    for _ in 0..run.looks {
        if run.looks == UNTIL_THE_END && over.load(Ordering::SeqCst) {
            break;
        }
        let seen = watcher.look().point();
        if seen < point {
            falls = falls.saturating_add(1);
        }
        point = seen;
        looks = looks.saturating_add(1);
        if run.yields {
            thread::yield_now();
        }
    }
    Looked {
        looks,
        point,
        falls,
        processor: processor_time(rt).saturating_sub(start),
    }
}

/// One machine and its watcher, which has a thread only where it looks.
fn beside_one<T: Threads + Wait + Clock + CpuClock + Sync>(
    rt: &T,
    timed: &mut Timed,
    watcher: &mut Watcher,
    run: &Run,
) -> (Looked, Turned) {
    let over = AtomicBool::new(false);
    let over = &over;
    if run.looks == 0 {
        let turned = turn_one(rt, timed, run.turns, over);
        return (look_on(rt, watcher, run, over), turned);
    }
    join_mut(
        rt,
        &mut || look_on(rt, watcher, run, over),
        &mut || turn_one(rt, timed, run.turns, over),
    )
}

/// The third watcher beside the turns of all three machines.
fn beside_third<T: Threads + Wait + Clock + CpuClock + Sync>(
    rt: &T,
    machines: &mut Three,
    third: &mut Watcher,
    run: &Run,
    over: &AtomicBool,
) -> (Looked, Turned) {
    join_mut(
        rt,
        &mut || look_on(rt, third, run, over),
        &mut || turn_three(rt, machines, run.turns, over),
    )
}

/// The second one beside that.
fn beside_second<T: Threads + Wait + Clock + CpuClock + Sync>(
    rt: &T,
    machines: &mut Three,
    second: &mut Watcher,
    third: &mut Watcher,
    run: &Run,
    over: &AtomicBool,
) -> (Looked, (Looked, Turned)) {
    join_mut(
        rt,
        &mut || look_on(rt, second, run, over),
        &mut || beside_third(rt, machines, third, run, over),
    )
}

/// Three machines and their watchers, each in a thread of its own.
fn beside_three<T: Threads + Wait + Clock + CpuClock + Sync>(
    rt: &T,
    machines: &mut Three,
    first: &mut Watcher,
    second: &mut Watcher,
    third: &mut Watcher,
    run: &Run,
) -> (Looked, (Looked, (Looked, Turned))) {
    let over = AtomicBool::new(false);
    let over = &over;
    join_mut(
        rt,
        &mut || look_on(rt, first, run, over),
        &mut || beside_second(rt, machines, second, third, run, over),
    )
}

fn tell_turned<T: Print>(rt: &T, turned: &Turned) -> io::Result<()> {
    let processor = turned.processor.as_nanos();
    let clock = turned.clock.as_nanos();
    println!(rt; "turned {} {} {} {processor} {clock}", turned.done, turned.published, turned.lacking)
}

fn tell_looked<T: Print>(rt: &T, looked: &Looked, ended: &Ended) -> io::Result<()> {
    let processor = looked.processor.as_nanos();
    print!(rt; "looked {} {} {} {processor} ", looked.looks, looked.point, looked.falls)?;
    println!(rt; "{} {} {}", ended.told, ended.seen, ended.point)
}

/// A run of one machine.
fn run_one<T: Threads + Wait + Clock + CpuClock + Print + Sync>(
    rt: &T,
    alloc: Global,
    run: &Run,
) -> io::Result<()> {
    let Some((mut timed, mut watcher)) = begun(rt, alloc, run) else {
        return Ok(());
    };
    let (looked, turned) = beside_one(rt, &mut timed, &mut watcher, run);
    let ended = timed.end(rt, watcher);
    tell_turned(rt, &turned)?;
    tell_looked(rt, &looked, &ended)
}

/// Three machines at their start, and their watchers.
fn begun_three<T: Wait>(
    rt: &T,
    alloc: Global,
    run: &Run,
) -> Option<(Three, Watcher, Watcher, Watcher)> {
    let (first, one) = begun(rt, alloc, run)?;
    let Some((second, two)) = begun(rt, alloc, run) else {
        first.end(rt, one);
        return None;
    };
    let Some((third, three)) = begun(rt, alloc, run) else {
        first.end(rt, one);
        second.end(rt, two);
        return None;
    };
    let machines = Three {
        first,
        second,
        third,
    };
    Some((machines, one, two, three))
}

/// A run of three machines.
fn run_three<T: Threads + Wait + Clock + CpuClock + Print + Sync>(
    rt: &T,
    alloc: Global,
    run: &Run,
) -> io::Result<()> {
    let Some((mut machines, mut a, mut b, mut c)) = begun_three(rt, alloc, run) else {
        return Ok(());
    };
    let (one, (two, (three, turned))) =
        beside_three(rt, &mut machines, &mut a, &mut b, &mut c, run);
    let Three {
        first,
        second,
        third,
    } = machines;
    let ended = (first.end(rt, a), second.end(rt, b), third.end(rt, c));
    tell_turned(rt, &turned)?;
    tell_looked(rt, &one, &ended.0)?;
    tell_looked(rt, &two, &ended.1)?;
    tell_looked(rt, &three, &ended.2)
}

fn number(words: &[String], place: usize) -> Option<u32> {
    words.get(place)?.as_str().parse::<u32>().ok()
}

/// What the words ask for: the nodes, the interval, the turns, the machines, the looks, and whether a watcher yields after each.
fn read(words: &[String]) -> Option<Run> {
    Some(Run {
        nodes: if number(words, 1)? == 1 { 1 } else { 4 },
        interval: number(words, 2)?,
        turns: number(words, 3)?,
        machines: number(words, 4)?,
        looks: number(words, 5)?,
        yields: number(words, 6)? == 1,
        watch: 0x8000_1000,
    })
}

fn main(rt: HostRuntime) -> io::Result<()> {
    let Ok(words) = env::args(&rt)?.collect::<Vec<String>>(rt.alloc()) else {
        return Ok(());
    };
    match read(words.as_slice()) {
        Some(run) if run.machines == 3 => run_three(&rt, rt.alloc(), &run),
        Some(run) => run_one(&rt, rt.alloc(), &run),
        None => Ok(()),
    }
}
"""
