#!/usr/bin/env python3
"""Compares the decoder, the encoder and the flat machine with a reference simulator.

    tests/compare_instructions.py SIMULATOR [WORDS] [STEPS] [SEED]

SIMULATOR is a reference simulator that takes `dis FILE` and `run FILE`. WORDS random words (20,000) are decoded and written
again by both; then programs of random instructions run on one core until it has ended, on the flat machine here and on the
simulator's machine with caches, until STEPS instructions (5,000) are done, and the last core must be the same. The crates are
copied into a folder of their own, beside a small program that prints what they answer, and are built there without a proof
(`rt try`); so `rt` has to be on the path.
"""
import random
import re
import subprocess
import sys
import tempfile
from pathlib import Path
from typing import List, Sequence, Sized

sys.path.append(str(Path(__file__).resolve().parent.parent / "bench"))
from small_repository import with_program  # noqa: E402

MENTIONED = "rv_decode rv_core sn_flat sn_base byteorder"

READER = """// Of each line of words it prints each word's instruction, with the word that is written of it; of a line that begins with
// `run` it prints how many steps the program does and the core after it has ended.
#![tactic(auto)]

use rv_core::{CoreState, End, Record, Want};
use rv_decode::{decode, encode};
use sn_base::{BlockNo, Image, NodeId, Segment};
use sn_flat::Flat;
use std::alloc::Global;
use std::io;

fn record(flat: &Flat, core: &CoreState, node: NodeId, want: Want) -> Record {
    let seen = match want {
        Want::Load(address) | Want::Amo(address) | Want::Lr(address) => flat.word(address / 4 * 4),
        _ => 0,
    };
    let sc_done = match want {
        Want::Sc(address) => core.reservation.is_some() && core.reservation == BlockNo::of(address),
        _ => false,
    };
    Record { core: node, seen, sc_done, read: None }
}

fn program(alloc: Global, words: &[u32]) -> Option<Image> {
    let mut bytes = Vec::new(alloc);
    for word in words {
        bytes.extend_from_slice(&word.to_le_bytes()).ok()?;
    }
    let size = 4 * words.len() as u32;
    let mut segments = Vec::new(alloc);
    segments.push(Segment { start: 0x8000_0000, size, bytes, write: false, exec: true }).ok()?;
    Some(Image::new(segments, 0x8000_0000))
}

fn ended(alloc: Global, words: &[u32]) -> Option<(CoreState, u32)> {
    let image = program(alloc, words)?;
    let node = NodeId::new(0)?;
    let mut flat = Flat::start(alloc, &image, 1).ok()?;
    for steps in 0..10_000u32 {
        let core = *flat.core(node);
        if core.end != End::Running {
            return Some((core, steps));
        }
        let taken = record(&flat, &core, node, core.want(&image));
        flat.step(&image, &taken).ok()?;
    }
    None
}

fn main(rt: HostRuntime) -> io::Result<()> {
    let alloc = rt.alloc();
    for line in rt.lines(alloc) {
        let line = line?;
        let mut words = Vec::new(alloc);
        for text in line.as_str().split_whitespace() {
            if let Ok(word) = u32::from_str_radix(text, 16) {
                words.push(word).ok();
            }
        }
        if line.as_str().starts_with("run") {
            match ended(alloc, words.as_slice()) {
                Some((core, steps)) => println!(rt; "{steps} {core:?}")?,
                None => println!(rt; "none")?,
            }
            continue;
        }
        for word in words.iter() {
            match decode(*word) {
                Ok(instr) => println!(rt; "{:08x} {instr:?}", encode(&instr))?,
                Err(_) => println!(rt; "Illegal")?,
            }
        }
    }
    Ok(())
}
"""

OPCODES = [0x37, 0x17, 0x6F, 0x67, 0x63, 0x03, 0x23, 0x13, 0x33, 0x0F, 0x73, 0x2F]
BRANCHES = ["beq", "bne", "blt", "bge", "bltu", "bgeu"]
LOADS = ["lb", "lh", "lw", "lbu", "lhu"]
STORES = {"sb": "Byte", "sh": "Half", "sw": "Word"}
IMMEDIATES = ["addi", "slti", "sltiu", "xori", "ori", "andi", "slli", "srli", "srai"]
REGISTERS = ["add", "sll", "slt", "sltu", "xor", "srl", "or", "and", "sub", "sra"]
ATOMICS = ["amoswap", "amoadd", "amoxor", "amoand", "amoor", "amomin", "amomax", "amominu", "amomaxu"]


def build(folder: Path) -> Path:
    """A repository of the crates and the reader; gives the reader's folder."""
    return with_program(folder, "reader", MENTIONED, {"src/main.rt": READER})


def read(reader: Path, lines: Sequence[str]) -> List[str]:
    """The reader's lines for its input's."""
    done = subprocess.run(["rt", "try", "--seconds", "500"], cwd=reader, input="".join(line + "\n" for line in lines), capture_output=True, text=True)
    answers = [line for line in done.stdout.splitlines() if re.match(r"[0-9a-f]{8} [A-Z]|Illegal$|\d+ CoreState|none$", line)]
    if not answers:
        sys.exit("the reader said nothing: " + done.stdout[-500:] + done.stderr[-2000:])
    return answers


def must_pair(*lists: Sized) -> None:
    """All of these have one length: each item has its answer."""
    lengths = [len(it) for it in lists]
    if len(set(lengths)) != 1:
        sys.exit(f"of these each should have one: {lengths}")


def disassembled(simulator: str, folder: Path, words: Sequence[int]) -> List[str]:
    """The simulator's lines of these words."""
    file = folder / "words.hex"
    texts: List[str] = []
    for start in range(0, len(words), 10000):
        file.write_text("".join(f"{word:08x}\n" for word in words[start : start + 10000]))
        done = subprocess.run([simulator, "dis", str(file)], capture_output=True, text=True)
        texts += [line for line in done.stdout.splitlines() if line and not line.startswith("#")]
    return texts


def as_debug(text: str) -> str:
    """The simulator's line as the reader prints the instruction."""
    name, _, rest = text.partition(" ")
    n = [int(number) for number in re.findall(r"-?\d+", rest)]
    variant = name[:1].upper() + name[1:]
    if name in ("lui", "auipc"):
        return f"{variant} {{ rd: {n[0]}, imm: {n[1] << 12} }}"
    if name == "jal":
        return f"Jal {{ rd: {n[0]}, offset: {n[1]} }}"
    if name == "jalr":
        return f"Jalr {{ rd: {n[0]}, rs1: {n[2]}, imm: {n[1]} }}"
    if name in BRANCHES:
        return f"Branch {{ op: {variant}, rs1: {n[0]}, rs2: {n[1]}, offset: {n[2]} }}"
    if name in LOADS:
        return f"Load {{ op: {variant}, rd: {n[0]}, rs1: {n[2]}, imm: {n[1]} }}"
    if name in STORES:
        return f"Store {{ op: {STORES[name]}, rs1: {n[2]}, rs2: {n[0]}, imm: {n[1]} }}"
    if name in IMMEDIATES:
        return f"OpImm {{ op: {variant}, rd: {n[0]}, rs1: {n[1]}, imm: {n[2]} }}"
    if name in REGISTERS:
        return f"Op {{ op: {variant}, rd: {n[0]}, rs1: {n[1]}, rs2: {n[2]} }}"
    if name == "lr.w":
        return f"Lr {{ rd: {n[0]}, rs1: {n[1]} }}"
    if name == "sc.w":
        return f"Sc {{ rd: {n[0]}, rs1: {n[2]}, rs2: {n[1]} }}"
    if name.removesuffix(".w") in ATOMICS:
        return f"Amo {{ op: {variant[:-2]}, rd: {n[0]}, rs1: {n[2]}, rs2: {n[1]} }}"
    return variant


def plainly_written(word: int) -> int:
    """The word with the bits 0 that no atomic operation looks at, and of a FENCE the one that orders everything."""
    if word & 0x7F == 0x2F:
        return word & ~(3 << 25)
    if word & 0x707F == 0x0F:
        return 0x0FF0000F
    return word


def random_word(choose: random.Random) -> int:
    """A word at random, of which most have an opcode that there is."""
    word = choose.getrandbits(32)
    if choose.random() < 0.9:
        word = word & ~0x7F | choose.choice(OPCODES)
    if choose.random() < 0.5:
        word = word & 0x1FFFFFF | choose.choice([0, 0x40000000])
    if word & 0x7F == 0x2F and choose.random() < 0.8:
        word = word & ~0x7000 | 0x2000
    if word & 0x7F == 0x73 and choose.random() < 0.8:
        word = choose.choice([0x73, 0x100073, 0x200073, 0x10073])
    return word


def compare_words(simulator: str, folder: Path, reader: Path, choose: random.Random, count: int) -> None:
    """So many words are the same instructions on both sides, and are written again alike."""
    words = [random_word(choose) for _ in range(count)]
    answers = read(reader, [" ".join(f"{word:08x}" for word in words[start : start + 50]) for start in range(0, count, 50)])
    texts = disassembled(simulator, folder, [plainly_written(word) for word in words])
    legal = 0
    must_pair(words, answers, texts)
    for word, answer, text in zip(words, answers, texts):
        want = "Illegal" if text.startswith(".word") else f"{plainly_written(word):08x} {as_debug(text)}"
        legal += answer != "Illegal"
        if answer != want:
            sys.exit(f"{word:08x}: here {answer}, there {want}")
    print(f"{count} words are the same, {legal} of them instructions")


def random_instruction(choose: random.Random, odd: float) -> str:
    """An instruction of registers 6 to 15, and of memory by x5; jumps go forward. Some trap, where `odd` isn't 0."""
    rd, rs1, rs2 = (choose.choice([0, *range(6, 16)]) for _ in range(3))
    immediate = choose.choice([choose.randrange(-2048, 2048), choose.randrange(-4, 5)])
    kind = choose.random()
    if kind < 0.2:
        name = choose.choice(IMMEDIATES)
        return f"{name} x{rd}, x{rs1}, {choose.randrange(32) if name in ('slli', 'srli', 'srai') else immediate}"
    if kind < 0.45:
        return f"{choose.choice(REGISTERS)} x{rd}, x{rs1}, x{rs2}"
    if kind < 0.55:
        return f"{choose.choice(['lui', 'auipc'])} x{rd}, {choose.getrandbits(20)}"
    if kind < 0.68:
        name = choose.choice(LOADS + list(STORES))
        size = {"b": 1, "h": 2, "w": 4}[name[1]]
        place = choose.randrange(0, 256 // size) * size + (choose.random() < odd)
        return f"{name} x{rd if name in LOADS else rs2}, {place}(x5)"
    if kind < 0.8:
        name = choose.choice(["lr", "sc", "sc"] + ATOMICS)
        return f"lr.w x{rd}, (x5)" if name == "lr" else f"{name}.w x{rd}, x{rs2}, (x5)"
    if kind < 0.95:
        target = 4 * choose.randrange(1, 5) + 2 * (choose.random() < odd)
        if choose.random() < 0.2:
            return f"jal x{rd}, {target}"
        return f"{choose.choice(BRANCHES)} x{rs1}, x{rs2}, {target}"
    return choose.choice(["fence", f"lw x{rd}, -4(x5)"])


def random_program(choose: random.Random, simulator: str, folder: Path, turns: int, odd: float) -> List[str]:
    """A loop of so many turns over random instructions."""
    lines = ["lui x5, 524289", f"addi x4, x0, {turns}"]
    lines += [f"lui x{number}, {choose.choice([0, 0x7ffff, 0x80000, 0xfffff, choose.getrandbits(20)])}" for number in range(6, 16)]
    body = [random_instruction(choose, odd) for _ in range(200)] + ["fence"] * 4
    lines += body + ["addi x4, x4, -1", f"bne x4, x0, {-4 * (len(body) + 1)}", "ebreak"]
    file = folder / "program.s"
    file.write_text("".join(line + "\n" for line in lines))
    done = subprocess.run([simulator, "asm", str(file)], capture_output=True, text=True)
    words = [line for line in done.stdout.splitlines() if re.fullmatch("[0-9a-f]{8}", line)]
    if len(words) != len(lines):
        sys.exit("not assembled: " + done.stderr)
    return words


def part_of(debug: str, pattern: str) -> str:
    """What the pattern's brackets match in the reader's core."""
    found = re.search(pattern, debug)
    if found is None:
        sys.exit(f"a core without {pattern}: {debug}")
    return found[1]


def core_line(debug: str) -> str:
    """The reader's core as the simulator's summary prints it."""
    pc = int(part_of(debug, r"pc: (\d+)"))
    registers = [int(number) for number in part_of(debug, r"x: \[([^\]]*)\]").split(", ")]
    cause = part_of(debug, r"Trapped\((\w+)\)")
    word = {"Illegal": "illegal", "FetchFault": "fetch", "MisalignedTarget": "target", "MisalignedAccess": "misaligned", "AccessFault": "access", "UnknownCall": "call", "Break": "break"}[cause]
    return f"core 0 {pc:08x} trapped {word}" + "".join(f" x{number}={value:08x}" for number, value in enumerate(registers) if value)


def compare_steps(simulator: str, folder: Path, reader: Path, choose: random.Random, count: int) -> None:
    """Programs of together so many steps leave the same core on both sides."""
    programs = [random_program(choose, simulator, folder, 10, 0) for _ in range(count // 1500 + 1)]
    programs += [random_program(choose, simulator, folder, 1, 0.05) for _ in range(4)]
    answers = read(reader, ["run " + " ".join(words) for words in programs])
    steps = 0
    must_pair(programs, answers)
    for words, answer in zip(programs, answers):
        file = folder / "program.hex"
        file.write_text("".join(word + "\n" for word in words))
        done = subprocess.run([simulator, "run", str(file), "--nodes", "1", "--interval", "1000000"], capture_output=True, text=True)
        want = next(line for line in done.stderr.splitlines() if line.startswith("core 0 "))
        if core_line(answer) != want:
            sys.exit(" ".join(words) + f"\nhere  {core_line(answer)}\nthere {want}")
        steps += int(answer.split()[0])
    print(f"{len(programs)} programs of together {steps} steps end the same")
    if steps < count:
        sys.exit("too few steps")


def main() -> None:
    if len(sys.argv) < 2:
        print(__doc__)
        sys.exit(2)
    simulator = str(Path(sys.argv[1]).resolve())
    words, steps, seed = (int(text) for text in (sys.argv[2:] + ["20000", "5000", "1"][len(sys.argv) - 2 :])[:3])
    choose = random.Random(seed)
    with tempfile.TemporaryDirectory() as name:
        folder = Path(name)
        reader = build(folder)
        compare_words(simulator, folder, reader, choose, words)
        compare_steps(simulator, folder, reader, choose, steps)


if __name__ == "__main__":
    main()
