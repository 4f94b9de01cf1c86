#!/usr/bin/env python3
"""Compares the assembler and the disassembler with a reference simulator.

    tests/compare_assembly.py SIMULATOR [WORDS] [TEXTS] [SEED]

SIMULATOR is a reference simulator that takes `dis FILE` and `--main asm FILE`. WORDS random words (20,000) become lines by both,
and the lines become words again here; then TEXTS random texts (3,000), half of them with a byte or two changed, are assembled by
both: the words are the same, or the name of the cause is (the simulator doesn't tell the line). The programs of examples/asm are
assembled too, and have the words of the files beside them. The crates are copied into a folder of their own, beside a small program that prints what they answer, and are built there without a proof (`rt try`); so `rt`
has to be on the path.
"""
import random
import re
import subprocess
import sys
import tempfile
from pathlib import Path
from typing import Dict, List, Sequence

import compare_instructions as instructions

sys.path.append(str(Path(__file__).resolve().parent.parent / "bench"))
from small_repository import with_program  # noqa: E402

MENTIONED = "rv_asm sn_base rv_decode rv_statement text_lines itoa byteorder"

READER = """// A line is `dis` and words, or `asm` and bytes, all hexadecimal. It prints the words' lines, or the text's words or the cause
// why there are none, and then `end`.
#![tactic(auto)]

use rv_asm::{AsmFault, assemble, disassemble};
use std::alloc::Global;
use std::io;

fn words(alloc: Global, line: &str) -> Vec<u32> {
    let mut words = Vec::new(alloc);
    for text in line.split_whitespace() {
        if text.len() == 8 {
            if let Ok(word) = u32::from_str_radix(text, 16) {
                words.push(word).ok();
            }
        }
    }
    words
}

fn bytes(alloc: Global, line: &str) -> Vec<u8> {
    let mut bytes = Vec::new(alloc);
    for text in line.split_whitespace() {
        if text.len() == 2 {
            if let Ok(byte) = u8::from_str_radix(text, 16) {
                bytes.push(byte).ok();
            }
        }
    }
    bytes
}

fn main(rt: HostRuntime) -> io::Result<()> {
    let alloc = rt.alloc();
    for line in rt.lines(alloc) {
        let line = line?;
        if line.as_str().starts_with("dis") {
            let words = words(alloc, line.as_str());
            if let Ok(text) = disassemble(alloc, words.as_slice()) {
                if let Ok(text) = str::from_utf8(text.as_slice()) {
                    println!(rt; "{text}")?;
                }
            }
        } else {
            let bytes = bytes(alloc, line.as_str());
            match assemble(alloc, bytes.as_slice()) {
                Ok(words) => {
                    for word in words.iter() {
                        println!(rt; "{word:08x}")?;
                    }
                }
                Err(AsmFault::Refused(cause)) => println!(rt; "{cause:?}")?,
                Err(AsmFault::Memory) => println!(rt; "Memory")?,
            }
        }
        println!(rt; "end")?;
    }
    Ok(())
}
"""

USUAL = "zero ra sp gp tp t0 t1 t2 s0 s1 a0 a1 a2 a3 a4 a5 a6 a7 s2 s3 s4 s5 s6 s7 s8 s9 s10 s11 t3 t4 t5 t6 fp".split()
LABELS = ["loop", "end", "_a", "L1", "x1", "x_2"]
ODD_BYTES = b" \t,()#:.-_0x9aZ\n\r\xc3\x80"


def build(folder: Path) -> Path:
    """A repository of the crates and the reader; gives the reader's folder."""
    return with_program(folder, "reader", MENTIONED, {"src/main.rt": READER})


def read(reader: Path, lines: Sequence[str]) -> List[List[str]]:
    """The reader's lines for each of its input's lines, of which each has to be answered."""
    done = subprocess.run(["rt", "try", "--seconds", "500"], cwd=reader, input="".join(line + "\n" for line in lines), capture_output=True, text=True)
    said: List[str] = []
    answers: List[List[str]] = []
    for line in done.stdout.splitlines():
        if line == "end":
            answers.append([part for part in said if part])
            said = []
        elif re.match(r"[a-z.]+( |$)|[0-9a-f]{8}$|[A-Z]\w+(\(\d+\))?$", line) or not line:
            said.append(line)
    if len(answers) != len(lines):
        sys.exit(f"the reader answered {len(answers)} of {len(lines)}: " + done.stdout[-500:] + done.stderr[-2000:])
    return answers


def hexadecimal(text: bytes) -> str:
    """The reader's line for a text that is to be assembled."""
    return "asm " + " ".join(f"{byte:02x}" for byte in text)


def compare_words(simulator: str, folder: Path, reader: Path, choose: random.Random, count: int) -> None:
    """So many words have the same lines on both sides, and the lines give the words."""
    words = [instructions.random_word(choose) for _ in range(count)]
    if_written = [word if choose.random() < 0.2 else instructions.plainly_written(word) for word in words]
    parts = [if_written[start : start + 50] for start in range(0, count, 50)]
    here = [line for lines in read(reader, ["dis " + " ".join(f"{word:08x}" for word in part) for part in parts]) for line in lines]
    there = instructions.disassembled(simulator, folder, if_written)
    instructions.must_pair(if_written, here, there)
    for word, mine, other in zip(if_written, here, there):
        if mine != other:
            sys.exit(f"{word:08x}: here {mine}, there {other}")
    texts = ["\n".join(here[start : start + 50]).encode() for start in range(0, count, 50)]
    for part, back in zip(parts, read(reader, [hexadecimal(text) for text in texts])):
        if back != [f"{word:08x}" for word in part]:
            sys.exit(f"the lines of {part} are other words: {back}")
    print(f"{count} words have the same lines, {sum(not line.startswith('.word') for line in here)} of them instructions, and the lines give the words")


def register(choose: random.Random) -> str:
    """A register by its number or its usual name."""
    return choose.choice([f"x{choose.randrange(32)}", choose.choice(USUAL)])


def number(choose: random.Random, least: int, most: int) -> str:
    """A number of the range or next to it, in some spelling."""
    value = choose.choice([choose.randint(least, most), choose.randint(least, most), least, most, least - 1, most + 1, 0])
    if value >= 0 and choose.random() < 0.4:
        return f"0x{value:x}" if choose.random() < 0.7 else f"0x{value:0{choose.choice([4, 12, 13])}X}"
    return f"{value}" if choose.random() < 0.9 else f"{value:0{choose.choice([5, 12, 13])}d}"


def spaced(choose: random.Random, parts: Sequence[str]) -> str:
    """The operands, with blanks and tabs around what parts them."""

    def blank() -> str:
        return choose.choice(["", "", "", " ", "  ", "\t"])

    return "".join(blank() + part + blank() if part in ",()" else part for part in parts)


def target(choose: random.Random, reach: int) -> str:
    """Where a jump goes: a label or a distance, at its greatest now and then, and odd in some cases."""
    if choose.random() < 0.4:
        return choose.choice(LABELS)
    return str(2 * choose.choice([choose.randint(-reach, reach), 0, -reach, reach - 1, reach]) + (choose.random() < 0.1))


def operands(choose: random.Random, name: str) -> List[str]:
    """The operands of an instruction, and what parts them."""

    def r() -> str:
        return register(choose)

    if name in ("lui", "auipc"):
        return [r(), ",", number(choose, 0, 1048575)]
    if name == "jal":
        return [r(), ",", target(choose, 524288)]
    if name in instructions.BRANCHES:
        return [r(), ",", r(), ",", target(choose, 2048)]
    if name == "jalr" or name in instructions.LOADS or name in instructions.STORES:
        return [r(), ",", number(choose, -2048, 2047), "(", r(), ")"]
    if name in instructions.IMMEDIATES:
        return [r(), ",", r(), ",", number(choose, 0, 31) if name in ("slli", "srli", "srai") else number(choose, -2048, 2047)]
    if name in instructions.REGISTERS:
        return [r(), ",", r(), ",", r()]
    if name == "lr.w":
        return [r(), ",", "(", r(), ")"]
    if name.endswith(".w"):
        return [r(), ",", r(), ",", "(", r(), ")"]
    return [number(choose, 0, 2**32 - 1)] if name == ".word" else []


NAMES = (
    ["lui", "auipc", "jal", "jal", "jalr", "fence", "ecall", "ebreak", "lr.w", "sc.w", ".word"]
    + instructions.BRANCHES + instructions.LOADS + list(instructions.STORES) + instructions.IMMEDIATES + instructions.REGISTERS
    + [name + ".w" for name in instructions.ATOMICS]
)


def random_line(choose: random.Random, labels: List[str]) -> str:
    """A line of a text; a label is taken from these."""
    kind = choose.random()
    if kind < 0.08:
        return choose.choice(["", " ", "\t# nothing", "# a comment: x1, (x2)"])
    if kind < 0.2 and labels:
        return labels.pop() + ":"
    name = choose.choice(NAMES)
    blank = choose.choice([" ", " ", "  ", "\t"])
    comment = choose.choice(["", "", "", " # here", "#"])
    return choose.choice(["", "", " ", "\t"]) + name + blank + spaced(choose, operands(choose, name)) + comment


def random_text(choose: random.Random) -> bytes:
    """A few lines, half of the texts with a byte or two changed."""
    labels = LABELS[:]
    choose.shuffle(labels)
    if choose.random() < 0.1:
        labels.append(labels[0])
    ended = choose.choice(["\n", "\n", "\r\n"])
    whole = ended.join([random_line(choose, labels) for _ in range(choose.randrange(1, 8))] + [label + ":" for label in labels if choose.random() < 0.8])
    text = bytearray((whole + choose.choice(["", ended])).encode())
    for _ in range(choose.choice([0, 0, 1, 2])):
        place = choose.randrange(len(text) + 1)
        text[place : place + choose.randrange(2)] = bytes([choose.choice(ODD_BYTES)]) * choose.randrange(2)
    return bytes(text)


def assembled(simulator: str, folder: Path, text: bytes) -> List[str]:
    """The simulator's words, or the cause's name."""
    file = folder / "text.s"
    file.write_bytes(text)
    done = subprocess.run([simulator, "--main", "asm", str(file)], capture_output=True, text=True)
    return done.stdout.split() if done.returncode == 0 else [done.stderr.split()[-1]]


def compare_texts(simulator: str, folder: Path, reader: Path, choose: random.Random, count: int) -> None:
    """So many texts have the same words on both sides, or the same cause."""
    texts = [random_text(choose) for _ in range(count)]
    counts: Dict[str, int] = {}
    for text, here in zip(texts, read(reader, [hexadecimal(text) for text in texts])):
        cause = re.fullmatch(r"([A-Z]\w+)\(\d+\)", here[0]) if len(here) == 1 else None
        mine = [cause[1].lower()] if cause else here
        there = assembled(simulator, folder, text)
        if mine != there:
            sys.exit(f"{text!r}: here {here}, there {there}")
        counts[cause[1] if cause else "words"] = counts.get(cause[1] if cause else "words", 0) + 1
    print(f"{count} texts are the same: " + ", ".join(f"{name} {counts[name]}" for name in sorted(counts)))


def compare_examples(reader: Path) -> None:
    """The stored programs have the words of the files beside them."""
    files = sorted((Path(__file__).resolve().parent.parent / "examples" / "asm").glob("*.s"))
    for file, here in zip(files, read(reader, [hexadecimal(file.read_bytes()) for file in files])):
        if here != file.with_suffix(".hex").read_text().split():
            sys.exit(f"{file.name} has other words than its .hex: {here}")
    print(f"{len(files)} programs of examples/asm have the words of their .hex files")


def main() -> None:
    if len(sys.argv) < 2:
        print(__doc__)
        sys.exit(2)
    simulator = str(Path(sys.argv[1]).resolve())
    words, texts, seed = (int(text) for text in (sys.argv[2:] + ["20000", "3000", "1"][len(sys.argv) - 2 :])[:3])
    choose = random.Random(seed)
    with tempfile.TemporaryDirectory() as room:
        folder = Path(room)
        reader = build(folder)
        compare_examples(reader)
        compare_words(simulator, folder, reader, choose, words)
        compare_texts(simulator, folder, reader, choose, texts)


if __name__ == "__main__":
    main()
