"""From a test to a program for all nodes: each core finds its thread by its number in x10.

The instructions are an assembler text, which `safetynet asm` turns into words. Words of memory that aren't 0 at the start need a segment that may be
written, so the program is an ELF file with the words as one segment and the variables as another (docs/FORMATS.md, "A program's file").
"""
from __future__ import annotations

import struct
from dataclasses import dataclass
from typing import Dict, List, Optional, Sequence, Tuple

from ..calls import assemble
from ..program import PathLike
from .model import BLOCK, DATA, Instruction, LitmusError, Register, Test, Thread

ENTRY = 0x80000000
# Takes the exit call's number at the end, so that no thread may keep anything in it.
_CALL = 17


@dataclass(frozen=True)
class Translation:
    """A test as a program.

    Attributes
    ----------
    text : str
        Its instructions, as `safetynet asm` takes them.
    image : bytes
        The ELF file.
    heads : tuple of int
        How many instructions each core does before those of its thread, as long as it isn't undone.
    held_in : mapping from Register to int
        The register of the core that holds a register of the test, where it is another.
    """

    text: str
    image: bytes
    heads: Tuple[int, ...]
    held_in: Dict[Register, int]

    def held(self, register: Register) -> int:
        """The register of the core that holds this one of the test."""
        return self.held_in.get(register, register.number)


def load_immediate(register: int, word: int) -> List[str]:
    """The one or two instructions that put a word into a register."""
    low = (word & 0xFFF) - (0x1000 if word & 0x800 else 0)
    high = ((word - low) >> 12) & 0xFFFFF
    lines = [f"lui x{register}, {high}"] if high else []
    if low or not high:
        lines.append(f"addi x{register}, x{register if high else 0}, {low}")
    return lines


def translated(instruction: Instruction, target: str, renamed: Dict[int, int]) -> List[str]:
    """The assembler's instructions for one of the test; a branch goes to the target."""
    name = instruction.name
    operands = [f"x{renamed.get(number, number)}" for number in instruction.registers]
    if name == "li":
        return load_immediate(int(operands[0][1:]), instruction.number % 2**32)
    if name == "mv":
        return [f"addi {operands[0]}, {operands[1]}, 0"]
    if name in ("lw", "sw"):
        return [f"{name} {operands[0]}, {instruction.number}({operands[1]})"]
    if name.endswith(".w"):
        operands[-1] = f"({operands[-1]})"
    if name in ("xori", "ori", "addi", "andi"):
        operands.append(str(instruction.number))
    if instruction.label:
        operands.append(target)
    return [f"{name} {', '.join(operands)}" if operands else name]


def _label(number: int, thread: Thread, name: str) -> str:
    """A thread's label as one of the text, which has those of all threads."""
    return f"p{number}_{list(thread.labels).index(name)}"


def _renamed(test: Test, number: int, file: str) -> Dict[int, int]:
    """Where a thread uses x17, the register that stands for it."""
    thread = test.threads[number]
    used = {register for instruction in thread.instructions for register in instruction.registers}
    used |= {register.number for register in test.registers if register.thread == number}
    used |= {place.number for place in test.observed if isinstance(place, Register) and place.thread == number}
    if _CALL not in used:
        return {}
    free = [register for register in range(5, 32) if register not in used and register != 10]
    if not free:
        line = thread.instructions[0].line if thread.instructions else 0
        raise LitmusError(file, line, f"P{number} uses x17 and leaves no register free for it")
    return {_CALL: free[0]}


def _thread_lines(test: Test, number: int, renamed: Dict[int, int]) -> Tuple[List[str], int]:
    """A thread's text, and how many instructions come before its first one."""
    thread = test.threads[number]
    head: List[str] = []
    for register, word in sorted(test.registers.items()):
        if register.thread == number and word:
            head += load_immediate(renamed.get(register.number, register.number), word)
    lines = [f"p{number}:", *(f"        {line}" for line in head)]
    for place, instruction in enumerate(thread.instructions):
        lines += _labels(thread, number, place)
        target = _label(number, thread, instruction.label) if instruction.label else ""
        lines += [f"        {line}" for line in translated(instruction, target, renamed)]
    lines += _labels(thread, number, len(thread.instructions))
    return [*lines, f"        addi x{_CALL}, x0, 93", "        ecall"], len(head)


def _labels(thread: Thread, number: int, place: int) -> List[str]:
    return [f"{_label(number, thread, name)}:" for name, at in thread.labels.items() if at == place]


def assembler_text(test: Test, file: str = "litmus") -> Tuple[str, Tuple[int, ...], Dict[Register, int]]:
    """The text for `safetynet asm`, the instructions of each core before its thread's, and the registers that have another place.

    Raises
    ------
    LitmusError
        A thread uses every register.
    """
    lines, bodies, heads = [f"# {test.name}: each core finds its thread"], [], []
    held_in: Dict[Register, int] = {}
    for number in range(len(test.threads)):
        lines += [f"        bne x10, x0, after{number}", f"        jal x0, p{number}", f"after{number}:", "        addi x10, x10, -1"]
        renamed = _renamed(test, number, file)
        held_in.update({Register(number, old): new for old, new in renamed.items()})
        body, head = _thread_lines(test, number, renamed)
        bodies += body
        heads.append(2 * number + 2 + head)
    lines += [f"        addi x{_CALL}, x0, 93", "        ecall"]
    return "\n".join([*lines, *bodies]) + "\n", tuple(heads), held_in


def elf_image(words: Sequence[int], variables: Sequence[int]) -> bytes:
    """A program's file: the words from the entry on, and each variable in its block."""
    code = struct.pack(f"<{len(words)}I", *words)
    data = b"".join(struct.pack("<I", word).ljust(BLOCK, b"\0") for word in variables) or bytes(BLOCK)
    start = 52 + 2 * 32
    header = struct.pack(
        "<16sHHIIIIIHHHHHH", b"\x7fELF\x01\x01\x01".ljust(16, b"\0"), 2, 243, 1, ENTRY, 52, 0, 0, 52, 32, 2, 40, 0, 0
    )
    segments = struct.pack("<8I", 1, start, ENTRY, ENTRY, len(code), len(code), 5, 4)
    segments += struct.pack("<8I", 1, start + len(code), DATA, DATA, len(data), len(data), 6, 4)
    return header + segments + code + data


def translate(test: Test, file: str = "litmus", command: Optional[PathLike] = None) -> Translation:
    """The program of a test. One call of the program, which assembles the text.

    Raises
    ------
    LitmusError
        A thread uses every register.
    SafetyNetError
        The program refuses the text.
    """
    text, heads, held_in = assembler_text(test, file)
    image = elf_image(assemble(text, command=command), [test.memory.get(name, 0) for name in test.variables])
    return Translation(text, image, heads, held_in)
