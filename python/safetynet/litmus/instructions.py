"""The instructions of the subset, read from a cell of the table.

Acquire and release are read and dropped, and a fence with its operands is a fence: the machine orders every access.
"""
from __future__ import annotations

import re
from typing import Callable, Dict, List, Tuple

from .model import WORD, Instruction

NUMBER = r"-?(?:0x[0-9a-fA-F]{1,8}|[0-9]{1,10})"
NAME = r"[A-Za-z_][A-Za-z0-9_']*"
_LABEL = re.compile(r"[A-Za-z_.][A-Za-z0-9_.$]*")
_ADDRESS = re.compile(rf"({NUMBER})?\s*\(\s*([a-z0-9]+)\s*\)")
_FENCE = re.compile(r"i?o?r?w?")
_ORDERED = re.compile(r"((?:lr|sc|amo[a-z]+)\.w)(\.aqrl|\.aq\.rl|\.aq|\.rl)?")
_AMO = "swap add xor and or min max minu maxu"
REGISTERS: Dict[str, int] = {f"x{number}": number for number in range(32)}
REGISTERS.update({name: number for number, name in enumerate("zero ra sp gp tp t0 t1 t2 s0 s1".split())})
REGISTERS.update({f"a{number}": 10 + number for number in range(8)})
REGISTERS.update({f"s{number}": 16 + number for number in range(2, 12)})
REGISTERS.update({f"t{number}": 25 + number for number in range(3, 7)}, fp=8)

Operands = Tuple[Tuple[int, ...], int, str]


def number_of(text: str) -> int:
    """The number that a text says, decimal or hexadecimal, as a word may be written: -2**31 to 2**32 - 1.

    Raises
    ------
    ValueError
        It is none.
    """
    if not re.fullmatch(NUMBER, text):
        raise ValueError(f"{text!r} is no number")
    number = int(text, 16 if "x" in text else 10)
    if not -WORD // 2 <= number < WORD:
        raise ValueError(f"{text} doesn't fit a word")
    return number


def register_of(text: str) -> int:
    """The number of a register, x0 to x31 or by its usual name.

    Raises
    ------
    ValueError
        There is none of this name.
    """
    if text not in REGISTERS:
        raise ValueError(f"{text!r} is no register")
    return REGISTERS[text]


def _small(text: str) -> int:
    number = number_of(text)
    if not -2048 <= number < 2048:
        raise ValueError(f"{text} isn't from -2048 to 2047")
    return number


def _address(text: str) -> Tuple[int, int]:
    found = _ADDRESS.fullmatch(text)
    if found is None:
        raise ValueError(f"{text!r} isn't an address like 0(x5)")
    return register_of(found[2]), _small(found[1] or "0")


def _access(words: List[str]) -> Operands:
    base, offset = _address(words[1])
    return (register_of(words[0]), base), offset, ""


def _reserve(words: List[str]) -> Operands:
    return _without_offset(_access(words))


def _atomic(words: List[str]) -> Operands:
    base, offset = _address(words[2])
    return _without_offset(((register_of(words[0]), register_of(words[1]), base), offset, ""))


def _without_offset(operands: Operands) -> Operands:
    if operands[1] != 0:
        raise ValueError(f"an atomic access has the offset 0, and not {operands[1]}")
    return operands


def _registers(words: List[str]) -> Operands:
    return tuple(map(register_of, words)), 0, ""


def _immediate(words: List[str]) -> Operands:
    return tuple(map(register_of, words[:-1])), _small(words[-1]), ""


def _load_immediate(words: List[str]) -> Operands:
    return (register_of(words[0]),), number_of(words[1]), ""


def _branch(words: List[str]) -> Operands:
    if not _LABEL.fullmatch(words[2]):
        raise ValueError(f"{words[2]!r} is no label")
    return (register_of(words[0]), register_of(words[1])), 0, words[2]


# How many operands each has, and what reads them.
_SHAPES: Dict[str, Tuple[int, Callable[[List[str]], Operands]]] = {
    **dict.fromkeys(("lw", "sw"), (2, _access)),
    "lr.w": (2, _reserve),
    **dict.fromkeys(["sc.w", *(f"amo{name}.w" for name in _AMO.split())], (3, _atomic)),
    **dict.fromkeys(("xor", "or", "add", "and"), (3, _registers)),
    **dict.fromkeys(("xori", "ori", "addi", "andi"), (3, _immediate)),
    **dict.fromkeys(("bne", "beq"), (3, _branch)),
    "li": (2, _load_immediate),
    "mv": (2, _registers),
}


def split_label(text: str) -> Tuple[str, str]:
    """The label at the front of a cell, "" where it has none, and what stands behind it.

    Raises
    ------
    ValueError
        What stands before a colon is no label.
    """
    if ":" not in text:
        return "", text
    label, _, rest = text.partition(":")
    if not _LABEL.fullmatch(label.strip()):
        raise ValueError(f"{label.strip()!r} is no label")
    return label.strip(), rest.strip()


def parse_instruction(text: str, line: int = 1) -> Instruction:
    """The instruction that a cell says; neither empty nor a label.

    Raises
    ------
    ValueError
        It isn't in the subset; the message says what is wrong.
    """
    name, *rest = text.strip().split(None, 1)
    words = [word.strip() for word in rest[0].split(",")] if rest else []
    if name in ("fence", "fence.tso"):
        if len(words) not in (0, 2) or (name != "fence" and words) or not all(word and _FENCE.fullmatch(word) for word in words):
            raise ValueError(f"{text.strip()!r} isn't a fence like fence rw,rw")
        return Instruction(line, "fence")
    ordered = _ORDERED.fullmatch(name)
    count, read = _SHAPES.get(ordered[1] if ordered else name, (0, None))
    if read is None:
        raise ValueError(f"the instruction {name} isn't in the subset")
    if len(words) != count:
        raise ValueError(f"{name} has {count} operands, and not {len(words)}: {text.strip()!r}")
    registers, number, label = read(words)
    return Instruction(line, ordered[1] if ordered else name, registers, number, label)
