"""A core's step for the comparison of the machine's definitions: RV32I and A, written from the manual.

The definitions of the core's step are compared with other programs elsewhere; here they are left out, so that the machine's
definitions are evaluated alone.
"""
from typing import Any, Dict, Optional

from translation import Con, Rec

MASK = 0xFFFFFFFF
RAM, RAM_END = 0x80000000, 0x80400000


def signed(x: int, bits: int = 32) -> int:
    """So many bits as a number with a sign."""
    return x - (1 << bits) if x >> (bits - 1) & 1 else x


def word_at(image: Rec, pc: int) -> Optional[int]:
    """The word of code that stands there, or none where one of its bytes is no code."""
    byte: Dict[int, int] = {}
    for segment in image["segments"]:
        if segment["exec"]:
            for k in range(4):
                if segment["start"] <= pc + k < segment["start"] + segment["size"]:
                    place = pc + k - segment["start"]
                    byte[k] = segment["bytes"][place] if place < len(segment["bytes"]) else 0
    return sum(byte[k] << (8 * k) for k in range(4)) if len(byte) == 4 else None


def may_write(image: Rec, address: int, width: int) -> bool:
    """Whether so many bytes are memory, and none of them stands in a segment that is only read."""
    inside = RAM <= address and address + width <= RAM_END
    return inside and not any(not s["write"] and s["start"] < address + width and address < s["start"] + s["size"] for s in image["segments"])


def immediates(w: int) -> Dict[str, int]:
    """The word's immediate in each of the forms."""
    return {
        "i": signed(w >> 20, 12), "s": signed((w >> 25) << 5 | (w >> 7 & 31), 12), "u": w & 0xFFFFF000,
        "b": signed((w >> 31) << 12 | (w >> 7 & 1) << 11 | (w >> 25 & 63) << 5 | (w >> 8 & 15) << 1, 13),
        "j": signed((w >> 31) << 20 | (w >> 12 & 255) << 12 | (w >> 20 & 1) << 11 | (w >> 21 & 1023) << 1, 21),
    }


class Instruction:
    """What the word at a core's pc asks for: a trap, an access (kind, address, width), or nothing from outside."""

    def __init__(self, image: Rec, core: Rec) -> None:
        self.trap: Optional[str] = None
        self.kind: Optional[str] = None
        self.core, self.address, self.width = core, 0, 4
        word = word_at(image, core["pc"])
        if word is None:
            self.trap = "FetchFault"
            return
        w = self.word = word
        self.op, self.f3, self.f7 = w & 127, w >> 12 & 7, w >> 25
        self.rd, self.rs1, self.rs2 = w >> 7 & 31, w >> 15 & 31, w >> 20 & 31
        self.a, self.b, self.imm = self.reg(self.rs1), self.reg(self.rs2), immediates(w)
        self.find(image)

    def reg(self, n: int) -> int:
        return int(self.core["x"][n]) if n else 0

    def find(self, image: Rec) -> None:
        """Finds the trap or the access of the word."""
        op, f3, f7, w = self.op, self.f3, self.f7, self.word
        legal = {
            0x37: True, 0x17: True, 0x6F: True, 0x67: f3 == 0, 0x63: f3 not in (2, 3), 0x03: f3 in (0, 1, 2, 4, 5), 0x23: f3 in (0, 1, 2),
            0x13: f3 not in (1, 5) or f7 == 0 or (f3 == 5 and f7 == 32), 0x33: f7 == 0 or (f7 == 32 and f3 in (0, 5)), 0x0F: f3 == 0,
            0x73: w in (0x73, 0x100073),
            0x2F: f3 == 2 and (w >> 27 in (0, 1, 3, 4, 8, 12, 16, 20, 24, 28) or (w >> 27 == 2 and self.rs2 == 0)),
        }.get(op, False)
        if not legal:
            self.trap = "Illegal"
        elif w == 0x100073:
            self.trap = "Break"
        elif op == 0x03:
            self.access(image, "Load", self.a + self.imm["i"], 1 << (f3 & 3), False)
        elif op == 0x23:
            self.access(image, "Store", self.a + self.imm["s"], 1 << f3, True)
        elif op == 0x2F:
            kind = {2: "Lr", 3: "Sc"}.get(w >> 27, "Amo")
            self.access(image, kind, self.a, 4, kind != "Lr")
        elif op == 0x73:
            call = self.reg(17)
            if call == 2:
                self.kind = "Input"
            elif call not in (1, 93):
                self.trap = "UnknownCall"

    def access(self, image: Rec, kind: str, address: int, width: int, writes: bool) -> None:
        """The access, or the trap that it has."""
        address &= MASK
        if address % width:
            self.trap = "MisalignedAccess"
        elif not RAM <= address < RAM_END or (writes and not may_write(image, address, width)):
            self.trap = "AccessFault"
        else:
            self.kind, self.address, self.width = kind, address, width

    def want(self) -> Con:
        """What the core waits for, as the definitions say it."""
        if self.trap or self.kind is None:
            return Con(("Want.Nothing",))
        return Con(("Want.Input",)) if self.kind == "Input" else Con((f"Want.{self.kind}", self.address))


def arithmetic(f3: int, alternative: bool, a: int, b: int) -> int:
    """The operation of two registers, or of one and an immediate."""
    shift = b & 31
    return {
        0: a - b if alternative else a + b, 1: a << shift, 2: int(signed(a) < signed(b)), 3: int(a < b), 4: a ^ b,
        5: signed(a) >> shift if alternative else a >> shift, 6: a | b, 7: a & b,
    }[f3] & MASK


def atomic(code: int, old: int, b: int) -> int:
    """What an atomic operation leaves where `old` stood."""
    return {
        1: b, 0: old + b, 4: old ^ b, 12: old & b, 8: old | b, 16: min(signed(old), signed(b)), 20: max(signed(old), signed(b)),
        24: min(old, b), 28: max(old, b),
    }[code] & MASK


def loaded(seen: int, address: int, width: int, f3: int) -> int:
    """What a load brings, of the word that is seen."""
    value = seen >> (8 * (address % 4)) & ((1 << (8 * width)) - 1)
    return value if f3 & 4 else signed(value, 8 * width) & MASK


class Change:
    """The core and the effect while an instruction is done."""

    def __init__(self, core: Rec) -> None:
        self.core: Dict[str, Any] = dict(core)
        self.x = list(core["x"])
        self.write, self.out = Con(("None",)), Con(("None",))

    def put(self, rd: int, value: int) -> None:
        """Puts a value into a register, of which the first is always 0."""
        if rd:
            self.x[rd] = value & MASK

    def go(self, target: int) -> None:
        self.core["pc"] = target & MASK

    def trap(self, cause: str) -> None:
        self.core["end"] = Con(("End.Trapped", Con((f"Cause.{cause}",))))

    def next(self) -> Rec:
        """The core afterwards, and its effect."""
        return Rec(core=Rec({**self.core, "x": tuple(self.x)}), effect=Rec(write=self.write, out=self.out))

    def write_word(self, address: int, width: int, value: int) -> None:
        names = {1: "Byte", 2: "Half", 4: "Word"}
        self.write = Con(("Some", Rec(address=address, width=Con((f"Width.{names[width]}",)), value=value & MASK)))


def jump(change: Change, i: Instruction, target: int, link: bool) -> None:
    """Goes there, and with `link` keeps where it came from."""
    if target % 4:
        change.trap("MisalignedTarget")
        return
    if link:
        change.put(i.rd, i.core["pc"] + 4)
    change.go(target)


def taken(f3: int, a: int, b: int) -> bool:
    """Whether a branch is taken."""
    return {0: a == b, 1: a != b, 4: signed(a) < signed(b), 5: signed(a) >= signed(b), 6: a < b, 7: a >= b}[f3]


def call(change: Change, i: Instruction, read: Con) -> None:
    """An exit, a byte put out, or a byte of input, which is what was read."""
    number = i.reg(17)
    if number == 93:
        change.core["end"] = Con(("End.Exited", i.reg(10)))
        return
    if number == 1:
        change.out = Con(("Some", i.reg(10) & 255))
    else:
        change.put(10, read[1])
    change.go(i.core["pc"] + 4)


def access(change: Change, i: Instruction, seen: int, done: bool) -> None:
    """An access of the word that is seen; a store-conditional may be done."""
    change.go(i.core["pc"] + 4)
    block = (i.address - RAM) // 64
    if i.kind == "Load":
        change.put(i.rd, loaded(seen, i.address, i.width, i.f3))
    elif i.kind == "Store":
        change.write_word(i.address, i.width, i.b & ((1 << (8 * i.width)) - 1) if i.width < 4 else i.b)
    elif i.kind == "Lr":
        change.put(i.rd, seen)
        change.core["reservation"] = Con(("Some", block))
    elif i.kind == "Sc":
        if done:
            change.write_word(i.address, 4, i.b)
        change.put(i.rd, 0 if done else 1)
        change.core["reservation"] = Con(("None",))
    else:
        change.put(i.rd, seen)
        change.write_word(i.address, 4, atomic(i.word >> 27, seen, i.b))


def want_of(image: Rec, core: Rec) -> Con:
    return Instruction(image, core).want()


def next_of(image: Rec, core: Rec, seen: int, done: bool, read: Con) -> Rec:
    """The core after its instruction, with what it saw and read."""
    i, change, pc = Instruction(image, core), Change(core), core["pc"]
    if i.trap:
        change.trap(i.trap)
    elif i.op == 0x73:
        call(change, i, read)
    elif i.kind:
        access(change, i, seen, done)
    elif i.op in (0x6F, 0x67):
        jump(change, i, (pc + i.imm["j"] if i.op == 0x6F else (i.a + i.imm["i"]) & ~1) & MASK, True)
    elif i.op == 0x63:
        if taken(i.f3, i.a, i.b):
            jump(change, i, (pc + i.imm["b"]) & MASK, False)
        else:
            change.go(pc + 4)
    else:
        value = {0x37: i.imm["u"], 0x17: pc + i.imm["u"]}.get(i.op)
        if i.op == 0x13:
            value = arithmetic(i.f3, i.f3 == 5 and i.f7 == 32, i.a, i.rs2 if i.f3 in (1, 5) else i.imm["i"] & MASK)
        elif i.op == 0x33:
            value = arithmetic(i.f3, i.f7 == 32, i.a, i.b)
        if value is not None:
            change.put(i.rd, value)
        change.go(pc + 4)
    return change.next()
