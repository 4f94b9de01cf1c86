"""The final states that a litmus test has on one plain memory: its threads' instructions in every order.

It shares nothing with the package but the test as it was read. A reservation is lost by another thread's write to its block, and a store-conditional
may fail though its reservation stands, as the architecture allows.
"""
from __future__ import annotations

from typing import Callable, Dict, Iterator, List, NamedTuple, Optional, Set, Tuple

from safetynet.litmus.model import DATA, Instruction, Register, State, Test

MASK = 0xFFFFFFFF
BLOCK = 64


class Hart(NamedTuple):
    """A thread as it stands: the place of its next instruction, its registers, and the block that it has reserved."""

    place: int
    registers: Tuple[int, ...]
    reserved: Optional[int]

    def going_on(self, register: int = 0, word: int = 0) -> "Hart":
        """Behind its instruction, with a word in a register."""
        registers = self.registers
        if register:
            registers = (*registers[:register], word & MASK, *registers[register + 1 :])
        return Hart(self.place + 1, registers, self.reserved)


Memory = Tuple[Tuple[int, int], ...]
Whole = Tuple[Tuple[Hart, ...], Memory]


def signed(word: int) -> int:
    return (word ^ 0x80000000) - 0x80000000


OPERATIONS: Dict[str, Callable[[int, int], int]] = {
    "swap": lambda old, new: new,
    "add": lambda old, new: old + new,
    "xor": lambda old, new: old ^ new,
    "and": lambda old, new: old & new,
    "or": lambda old, new: old | new,
    "min": lambda old, new: min(signed(old), signed(new)),
    "max": lambda old, new: max(signed(old), signed(new)),
    "minu": min,
    "maxu": max,
}
LOCAL = {f"{name}{kind}": OPERATIONS[name] for name in ("xor", "or", "add", "and") for kind in ("", "i")}


def local_step(test: Test, number: int, hart: Hart) -> Optional[Hart]:
    """What a thread's next instruction does where it touches no memory; None where it does, or the thread has ended."""
    thread = test.threads[number]
    if hart.place == len(thread.instructions):
        return None
    instruction = thread.instructions[hart.place]
    held = [hart.registers[register] for register in instruction.registers]
    name = instruction.name
    if name == "fence":
        return hart.going_on()
    if name == "li":
        return hart.going_on(instruction.registers[0], instruction.number)
    if name == "mv":
        return hart.going_on(instruction.registers[0], held[1])
    if name in ("beq", "bne"):
        is_taken = (held[0] == held[1]) == (name == "beq")
        return hart._replace(place=thread.labels[instruction.label] if is_taken else hart.place + 1)
    if name in LOCAL:
        second = instruction.number & MASK if name.endswith("i") else held[2]
        return hart.going_on(instruction.registers[0], LOCAL[name](held[1], second))
    return None


def accesses(instruction: Instruction, hart: Hart, memory: Dict[int, int]) -> Iterator[Tuple[Hart, Optional[Tuple[int, int]]]]:
    """What an access may do: the thread behind it, and the word that it writes."""
    name, registers = instruction.name, instruction.registers
    held = [hart.registers[register] for register in registers]
    address = (held[-1] + instruction.number) & MASK
    old = memory.get(address, 0)
    after = hart.going_on(registers[0], old)
    if name == "lw":
        yield after, None
    elif name == "sw":
        yield hart.going_on(), (address, held[0])
    elif name == "lr.w":
        yield after._replace(reserved=address // BLOCK), None
    elif name == "sc.w":
        yield hart.going_on(registers[0], 1)._replace(reserved=None), None
        if hart.reserved == address // BLOCK:
            yield hart.going_on(registers[0], 0)._replace(reserved=None), (address, held[1])
    else:
        yield after, (address, OPERATIONS[name[3:-2]](old, held[1]) & MASK)


def written(harts: List[Hart], number: int, memory: Dict[int, int], write: Optional[Tuple[int, int]]) -> Tuple[List[Hart], Memory]:
    """The threads and the memory after a thread's write: the others lose what they reserved of its block."""
    if write is None:
        return harts, tuple(sorted(memory.items()))
    address, word = write
    harts = [
        hart._replace(reserved=None) if other != number and hart.reserved == address // BLOCK else hart for other, hart in enumerate(harts)
    ]
    return harts, tuple(sorted({**memory, address: word}.items()))


def following(test: Test, whole: Whole) -> Iterator[Whole]:
    """What may come next. An instruction that touches no memory is done first: no other thread sees when."""
    harts, memory = whole
    for number, hart in enumerate(harts):
        local = local_step(test, number, hart)
        if local is not None:
            yield (*harts[:number], local, *harts[number + 1 :]), memory
            return
    for number, hart in enumerate(harts):
        instructions = test.threads[number].instructions
        if hart.place < len(instructions):
            for after, write in accesses(instructions[hart.place], hart, dict(memory)):
                others, then = written([*harts[:number], after, *harts[number + 1 :]], number, dict(memory), write)
                yield tuple(others), then


def final_state(test: Test, whole: Whole) -> State:
    harts, memory = whole
    words, held = [], dict(memory)
    for location in test.observed:
        if isinstance(location, Register):
            words.append(harts[location.thread].registers[location.number])
        else:
            words.append(held.get(test.addresses[location.name], 0))
    return tuple(words)


def sequential_states(test: Test) -> Set[State]:
    """Every final state of a test on one memory."""
    harts = []
    for number in range(len(test.threads)):
        registers = [test.registers.get(Register(number, register), 0) for register in range(32)]
        harts.append(Hart(0, tuple(registers), None))
    assert all(address >= DATA for address in test.addresses.values())
    first: Whole = (tuple(harts), tuple(sorted((test.addresses[name], word) for name, word in test.memory.items())))
    seen, left, found = {first}, [first], set()
    while left:
        whole = left.pop()
        if all(hart.place == len(thread.instructions) for hart, thread in zip(whole[0], test.threads)):
            found.add(final_state(test, whole))
        for after in following(test, whole):
            if after not in seen:
                seen.add(after)
                left.append(after)
    return found
