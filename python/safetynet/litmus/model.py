"""What a litmus test is: threads of instructions, an initial state, and a condition on the final one.

Words have 32 bits and are numbers from 0 to 2**32 - 1 here; they are printed with their sign.
"""
from __future__ import annotations

from dataclasses import dataclass
from typing import Dict, List, Mapping, NamedTuple, Tuple, Union

WORD = 2**32
MOST_THREADS = 16
MOST_VARIABLES = 32
# Code is below it; each variable has a block of its own from there on, so that homes are spread over the nodes.
DATA = 0x80010000
BLOCK = 64


class LitmusError(ValueError):
    """A litmus test that isn't in the subset; ``str`` is ``FILE:LINE: WHY``.

    Attributes
    ----------
    file : str
        The file's name as it was given.
    line : int
        The line, from 1; 0 where it is about the file as a whole.
    why : str
        What is wrong.
    """

    def __init__(self, file: str, line: int, why: str) -> None:
        super().__init__(f"{file}:{line}: {why}" if line else f"{file}: {why}")
        self.file = file
        self.line = line
        self.why = why


class Register(NamedTuple):
    """A register of a thread."""

    thread: int
    number: int

    def __str__(self) -> str:
        return f"{self.thread}:x{self.number}"


class Variable(NamedTuple):
    """A word of memory with a name."""

    name: str

    def __str__(self) -> str:
        return self.name


Location = Union[Register, Variable]
# A final state: the word of each location that the condition names, in the order of `Test.observed`.
State = Tuple[int, ...]


@dataclass(frozen=True)
class Instruction:
    """One instruction of a thread.

    Attributes
    ----------
    line : int
        The line of the file that it stands on.
    name : str
        Its mnemonic without acquire and release, as ``"amoadd.w"``.
    registers : tuple of int
        Its registers in the order of the text; of ``sw x5,0(x6)`` they are 5 and 6.
    number : int
        Its immediate, or its offset.
    label : str
        Where a branch goes.
    """

    line: int
    name: str
    registers: Tuple[int, ...] = ()
    number: int = 0
    label: str = ""


@dataclass(frozen=True)
class Thread:
    """The instructions of a thread, and its labels with the place of the instruction behind each."""

    instructions: Tuple[Instruction, ...]
    labels: Mapping[str, int]


@dataclass(frozen=True)
class Equal:
    """A location has a word."""

    location: Location
    word: int
    text: str

    def holds(self, state: Mapping[Location, int]) -> bool:
        return state[self.location] == self.word

    def __str__(self) -> str:
        return f"{self.location}={self.text}"


@dataclass(frozen=True)
class Constant:
    """``true`` or ``false``."""

    value: bool

    def holds(self, state: Mapping[Location, int]) -> bool:
        return self.value

    def __str__(self) -> str:
        return "true" if self.value else "false"


@dataclass(frozen=True)
class Not:
    """The part doesn't hold."""

    part: "Formula"

    def holds(self, state: Mapping[Location, int]) -> bool:
        return not self.part.holds(state)

    def __str__(self) -> str:
        return f"~({self.part})"


@dataclass(frozen=True)
class All:
    """Each part holds."""

    parts: Tuple["Formula", ...]

    def holds(self, state: Mapping[Location, int]) -> bool:
        return all(part.holds(state) for part in self.parts)

    def __str__(self) -> str:
        return " /\\ ".join(f"({part})" if isinstance(part, Some) else str(part) for part in self.parts)


@dataclass(frozen=True)
class Some:
    """One part holds at least."""

    parts: Tuple["Formula", ...]

    def holds(self, state: Mapping[Location, int]) -> bool:
        return any(part.holds(state) for part in self.parts)

    def __str__(self) -> str:
        return " \\/ ".join(map(str, self.parts))


Formula = Union[Equal, Constant, Not, All, Some]


@dataclass(frozen=True)
class Condition:
    """What a test asks of its final states.

    Attributes
    ----------
    quantifier : str
        ``"exists"``, ``"~exists"`` or ``"forall"``.
    formula : Formula
        What it says of one state.
    """

    quantifier: str
    formula: Formula

    def __str__(self) -> str:
        return f"{self.quantifier} ({self.formula})"


@dataclass(frozen=True)
class Test:
    """A litmus test.

    Attributes
    ----------
    name : str
        Its name, from its first line.
    threads : tuple of Thread
        The instructions of each thread.
    variables : tuple of str
        The names of its words of memory, in the order in which the file has them.
    registers : mapping from Register to int
        The registers that aren't 0 at the start.
    memory : mapping from str to int
        The variables that aren't 0 at the start.
    observed : tuple of Location
        What a final state shows: registers, then variables.
    condition : Condition
        What is asked of the final states.
    """

    name: str
    threads: Tuple[Thread, ...]
    variables: Tuple[str, ...]
    registers: Mapping[Register, int]
    memory: Mapping[str, int]
    observed: Tuple[Location, ...]
    condition: Condition

    # pytest looks for classes with such a name
    __test__ = False

    @property
    def addresses(self) -> Dict[str, int]:
        """The address of each variable."""
        return {name: address_of(place) for place, name in enumerate(self.variables)}

    def holds(self, state: State) -> bool:
        """Whether the condition's formula is true of a final state."""
        return self.condition.formula.holds(dict(zip(self.observed, state)))

    def state_text(self, state: State) -> str:
        """A final state as the log has it: ``0:x5=0; x=1;``. A word that is a variable's address has its name."""
        names = {address: name for name, address in self.addresses.items()}
        shown: List[str] = []
        for location, word in zip(self.observed, state):
            shown.append(f"{location}={names.get(word, signed(word))};")
        return " ".join(shown)


def address_of(place: int) -> int:
    """The address of the variable with a place, from 0."""
    return DATA + BLOCK * place


def signed(word: int) -> int:
    """A word as a number with its sign."""
    return word - WORD if word >= WORD // 2 else word
