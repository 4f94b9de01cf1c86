"""A litmus test in herd's form, read exactly: what isn't in the subset is a `LitmusError` with its line.

    RISCV SB
    { 0:x6=x; 0:x8=y; 1:x6=y; 1:x8=x; }
     P0          | P1          ;
     li x5,1     | li x5,1     ;
     sw x5,0(x6) | sw x5,0(x6) ;
     lw x7,0(x8) | lw x7,0(x8) ;
    exists (0:x7=0 /\\ 1:x7=0)

A comment goes from (* to *). Between the name and the brace may stand a text in quotes and lines like ``Cycle=..``, which are passed over.
"""
from __future__ import annotations

import re
from typing import Dict, List, NamedTuple, NoReturn, Optional, Tuple

from .conditions import LOCATION, locations_of, parse_condition
from .instructions import NAME, number_of, parse_instruction, register_of, split_label
from .model import MOST_THREADS, MOST_VARIABLES, WORD, Condition, Instruction, LitmusError, Location, Register, Test, Thread, Variable, address_of

MOST_BYTES = 2**20
MOST_INSTRUCTIONS = 200
_HEAD = re.compile(r"\s*(\S+)[ \t]+(\S+)[ \t]*\r?(?:\n|$)")
_INFORMATION = re.compile(r'(?:\s*(?:"[^"]*"|[A-Za-z]+=[^\n{]*))*\s*')
_TYPE = r"(?:(?:volatile|const|unsigned|signed|int|u?int32_t)\b\s*\**\s*)*"
_ITEM = re.compile(rf"\s*{_TYPE}({LOCATION})(?:\s*=\s*(\S+))?\s*")
_REGISTER = re.compile(r"([0-9]{1,4})\s*:\s*([a-z0-9]+)")
_BEHIND = re.compile(r"\s*(?:(?:exists|forall|locations|filter|final|not)\b(?!\s*:)|~)")
_LOCATIONS = re.compile(r"\s*locations\s*\[((?:[^\[\]]|\[[^\[\]]*\])*)\]")


class _Part(NamedTuple):
    """A part of the text, and where it begins."""

    place: int
    text: str


def parts_of(text: str, start: int, end: int, mark: str) -> List[_Part]:
    """What stands between marks, the last part included."""
    found, place = [], start
    for part in text[start:end].split(mark):
        found.append(_Part(place, part))
        place += len(part) + len(mark)
    return found


class _Reader:
    """Reads one file."""

    def __init__(self, text: str, file: str) -> None:
        self.file = file
        self.text = text
        self.variables: List[str] = []
        self.registers: Dict[Register, int] = {}
        self.memory: Dict[str, int] = {}
        self.threads: Tuple[Thread, ...] = ()
        self.noted: Dict[Location, int] = {}

    def wrong(self, place: int, why: str) -> LitmusError:
        return LitmusError(self.file, self.text.count("\n", 0, place) + 1, why)

    def fail(self, place: int, why: str) -> NoReturn:
        raise self.wrong(place, why)

    def strip_comments(self) -> None:
        """Comments become blanks; their lines' ends stay."""
        shown, place, depth, opened = [], 0, 0, 0
        for found in re.finditer(r"\(\*|\*\)", self.text):
            between = self.text[place : found.start()]
            shown.append(re.sub(r"[^\n]", " ", between) if depth else between)
            if found[0] == "(*":
                opened, depth = (found.start() if depth == 0 else opened), depth + 1
            elif depth == 0:
                self.fail(found.start(), "a comment ends here that began nowhere")
            else:
                depth -= 1
            shown.append("  ")
            place = found.end()
        if depth:
            self.fail(opened, "this comment doesn't end")
        self.text = "".join(shown) + self.text[place:]

    # Words and places of memory.

    def variable(self, place: int, name: str) -> Variable:
        if name not in self.variables:
            if len(self.variables) == MOST_VARIABLES:
                self.fail(place, f"{name} would be variable {MOST_VARIABLES + 1}, and {MOST_VARIABLES} are the most")
            self.variables.append(name)
        return Variable(name)

    def location(self, place: int, text: str) -> Location:
        found = _REGISTER.fullmatch(text)
        if found is None:
            name = text.strip("[] \t\r\n")
            if not re.fullmatch(NAME, name):
                self.fail(place, f"{text!r} is no location")
            return self.variable(place, name)
        try:
            return Register(int(found[1]), register_of(found[2]))
        except ValueError as error:
            self.fail(place, str(error))

    def seen_location(self, place: int, text: str) -> Location:
        """A location of the condition: it must be there by now."""
        location = self.location(place, text) if ":" in text or text.strip("[]") in self.variables else None
        if location is None:
            self.fail(place, f"no variable has the name {text}")
        if isinstance(location, Register) and location.thread >= len(self.threads):
            self.fail(place, f"there is no thread P{location.thread}")
        return location

    def value(self, place: int, text: str) -> int:
        if re.fullmatch(NAME, text):
            return address_of(self.variables.index(self.variable(place, text).name))
        try:
            return number_of(text) % WORD
        except ValueError as error:
            self.fail(place, str(error))

    def seen_value(self, place: int, text: str) -> int:
        if re.fullmatch(NAME, text) and text not in self.variables:
            self.fail(place, f"no variable has the name {text}")
        return self.value(place, text)

    # The parts of the file, in their order.

    def head(self) -> Tuple[str, int]:
        found = _HEAD.match(self.text)
        if found is None:
            self.fail(self.behind(0), "the first line is RISCV and the test's name")
        if found[1] != "RISCV":
            self.fail(found.start(1), f"a test of {found[1]}; this reads those of RISCV")
        return found[2], found.end()

    def initial(self, start: int) -> int:
        """Reads the initial state; where it ends."""
        opening = self.text.find("{", start)
        if opening < 0:
            self.fail(start, "the initial state is lacking: {..}")
        information = _INFORMATION.match(self.text, start, opening)
        if information is None or information.end() < opening:
            place = information.end() if information else start
            self.fail(place, f"before the initial state stands {self.text[place:].split()[0]!r}")
        closing = self.text.find("}", opening)
        if closing < 0:
            self.fail(opening, "the initial state doesn't end")
        for part in parts_of(self.text, opening + 1, closing, ";"):
            if part.text.strip():
                self.item(part)
        return closing + 1

    def item(self, part: _Part) -> None:
        """Notes an initial value, of a variable or of a register."""
        place = self.start(part)
        found = _ITEM.fullmatch(part.text)
        if found is None:
            self.fail(place, f"{part.text.strip()!r} isn't in the subset of initial states")
        location = self.location(place, found[1])
        if location in self.noted:
            self.fail(place, f"{location} has an initial value already")
        self.noted[location] = place
        word = 0 if found[2] is None else self.value(place, found[2])
        if isinstance(location, Variable):
            self.memory[location.name] = word
        elif location.number == 0 and word != 0:
            self.fail(place, "x0 is always 0")
        else:
            self.registers[location] = word

    def table(self, start: int) -> int:
        """Reads the threads; where they end."""
        cells: List[List[_Part]] = []
        place = start
        while not _BEHIND.match(self.text, place):
            end = self.text.find(";", place)
            row = parts_of(self.text, place, end if end >= 0 else len(self.text), "|")
            if end < 0:
                self.fail(self.behind(place), "a row that ends with ;, or the condition, is due")
            if cells and len(row) != len(cells[0]):
                self.fail(self.behind(place), f"this row has {len(row)} cells, and there are {len(cells[0])} threads")
            cells.append(row)
            place = end + 1
        if not cells:
            self.fail(self.behind(place), "the table of threads is lacking")
        for number, cell in enumerate(cells[0]):
            if cell.text.strip() != f"P{number}":
                self.fail(self.start(cell), f"the head of a column is P{number}, and not {cell.text.strip()!r}")
        if len(cells[0]) > MOST_THREADS:
            self.fail(self.start(cells[0][0]), f"{len(cells[0])} threads are more than {MOST_THREADS}")
        self.threads = tuple(self.thread([row[number] for row in cells[1:]]) for number in range(len(cells[0])))
        return place

    def behind(self, place: int) -> int:
        """Where the next word begins; at the end of the text, where the last one ends."""
        return len(self.text) - len(self.text[place:].lstrip()) if self.text[place:].strip() else len(self.text.rstrip())

    def start(self, part: _Part) -> int:
        """Where a part's first word begins."""
        return part.place + len(part.text) - len(part.text.lstrip())

    def thread(self, column: List[_Part]) -> Thread:
        """The thread whose cells stand below one another: its instructions, and where its labels lead."""
        instructions: List[Instruction] = []
        labels: Dict[str, int] = {}
        places: List[int] = []
        for cell in column:
            place = self.start(cell)
            try:
                label, rest = split_label(cell.text.strip())
                if label in labels:
                    self.fail(place, f"the label {label} stands twice in this thread")
                if label:
                    labels[label] = len(instructions)
                if rest:
                    instructions.append(parse_instruction(rest, self.text.count("\n", 0, place) + 1))
                    places.append(place)
            except LitmusError:
                raise
            except ValueError as error:
                self.fail(place, str(error))
        if len(instructions) > MOST_INSTRUCTIONS:
            self.fail(places[MOST_INSTRUCTIONS], f"a thread has at most {MOST_INSTRUCTIONS} instructions")
        for instruction, place in zip(instructions, places):
            if instruction.label and instruction.label not in labels:
                self.fail(place, f"this thread has no label {instruction.label}")
        return Thread(tuple(instructions), labels)

    def locations(self, start: int) -> Tuple[Tuple[Location, ...], int]:
        """What the file asks to show besides the condition's locations; where that ends."""
        found = _LOCATIONS.match(self.text, start)
        if found is None:
            return (), start
        shown = []
        for part in parts_of(self.text, found.start(1), found.end(1), ";"):
            if part.text.strip():
                if not re.fullmatch(LOCATION, part.text.strip()):
                    self.fail(self.start(part), f"{part.text.strip()!r} is no location")
                shown.append(self.seen_location(self.start(part), part.text.strip()))
        return tuple(shown), found.end()

    def whole(self) -> Test:
        self.strip_comments()
        name, place = self.head()
        place = self.table(self.initial(place))
        for location, where in self.noted.items():
            if isinstance(location, Register) and location.thread >= len(self.threads):
                self.fail(where, f"there is no thread P{location.thread}")
        shown, place = self.locations(place)
        condition = parse_condition(self.text, place, self.seen_location, self.seen_value, self.wrong)
        return Test(
            name, self.threads, tuple(self.variables), self.registers, self.memory, self.observed(shown, condition), condition
        )

    def observed(self, shown: Tuple[Location, ...], condition: Condition) -> Tuple[Location, ...]:
        every = {*shown, *locations_of(condition.formula)}
        registers = sorted(location for location in every if isinstance(location, Register))
        return (*registers, *sorted(location for location in every if isinstance(location, Variable)))


def parse_litmus(text: str, file: str = "litmus") -> Test:
    """The test that a text in herd's form says.

    Parameters
    ----------
    text : str
        The file's content.
    file : str
        Its name, for refusals.

    Raises
    ------
    LitmusError
        It isn't in the subset.
    """
    return _Reader(text, file).whole()


def read_litmus(file: str) -> Test:
    """The test of a file, at most 1 MiB.

    Raises
    ------
    LitmusError
        It isn't in the subset, or can't be read.
    """
    content = _content(file)
    try:
        text = content.decode("utf-8")
    except UnicodeDecodeError as error:
        raise LitmusError(file, content.count(b"\n", 0, error.start) + 1, "a byte that isn't UTF-8") from None
    return parse_litmus(text, file)


def _content(file: str) -> bytes:
    why: Optional[str] = None
    try:
        with open(file, "rb") as opened:
            content = opened.read(MOST_BYTES + 1)
    except (OSError, ValueError) as error:
        why = (error.strerror if isinstance(error, OSError) else None) or str(error)
    if why is not None:
        raise LitmusError(file, 0, why)
    if len(content) > MOST_BYTES:
        raise LitmusError(file, 0, f"more than {MOST_BYTES} bytes")
    return content
