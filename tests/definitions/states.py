#!/usr/bin/env python3
"""Evaluates the definitions of `replay --states`, as they stand, and folds what they or a program say.

    tests/definitions/states.py [COUNT] [SEED]
    tests/definitions/states.py show PLACE
    tests/definitions/states.py fold PLACE
    tests/definitions/states.py program PROGRAM [COUNT] [SEED] [FILE]

Each line of a script's states is the definitions'. It is parsed as JSON and, where Python's jsonschema is there, held against
docs/states.schema.json. From the first line's state on, a fold (tests/folded_states.py) puts the parts of each event's line in the place of
those that they name; after each event the folded state must be the one that the definitions tell whole. Scripts are those of schedules.py and
random ones (scripts.py). The second form prints the lines of a schedule, by its place from 0, and the third folds those of one. The fourth folds
PROGRAM's `replay --states` of random scripts: each of its lines must be the definitions', and each folded state the one that they tell whole. What
`dis` writes of a word, and the probes' numbers, the definitions leave to the program. It prints a line that counts what was compared, and puts it
into FILE too (bench/results/comparisons.txt), in the place of what stood there for the same command.
"""
import json
import subprocess
import sys
import tempfile
import time
from pathlib import Path
from typing import Any, Dict, Iterable, Iterator, List, Optional, Tuple

import instructions
import schedules
from compare import BLOCKS, PROGRAMS, Machine, Shape, event_of, event_text
from evaluate import World, in_deep_stack, repository
from scripts import Case, cases, events_of
from translation import Con, Rec

sys.path.append(str(Path(__file__).resolve().parent.parent))
from folded_states import State, folded  # noqa: E402  (after the line above: it stands with the tests of the program)

CRATES = ["sn_base", "sn_msg", "rv_core", "log_buffer", "route_plan", "sn_model", "text_lines", "sn_text", "state_parts", "state_json"]
WATCH = 0x80001000
# Lines up to this length are held against the schema, which takes a second for one of some hundred messages.
CHECKED = 20_000
Line = Tuple[str, Optional[State]]


def load_definitions() -> World:
    """The definitions of the machine and of its states' lines, with what is evaluated once for each argument."""
    world = World(repository(), CRATES)
    world.modules["sn_model", "Caches"].override("block_count", BLOCKS)
    # Distances are recursions that branch at each switch; they, and the texts of parts, are evaluated once for each argument.
    world.modules["route_plan", "Grid"].remember("row_count", "column_count", "is_linked", for_good=True)
    world.modules["route_plan", "Distances"].remember("comes", "distance", depth=2, for_good=True)
    world.modules["route_plan", "Routes"].remember("next_of", "enter_of", "first_cut_off", depth=2, for_good=True)
    world.modules["sn_model", "Fabric"].remember("initial_block")
    world.modules["state_json", "Json"].remember("content_text", depth=1)
    world.modules["state_json", "Parts"].remember("node_text", depth=2)
    world.modules["state_json", "Parts"].remember("is_as_at_start", "other_home_text", "net_text")
    world.modules["state_json", "Messages"].remember("flight_text")
    steps = world.modules["sn_model", "Instructions"]
    steps.override("want_of", instructions.want_of, 2)
    steps.override("next_of", instructions.next_of, 5)
    world.modules["state_json", "Details"].override("word_text", lambda word: f".word 0x{word:08x}".encode(), 1)
    return world


def validator() -> Any:
    try:
        import jsonschema
    except ImportError:
        return None
    schema = json.loads((repository() / "docs" / "states.schema.json").read_text())
    return jsonschema.Draft7Validator(schema)


class Shown:
    """A machine by its definitions, with the lines of its states."""

    def __init__(self, world: World, machine: Machine) -> None:
        self.world, self.machine = world, machine
        world.forget()
        lines = world.modules["state_json", "Lines"]
        lines.override("end_of", lambda image, nodes, committed: Rec(memory=()), 3)
        lines.override("core_at", lambda flat, n: self.core_at(n), 2)
        lines.override("word_at", lambda memory, address: self.word_at(), 2)

    def get(self, file: str, name: str) -> Any:
        """A definition of the lines."""
        return self.world.get("state_json", file, name)

    def core_at(self, n: int) -> Rec:
        s = self.machine.state
        node, processor = s["fabric"]["nodes"][n], s["processors"][n]
        core: Rec = self.machine.get("MachineEvents", "checkpoint_of")(processor)(node["known"])(s["fabric"]["point"])
        return core

    def word_at(self) -> int:
        return int(self.machine.cut_lines()[-1].split()[2], 16)

    @staticmethod
    def text(codes: Any) -> str:
        return bytes(codes).decode("ascii")

    def state(self) -> str:
        """The whole state, as the definitions tell it."""
        return self.text(self.get("Parts", "state_text")(self.machine.image)(self.machine.state))

    def first(self, events: int) -> str:
        machine = self.machine
        return self.text(self.get("Lines", "first_line")(machine.image)(machine.config)(events)(machine.state))

    def event(self, place: int, event: Con) -> str:
        machine, before = self.machine, self.machine.state
        step = machine.get("Step", "step_of")(machine.image)(machine.config)(before)(event)
        line = self.get("Lines", "state_line")(machine.image)(place)(before)(event)(step)
        machine.state = step["state"]
        return self.text(line)

    def last(self, events: int) -> str:
        machine = self.machine
        watch = Con(("Some", machine.watch))
        return self.text(self.get("Lines", "last_line")(machine.image)(machine.config)(watch)(((1, 2), ()))(events)(machine.state))


def lines_of(shown: Shown, events: Iterable[Con]) -> Iterator[Line]:
    """The lines, and the state that the definitions tell whole before the first event and after each."""
    yield shown.first(0), json.loads(shown.state())
    number = 0
    for number, event in enumerate(events, 1):
        yield shown.event(number, event), json.loads(shown.state())
    yield shown.last(number), None


class Counts:
    """What was compared."""

    def __init__(self) -> None:
        self.scripts, self.events, self.nodes = 0, 0, set()  # type: int, int, set[int]
        self.kinds: Dict[str, int] = {}
        self.answers: Dict[str, int] = {}
        self.begun = time.process_time()

    def script(self, nodes: int) -> None:
        self.scripts += 1
        self.nodes.add(nodes)

    def line(self, value: Dict[str, Any]) -> None:
        for name in ("step", "unready", "recovery", "parts", "state"):
            self.kinds[name] = self.kinds.get(name, 0) + (name in value)
        if "event" in value:
            self.events += 1
            for names, name in ((self.kinds, value["event"].split()[0]), (self.answers, value["answer"].split()[0])):
                names[name] = names.get(name, 0) + 1

    def text(self) -> str:
        counted = [" ".join(f"{name}={number}" for name, number in sorted(names.items())) for names in (self.kinds, self.answers)]
        return f"{self.scripts} scripts of {min(self.nodes)} to {max(self.nodes)} nodes, no difference; {self.events} events; {counted[0]}; answers: {counted[1]}"


def parsed(line: str, number: int) -> Dict[str, Any]:
    if not line.endswith("\n") or "\n" in line[:-1]:
        raise ValueError(f"line {number} isn't one line")
    value: Dict[str, Any] = json.loads(line)
    return value


def follow(lines: Iterable[Line], schema: Any, counts: Counts) -> Optional[str]:
    """What is wrong with lines whose states are known, if anything."""
    state: State = {}
    for number, (line, whole) in enumerate(lines):
        value = parsed(line, number)
        error = next(schema.iter_errors(value), None) if schema and len(line) < CHECKED else None
        if error:
            return f"line {number}: {error.message[:300]} at {list(error.path)}"
        state = value["state"] if number == 0 else folded(state, value)
        if whole is not None and state != whole:
            return f"line {number}: the folded state isn't the machine's: {line}"
        counts.line(value)
    return None


def machine_of(world: World, program: str, shape: Shape) -> Machine:
    return Machine(world, PROGRAMS[program], *shape, WATCH)


def judged(name: str, program: str, shape: Shape, fault: Optional[str]) -> bool:
    if fault:
        print(f"{name}: {fault}\nprogram: {program}\nshape: {shape}")
    return fault is None


def compare(count: int, seed: str) -> int:
    """The definitions by themselves: worked schedules and random scripts."""
    world, schema, counts = load_definitions(), validator(), Counts()
    for name, (program, shape, script) in schedules.SCHEDULES.items():
        machine = machine_of(world, program, shape)
        if not judged(name, program, shape, follow(lines_of(Shown(world, machine), map(event_of, script)), schema, counts)):
            return 1
        counts.script(shape[0])
    for case in cases(count, seed):
        machine = machine_of(world, case.program, case.shape)
        if not judged(case.name, case.program, case.shape, follow(lines_of(Shown(world, machine), events_of(case, machine)), schema, counts)):
            return 1
        counts.script(case.shape[0])
    print(counts.text() + ("" if schema else "; no jsonschema"))
    return 0


class NotDone(Exception):
    """The program gave another status than 0."""


class Program:
    """The program, asked for the states of scripts, and for its words of instructions."""

    def __init__(self, name: str, folder: Path) -> None:
        self.name, self.hex, self.script = name, folder / "program.hex", folder / "events.script"
        self.known: Dict[str, Dict[str, str]] = {}

    def asked(self, *words: str) -> "subprocess.CompletedProcess[bytes]":
        ran = subprocess.run([self.name, *words], capture_output=True, check=False)
        if ran.returncode != 0:
            raise NotDone(f"status {ran.returncode} of {' '.join(words)}: {ran.stderr.decode(errors='replace')[-300:]}")
        return ran

    def instructions(self, words: str) -> Dict[str, str]:
        """The text that `dis` writes of each word, by the text that stands for it here."""
        if words not in self.known:
            self.hex.write_text("\n".join(words.split()) + "\n")
            lines = self.asked("dis", str(self.hex)).stdout.decode().splitlines()
            texts = [line for line in lines if not line.startswith("#")]
            self.known[words] = {f".word 0x{word}": text for word, text in zip(words.split(), texts)}
        return self.known[words]

    def lines(self, words: str, script: List[str], sizes: Dict[str, int]) -> List[str]:
        """The lines of a script's states."""
        self.hex.write_text("\n".join(words.split()) + "\n")
        self.script.write_text("\n".join(script) + "\n")
        options = [f"--{name}={sizes[name]}" for name in ("nodes", "sets", "ways", "log")]
        report = self.asked("replay", "--states", *options, f"--watch={WATCH:08x}", str(self.hex), str(self.script)).stderr
        return [line for line in report.decode("ascii").splitlines(keepends=True) if not line.startswith("#")]


def as_program(due: str, texts: Dict[str, str]) -> str:
    """A line of the definitions with the words that the program has for its instruction."""
    mark = '"instruction":"'
    place = due.find(mark) + len(mark)
    if place < len(mark):
        return due
    end = due.index('"', place)
    return due[:place] + texts.get(due[place:end], due[place:end]) + due[end:]


def with_probes_of(due: str, found: str) -> str:
    """The definitions' summary with the numbers of the program's probes."""
    summary = json.loads(due)
    summary["summary"]["probes"] = json.loads(found).get("summary", {}).get("probes")
    return json.dumps(summary, separators=(",", ":")) + "\n"


def followed(found: List[str], due: Iterable[Line], texts: Dict[str, str], counts: Counts) -> Optional[str]:
    """What the program says otherwise than the definitions, if anything."""
    state: State = {}
    number = -1
    for number, (line, whole) in enumerate(due):
        if number >= len(found):
            return f"line {number} is lacking: {line}"
        value = parsed(found[number], number)
        state = value["state"] if number == 0 else folded(state, value)
        if whole is not None and state != whole:
            return f"line {number}: the folded state isn't the machine's: {found[number]}"
        line = as_program(line, texts) if whole is not None else with_probes_of(line, found[number])
        if found[number] != line:
            return f"line {number}: {found[number]}and the definitions have {line}"
        counts.line(value)
    return None if number + 1 == len(found) else f"{len(found)} lines, and {number + 1} are due"


def compare_case(world: World, program: Program, case: Case, counts: Counts) -> Optional[str]:
    machine = machine_of(world, case.program, case.shape)
    events = []
    for event in events_of(case, machine):
        events.append(event)
        machine.apply(event)
    words = PROGRAMS[case.program]
    try:
        found, texts = program.lines(words, [event_text(event) for event in events], machine.config), program.instructions(words)
    except NotDone as cause:
        return str(cause)
    return followed(found, lines_of(Shown(world, machine_of(world, case.program, case.shape)), events), texts, counts)


def stored(file: Path, command: str, line: str) -> None:
    """Puts a command's line into a file whose blocks have a command and its lines each, with an empty line between them."""
    blocks = file.read_text(encoding="utf-8").rstrip("\n").split("\n\n") if file.exists() else []
    places = [place for place, block in enumerate(blocks) if block.split("\n")[0] == f"$ {command}"]
    blocks[places[0] if places else len(blocks):places[0] + 1 if places else len(blocks)] = [f"$ {command}\n{line}"]
    file.write_text("\n\n".join(blocks) + "\n", encoding="utf-8")


def compare_program(name: str, count: int, seed: str, file: Optional[Path] = None) -> int:
    """A program against the definitions, on random scripts."""
    world, counts = load_definitions(), Counts()
    with tempfile.TemporaryDirectory() as folder:
        program = Program(str(Path(name).resolve()), Path(folder))
        for case in cases(count, seed):
            if not judged(case.name, case.program, case.shape, compare_case(world, program, case, counts)):
                return 1
            counts.script(case.shape[0])
    print(counts.text())
    if file:
        stored(file, f"tests/definitions/states.py program PROGRAM {count} {seed}", counts.text())
    print(f"# {time.process_time() - counts.begun:.0f} s of the processor for the definitions and the fold", file=sys.stderr)
    return 0


def show(place: int) -> int:
    world = load_definitions()
    program, shape, script = list(schedules.SCHEDULES.values())[place]
    for line, _ in lines_of(Shown(world, machine_of(world, program, shape)), map(event_of, script)):
        print(line, end="")
    return 0


def fold(place: int) -> int:
    world, counts = load_definitions(), Counts()
    program, shape, script = list(schedules.SCHEDULES.values())[place]
    counts.script(shape[0])
    fault = follow(lines_of(Shown(world, machine_of(world, program, shape)), map(event_of, script)), validator(), counts)
    print(fault or counts.text())
    return 1 if fault else 0


def wish_of(words: List[str]) -> Tuple[int, str, Optional[Path]]:
    """How many scripts, the seed, and the file that gets the line."""
    return int(words[0]) if words else 200, words[1] if len(words) > 1 else "1", Path(words[2]) if len(words) > 2 else None


def main() -> int:
    words = sys.argv[1:]
    if words and words[0] in ("show", "fold"):
        done = {"show": show, "fold": fold}[words[0]]
        return in_deep_stack(lambda: done(int(words[1])))
    if words and words[0] == "program":
        return in_deep_stack(lambda: compare_program(words[1], *wish_of(words[2:])))
    count, seed, _ = wish_of(words)
    return in_deep_stack(lambda: compare(count, seed))


if __name__ == "__main__":
    sys.exit(main())
