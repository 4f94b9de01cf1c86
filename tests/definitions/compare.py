#!/usr/bin/env python3
"""Compares the machine's definitions, event by event, with a reference simulator.

    tests/definitions/compare.py SIMULATOR [COUNT] [SEED]

SIMULATOR is a program that takes `replay --nodes N --sets S --ways W --log L --watch A PROGRAM SCRIPT` and writes the
console to standard output and the report to standard error. Each random script is evaluated by the definitions in
crates/sn_model/specs and replayed by the simulator; both reports and both consoles must be the same bytes.
"""
import random
import subprocess
import sys
import tempfile
from pathlib import Path
from typing import Any, Callable, Dict, Iterable, Iterator, List, Tuple

import instructions
import schedules
from evaluate import World, in_deep_stack, repository
from translation import Con, Rec

Shape = Tuple[int, int, int, int]

BLOCKS = 72
PROGRAMS = {
    "puts": "04100513 00100893 00000073 05d00893 00000073",
    "adds": "800012b7 00100313 0062a3af 05d00893 00000073",
    "reserves": "800012b7 00051863 1002a32f 1862a3af 0000006f 00a2a023 0000006f",
    "stores": "800012b7 0002a023 0402a023 0802a023 0000006f",
    "counts": "800012b7 00100313 0062a3af 03f3f513 03050513 00100893 00000073 fedff06f",
    "loads": "800012b7 0002a303 0062a023 0000006f",
    "echoes": "00200893 00000073 00100893 00000073 05d00893 00000073",
    "pairs": "00200893 00000073 00000073 00100893 00000073 05d00893 00000073",
    "mixes": "800012b7 0002a303 00130313 0062a023 1002a3af 0062a2af 0442a303 fe5ff06f",
    "widths": "800012b7 00a28023 0042d303 00629323 08028283 0000006f",
}
CAUSES = {"Illegal": "illegal", "FetchFault": "fetch", "MisalignedTarget": "target", "MisalignedAccess": "misaligned", "AccessFault": "access", "UnknownCall": "call", "Break": "break"}


def load_definitions() -> World:
    """The machine's definitions."""
    world = World(repository(), ["sn_base", "sn_msg", "rv_core", "log_buffer", "route_plan", "sn_model"])
    # Memory's first blocks stand for all of it, and the core's step is left out.
    world.modules["sn_model", "Caches"].override("block_count", BLOCKS)
    # Distances are recursions that branch at each switch, and are evaluated once for each argument.
    world.modules["route_plan", "Grid"].remember("row_count", "column_count", "is_linked", for_good=True)
    world.modules["route_plan", "Distances"].remember("comes", "distance", depth=2, for_good=True)
    world.modules["route_plan", "Routes"].remember("next_of", "enter_of", "first_cut_off", depth=2, for_good=True)
    steps = world.modules["sn_model", "Instructions"]
    steps.override("want_of", instructions.want_of, 2)
    steps.override("next_of", instructions.next_of, 5)
    return world


def image_of(words: str) -> Rec:
    data = b"".join(int(word, 16).to_bytes(4, "little") for word in words.split())
    segment = Rec(start=0x80000000, size=len(data), bytes=tuple(data), write=False, exec=True)
    return Rec(segments=(segment,), entry=0x80000000)


def switch_text(number: int) -> str:
    return ("a" if number % 2 == 0 else "b") + str(number // 2)


def event_text(event: Con) -> str:
    name, parts = event[0].split(".")[1].lower(), [str(part) for part in event[1:]]
    if name == "kill":
        parts = [switch_text(event[1])]
    if name == "input":
        parts[1] = f"{event[2]:02x}"
    return " ".join([name] + parts)


def answer_text(answer: Con) -> str:
    name = answer[0].split(".")[1].lower()
    if name == "recovered":
        undo = answer[1]
        return f"recovered {undo['to']} undone {undo['undone']} dropped {undo['dropped']}"
    return " ".join([name] + [str(part) for part in answer[1:]])


def sent_text(sent: Rec) -> str:
    m = sent["message"]
    body = m["body"]
    name, carried = body[0].split(".")[1].lower(), [part for part in body[1:] if isinstance(part, int)]
    last = carried[0] if name in ("ready", "advance") else m["block"]
    text = f"  msg {m['id']} {name} {m['from']} {m['to']} {m['tag']} {last}"
    if name in ("fwdgets", "fwdgetm", "inv"):
        text += f" req {carried[0]}"
    if name in ("fwdgetm", "datam", "upgok"):
        text += f" acks {carried[-1]}"
    if name == "unblock":
        text += f" fixed {carried[0]}"
    return text + (" lost" if sent["lost"] else "")


def core_text(number: int, core: Rec) -> str:
    kind = core["end"][0].split(".")[1].lower()
    end = kind
    if kind == "exited":
        end += f" {core['end'][1]}"
    if kind == "trapped":
        end += " " + CAUSES[core["end"][1][0].split(".")[1]]
    registers = "".join(f" x{r}={core['x'][r]:08x}" for r in range(32) if r and core["x"][r])
    return f"core {number} {core['pc']:08x} {end}{registers}"


class Machine:
    """A machine by its definitions."""

    def __init__(self, world: World, words: str, nodes: int, sets: int, ways: int, log: int, watch: int) -> None:
        self.world, self.image, self.watch = world, image_of(words), watch
        self.config = Rec(nodes=nodes, sets=sets, ways=ways, log=log)
        self.state = self.get("Machine", "start_of")(self.image)(nodes)

    def get(self, file: str, name: str) -> Any:
        """A definition of the machine's crate."""
        return self.world.get("sn_model", file, name)

    def cut_lines(self) -> List[str]:
        fabric, processors = self.state["fabric"], self.state["processors"]
        point = fabric["point"]
        checkpoint = self.get("MachineEvents", "checkpoint_of")
        lines = [core_text(n, checkpoint(processors[n])(node["known"])(point)) for n, node in enumerate(fabric["nodes"])]
        block = (self.watch - 0x80000000) // 64
        holder = self.get("Cuts", "names_at")(fabric)(block)(point)
        content = holder[1]
        if holder[0] == "Holder.OfCache":
            content = self.get("Cuts", "holds_at")(fabric)(holder[1])(block)(point)[1]
        place = (self.watch - 0x80000000) % 64
        word = int.from_bytes(bytes(content[place:place + 4]), "little")
        return lines + [f"watch {self.watch:08x} {word:08x}"]

    def foreseen(self, event: Con) -> Con:
        """The answer that an event would have."""
        answer: Con = self.get("Step", "step_of")(self.image)(self.config)(self.state)(event)["answer"]
        return answer

    def apply(self, event: Con) -> Tuple[Con, Tuple[Rec, ...]]:
        stepped = self.get("Step", "step_of")(self.image)(self.config)(self.state)(event)
        self.state = stepped["state"]
        return stepped["answer"], stepped["sent"]

    def summary(self, events: int) -> List[str]:
        s = self.state
        return [f"events {events}", f"point {s['fabric']['point']}", f"committed {len(s['committed'])}", f"released {len(s['released'])}"] + self.cut_lines()


def candidates(machine: Machine, choose: random.Random) -> Con:
    """An event that is likely to do something."""
    nodes = machine.config["nodes"]
    node = choose.randrange(nodes)
    flights = machine.state["fabric"]["net"]["flights"]
    if flights and choose.random() < 0.55:
        flight = choose.choice(flights)
        kind = "Deliver" if flight["place"] // 2 == flight["message"]["to"] else "Hop"
        if choose.random() < 0.06:
            kind = choose.choice(["Deliver", "Hop", "Lose"])
        return Con((f"Event.{kind}", flight["message"]["id"]))
    kind = choose.choices(
        ["Step", "Evict", "Edge", "Report", "Validate", "Recover", "Input", "Kill", "Deliver"], [50, 8, 9, 12, 8, 3, 4, 1, 1]
    )[0]
    if kind == "Evict":
        return Con(("Event.Evict", node, choose.choice([0, 63, 64, 64, 64, 65, 66])))
    if kind == "Input":
        return Con(("Event.Input", node, choose.randrange(256)))
    if kind == "Kill":
        return Con(("Event.Kill", choose.randrange(2 * nodes)))
    if kind == "Deliver":
        return Con(("Event.Deliver", choose.randrange(30)))
    return Con((f"Event.{kind}",)) if kind in ("Validate", "Recover") else Con((f"Event.{kind}", node))


# The events of a case, each of which may be chosen by the state before it.
Events = Callable[[Machine], Iterable[Con]]


def event_of(line: str) -> Con:
    """The event of a line of a script."""
    name, *words = line.split()
    numbers = [int(word[1:]) * 2 + (word[0] == "b") if name == "kill" else int(word, 16 if name == "input" and place else 10) for place, word in enumerate(words)]
    return Con((f"Event.{name.capitalize()}", *numbers))


def evaluated(machine: Machine, events: Iterable[Con]) -> Tuple[str, str, bytes]:
    """The script and the report of a run by the definitions; each event may be chosen by the state before it."""
    script, report, number = [], [], 0
    for number, event in enumerate(events, 1):
        answer, sent = machine.apply(event)
        script.append(event_text(event))
        report.append(f"{number} {event_text(event)}: {answer_text(answer)}")
        report += [sent_text(one) for one in sent]
        if answer[0] == "Answer.Recovered":
            report += ["  " + line for line in machine.cut_lines()]
    report += machine.summary(number)
    return "\n".join(script) + "\n", "\n".join(report) + "\n", bytes(machine.state["released"])


def replayed(simulator: str, folder: Path, words: str, script: str, config: Rec, watch: int) -> Tuple[str, bytes]:
    (folder / "program.hex").write_text("\n".join(words.split()) + "\n")
    (folder / "events.script").write_text(script)
    options = [f"--{name}={config[name]}" for name in ("nodes", "sets", "ways", "log")] + [f"--watch={watch:08x}"]
    done = subprocess.run([simulator, "replay", *options, folder / "program.hex", folder / "events.script"], capture_output=True)
    return done.stderr.decode(), done.stdout


def first_difference(expected: str, found: str) -> str:
    for number, (a, b) in enumerate(zip(expected.split("\n"), found.split("\n")), 1):
        if a != b:
            return f"line {number}: the simulator has {a!r}, the definitions {b!r}"
    return "one report is longer"


def stored(script: List[str]) -> Events:
    """The events of a stored script."""
    return lambda machine: map(event_of, script)


def drawn(choose: random.Random, length: int) -> Events:
    """So many events, each likely to do something."""
    return lambda machine: (candidates(machine, choose) for _ in range(length))


def cases(count: int, seed: str) -> Iterator[Tuple[str, str, Shape, Events]]:
    """Name, program, shape and events of each case; the events are a function of the machine."""
    for name, (program, shape, script) in schedules.SCHEDULES.items():
        yield name, program, shape, stored(script)
    for case in range(count):
        choose = random.Random(f"{seed} {case}")
        shape = (choose.choice([1, 2, 2, 3, 4]), choose.choice([1, 2, 16]), choose.choice([1, 2, 4]), choose.choice([4, 5, 8, 256]))
        length = choose.randrange(20, 160)
        yield f"case {case}", choose.choice(sorted(PROGRAMS)), shape, drawn(choose, length)


def count_answers(report: str, answers: Dict[str, int]) -> None:
    for line in report.split("\n"):
        if ": " in line:
            answer = line.split(": ")[1].split()[0]
            answers[answer] = answers.get(answer, 0) + 1


def compare(simulator: str, count: int, seed: str) -> int:
    world, done = load_definitions(), 0
    answers: Dict[str, int] = {}
    with tempfile.TemporaryDirectory() as folder:
        for name, program, shape, events in cases(count, seed):
            machine = Machine(world, PROGRAMS[program], *shape, 0x80001000)
            script, report, console = evaluated(machine, events(machine))
            expected, written = replayed(simulator, Path(folder), PROGRAMS[program], script, machine.config, machine.watch)
            if (report, console) != (expected, written):
                print(f"{name}: {first_difference(expected, report)}\nprogram: {program}\nshape: {shape}\n{script}")
                return 1
            count_answers(report, answers)
            done += 1
    print(f"{done} scripts, no difference; answers: " + " ".join(f"{k}={v}" for k, v in sorted(answers.items())))
    return 0


def main() -> int:
    if len(sys.argv) < 2:
        print(__doc__)
        return 2
    count = int(sys.argv[2]) if len(sys.argv) > 2 else 300
    return in_deep_stack(lambda: compare(sys.argv[1], count, sys.argv[3] if len(sys.argv) > 3 else "1"))


if __name__ == "__main__":
    sys.exit(main())
