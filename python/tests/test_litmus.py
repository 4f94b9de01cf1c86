"""Litmus tests: how they are read and refused, what they become, the log, and that every outcome is one of a single memory."""
from __future__ import annotations

import random
import re
import subprocess
import sys
from collections import Counter
from pathlib import Path
from typing import Callable, Dict, List, NamedTuple, Tuple

import pytest

from conftest import Counted
from safetynet import SafetyNetError, assemble, disassemble
from safetynet.litmus import LitmusError, Register, Runner, Tally, TrapError, Variable, log_text, parse_litmus, read_litmus, translate
from safetynet.litmus.command import main, run_test
from safetynet.litmus.instructions import parse_instruction
from safetynet.litmus.schedules import farthest
from safetynet.litmus.translation import load_immediate
from sequential import sequential_states
from stored import EXAMPLES, PROGRAM

FOLDER = Path(__file__).resolve().parents[1]
LITMUS = EXAMPLES / "litmus"
FILES = sorted(LITMUS.glob("*.litmus"))
RUNS = 24
SB = (LITMUS / "SB.litmus").read_text()


class Row(NamedTuple):
    """A row of the table of examples/litmus/README.md."""

    observation: str
    outcomes: int
    seen: int
    seen_with_losses: int


def table() -> Dict[str, Row]:
    """The rows of the examples' README, by the name of the file."""
    rows = re.findall(
        r"^\| `([^`]+)` \|[^|]+\| (Never|Sometimes|Always) \| ([0-9]+) \| ([0-9]+) \| ([0-9]+) \|$", (LITMUS / "README.md").read_text(), re.M
    )
    return {name: Row(observation, int(all_of), int(seen), int(lossy)) for name, observation, all_of, seen, lossy in rows}


ROWS = table()


def one(instructions: str, initial: str = "0:x6=x;", condition: str = "exists (0:x5=0)") -> str:
    """A test of one thread, its instructions parted by semicolons."""
    return f"RISCV one\n{{ {initial} }}\n P0 ;\n{instructions} ;\n{condition}\n"


def finals(text: str, runs: int = 2) -> List[str]:
    """The final states of some runs, as the log has them."""
    test = parse_litmus(text)
    tally = run_test(Runner(test), runs, 1)
    assert tally.unfinished == 0 and set(tally.states) <= sequential_states(test)
    return sorted(map(test.state_text, tally.states))


# How a test is read.


def test_a_test_is_read() -> None:
    test = parse_litmus(SB)
    assert (test.name, len(test.threads), test.variables, str(test.condition)) == ("SB", 2, ("x", "y"), "exists (0:x7=0 /\\ 1:x7=0)")
    assert [str(location) for location in test.observed] == ["0:x7", "1:x7"]
    assert [it.name for it in test.threads[0].instructions] == ["li", "sw", "lw"]
    assert test.threads[1].instructions[2].registers == (7, 8) and test.threads[0].instructions[0].line == 6
    assert test.registers == {Register(0, 6): 0x80010000, Register(0, 8): 0x80010040, Register(1, 6): 0x80010040, Register(1, 8): 0x80010000}


def test_what_stands_before_the_state_and_in_comments_is_passed_over() -> None:
    text = SB.replace("{ 0:", '"Fre PodWR (a text)"\nCycle=Fre PodWR Fre PodWR\nCom=Fr Fr\n{\n0:').replace("(*", "(* (* inner { *) ;")
    assert parse_litmus(text.replace("\n", "\r\n")).threads[0].instructions[0].name == "li"
    test = parse_litmus("RISCV one\n{}\n P0 ; (* a cell: *)\n li x5,1 (* ; *) ;\nexists (0:x5=1)")
    assert [(it.line, it.number) for it in test.threads[0].instructions] == [(4, 1)]


def test_initial_states() -> None:
    test = parse_litmus(one("lw x5,0(x6)", "int x=-1; uint32_t y; [z]=0x10; int *p=x; int 0:a0 = 7; 0:x6=p; w", "forall (x=-1 /\\ [z]=16)"))
    assert test.memory == {"x": 0xFFFFFFFF, "y": 0, "z": 16, "p": test.addresses["x"], "w": 0}
    assert test.registers == {Register(0, 10): 7, Register(0, 6): test.addresses["p"]}
    assert test.observed == (Variable("x"), Variable("z"))


def test_conditions() -> None:
    said = {
        "exists (0:x5=1 \\/ 0:x6=2 /\\ x=3)": "exists (0:x5=1 \\/ 0:x6=2 /\\ x=3)",
        "~ exists ((0:t0=1 \\/ x=2) /\\ ~(x=3))": "~exists ((0:x5=1 \\/ x=2) /\\ ~(x=3))",
        "forall ~ x = y /\\ true": "forall (~(x=y) /\\ true)",
        "locations [0:x6; [x];] exists false": "exists (false)",
    }
    for text, printed in said.items():
        assert str(parse_litmus(one("mv x5,x0", "x; y", text)).condition) == printed
    test = parse_litmus(one("mv x5,x0", "x;", "exists (0:x5=1 \\/ ~(0:x6=2) /\\ x=-1)"))
    assert [test.holds(state) for state in ((1, 2, 0), (0, 2, 2**32 - 1), (0, 3, 2**32 - 1), (0, 3, 1))] == [True, False, True, False]
    assert [str(it) for it in parse_litmus(one("mv x5,x0", "x; y", "locations [y; 0:x9;] forall (x=0)")).observed] == ["0:x9", "x", "y"]


@pytest.mark.parametrize(
    "text, name, registers, number",
    [
        ("lw x5,-4(x6)", "lw", (5, 6), -4),
        ("sw t0, 8 ( a0 )", "sw", (5, 10), 8),
        ("lr.w.aq.rl x5,(x6)", "lr.w", (5, 6), 0),
        ("sc.w.rl x5,x7,0(x6)", "sc.w", (5, 7, 6), 0),
        ("amomaxu.w.aqrl s1,zero,(fp)", "amomaxu.w", (9, 0, 8), 0),
        ("fence iorw,ow", "fence", (), 0),
        ("fence", "fence", (), 0),
        ("fence.tso", "fence", (), 0),
        ("li x5,0xffffffff", "li", (5,), 0xFFFFFFFF),
        ("mv t6,s11", "mv", (31, 27), 0),
        ("xori x5,x6,-1", "xori", (5, 6), -1),
        ("and x5,x6,x7", "and", (5, 6, 7), 0),
    ],
)
def test_instructions(text: str, name: str, registers: Tuple[int, ...], number: int) -> None:
    read = parse_instruction(text)
    assert (read.name, read.registers, read.number) == (name, registers, number)


@pytest.mark.parametrize(
    "text, line, why",
    [
        ("", 1, "the first line is RISCV"),
        ("X86 SB\n{}\n", 1, "a test of X86; this reads those of RISCV"),
        ("RISCV SB\n P0 ;\n", 2, "the initial state is lacking"),
        ("RISCV SB\nstray words\n{}\n P0 ;\nexists true", 2, "before the initial state stands 'stray'"),
        ("RISCV SB\n{ x=0;\n P0 ;\n", 2, "the initial state doesn't end"),
        ("RISCV SB\n(* no end\n{}\n", 2, "this comment doesn't end"),
        ("RISCV SB\n{ *) }", 2, "a comment ends here"),
        ("RISCV SB\n{\nx=1;\nx=2; }\n P0 ;\nexists true", 4, "x has an initial value already"),
        ("RISCV SB\n{ x[3]={1,2}; }\n", 2, "'x[3]={1,2' isn't in the subset of initial states"),
        ("RISCV SB\n{ int64_t x=1; }\n P0 ;\nexists true", 2, "isn't in the subset of initial states"),
        ("RISCV SB\n{ x=4294967296; }\n P0 ;\nexists true", 2, "4294967296 doesn't fit a word"),
        ("RISCV SB\n{ 0:y6=x; }\n P0 ;\nexists true", 2, "'y6' is no register"),
        ("RISCV SB\n{ 0:x0=1; }\n P0 ;\nexists true", 2, "x0 is always 0"),
        ("RISCV SB\n{ 1:x5=1; }\n P0 ;\n li x5,1 ;\nexists true", 2, "there is no thread P1"),
        ("RISCV SB\n{" + ";".join(f"v{place}" for place in range(33)) + "}\n P0 ;\nexists true", 2, "v32 would be variable 33"),
        ("RISCV SB\n{}\nexists true", 3, "the table of threads is lacking"),
        ("RISCV SB\n{}\n P0 | P2 ;\nexists true", 3, "the head of a column is P1, and not 'P2'"),
        ("RISCV SB\n{}\n" + "|".join(f"P{place}" for place in range(17)) + ";\nexists true", 3, "17 threads are more than 16"),
        ("RISCV SB\n{}\n P0 | P1 ;\n fence ;\nexists true", 4, "this row has 1 cells, and there are 2 threads"),
        ("RISCV SB\n{}\n P0 ;\n fence\n", 4, "a row that ends with ;, or the condition, is due"),
        (one("a: fence;\na: fence"), 5, "the label a stands twice"),
        (one("bne x5,x0,away"), 4, "this thread has no label away"),
        (one("fence ;\n" * 200 + "fence"), 204, "a thread has at most 200 instructions"),
        (one("lw x5,0(x6)", condition=""), 4, "a row that ends with ;, or the condition, is due"),
        (one("lw x5,0(x6)", condition="locations [x;]"), 5, "the condition is lacking"),
        (one("lw x5,0(x6)", condition="filter (x=1)"), 5, "exists, ~exists or forall is due, and not 'filter'"),
        (one("lw x5,0(x6)", condition="exists (z=1)"), 5, "no variable has the name z"),
        (one("lw x5,0(x6)", condition="exists (x=z)"), 5, "no variable has the name z"),
        (one("lw x5,0(x6)", condition="exists (1:x5=1)"), 5, "there is no thread P1"),
        (one("lw x5,0(x6)", condition="exists (x=1"), 5, "the condition isn't whole"),
        (one("lw x5,0(x6)", condition="exists (x=1))"), 5, "the condition is over before ')'"),
        (one("lw x5,0(x6)", condition="exists (x)"), 5, "'=' is due, and not ')'"),
        (one("lw x5,0(x6)", condition="exists (x=1 /\\\n x=1 => x=2)"), 6, "'=>' isn't in the subset of conditions"),
        (one("lw x5,0(x6)", condition="exists (x<>1)"), 5, "isn't in the subset of conditions"),
        (one("lw x5,0(x6)", condition="exists " + "(" * 51 + "x=1" + ")" * 51), 5, "nested deeper than 50"),
        (one("lw x5,0(x6)", condition="locations [x; ?;] exists true"), 5, "'?' is no location"),
    ],
)
def test_what_is_no_test_is_refused_with_its_line(text: str, line: int, why: str) -> None:
    with pytest.raises(LitmusError) as refused:
        parse_litmus(text, "a.litmus")
    assert refused.value.line == line and why in refused.value.why
    assert str(refused.value) == f"a.litmus:{line}: {refused.value.why}"


@pytest.mark.parametrize(
    "text, why",
    [
        ("ld x5,0(x6)", "the instruction ld isn't in the subset"),
        ("lr.d x5,(x6)", "the instruction lr.d isn't in the subset"),
        ("amonand.w x5,x6,(x7)", "the instruction amonand.w isn't in the subset"),
        ("lw.aq x5,0(x6)", "the instruction lw.aq isn't in the subset"),
        ("fence.i", "the instruction fence.i isn't in the subset"),
        ("sub x5,x6,x7", "the instruction sub isn't in the subset"),
        ("fence rw,wr", "isn't a fence"),
        ("lw x5", "lw has 2 operands, and not 1"),
        ("lw x5,x6", "'x6' isn't an address"),
        ("lw x5,2048(x6)", "2048 isn't from -2048 to 2047"),
        ("lw x32,0(x6)", "'x32' is no register"),
        ("amoadd.w x5,x7,4(x6)", "an atomic access has the offset 0"),
        ("addi x5,x6,x7", "'x7' is no number"),
        ("ori x5,x6,4096", "4096 isn't from"),
        ("li x5,-2147483649", "doesn't fit a word"),
        ("beq x5,x6,8", "'8' is no label"),
        ("8: fence", "'8' is no label"),
    ],
)
def test_what_is_no_instruction_of_the_subset_is_named(text: str, why: str) -> None:
    with pytest.raises(LitmusError) as refused:
        parse_litmus(one(f"fence;\n{text}"))
    assert refused.value.line == 5 and why in refused.value.why


def test_files_that_cannot_be_read(tmp_path: Path) -> None:
    given = tmp_path / "a.litmus"
    for content, why in ((b"RISCV a\n\xff", ":2: a byte that isn't UTF-8"), (b" " * (2**20 + 1), ": more than 1048576 bytes")):
        given.write_bytes(content)
        with pytest.raises(LitmusError, match=re.escape(str(given) + why)):
            read_litmus(str(given))
    for name in (str(tmp_path / "none"), str(tmp_path), "a\0b"):
        with pytest.raises(LitmusError):
            read_litmus(name)


# What it becomes.


def test_a_translation_is_a_program_of_the_machine() -> None:
    made = translate(parse_litmus(SB))
    assert "p1:\n        lui x6, 524304\n        addi x6, x6, 64\n" in made.text and made.heads == (2 + 3, 4 + 3)
    listed = [disassemble(program).split("\n", 1) for program in (made.image, assemble(made.text))]
    assert listed[0] == listed[1] and listed[0][0] == "# 80000000"


@pytest.mark.parametrize("word", [0, 1, 2047, 2048, 0xFFF, 0x1000, 0x7FFFFFFF, 0x80000000, 0x80010800, 0xFFFFF800, 0xFFFFFFFF])
def test_words_that_are_loaded(word: int) -> None:
    register = 0
    for instruction in load_immediate(5, word):
        name, operands = instruction.split(" ", 1)
        number = int(operands.split(", ")[-1])
        register = (number << 12 if name == "lui" else register + number) % 2**32
    assert register == word and len(load_immediate(5, word)) <= 2


def test_every_instruction_does_what_one_memory_says() -> None:
    text = """li x5,0x12345678; sw x5,4(x6); lw x7,4(x6); mv x8,x7; xor x9,x5,x6; xori x9,x9,-1; or x11,x9,x5; ori x11,x11,7;
 add x12,x11,x5; addi x12,x12,-9; and x13,x12,x5; andi x13,x13,255; beq x5,x0,out; amoswap.w x14,x13,(x6); amomin.w x15,x5,(x6);
 amomaxu.w x16,x9,(x6); amoxor.w x18,x5,(x6); amoand.w x19,x5,(x6); amoor.w x20,x7,(x6); amomax.w x21,x5,(x6); amominu.w x22,x13,(x6);
 amoadd.w x23,x5,(x6); fence.tso; bne x5,x0,out; li x24,1; out: lw x25,0(x6)"""
    shown = "; ".join(f"0:x{number}" for number in range(5, 26) if number not in (10, 17))
    assert len(finals(one(text, "x=-5; 0:x6=x;", f"locations [{shown}; x;] exists true"))) == 1


def test_initial_words_and_addresses_are_there() -> None:
    text = one("lw x5,0(x6); lw x7,0(x5); sw x6,0(x5)", "y=42; p=y; 0:x6=p; 0:x9=-3;", "forall (0:x5=y /\\ 0:x7=42 /\\ 0:x9=-3 /\\ y=p)")
    assert finals(text) == ["0:x5=y; 0:x7=42; 0:x9=-3; y=p;"]


def test_a_thread_may_use_the_registers_that_the_program_needs() -> None:
    text = one("addi x10,x10,1; addi x17,x17,5; addi x5,x17,0", "0:x17=2; 0:x10=8;", "exists (0:x10=9 /\\ 0:x17=7 /\\ 0:x5=7)")
    assert finals(text) == ["0:x5=7; 0:x10=9; 0:x17=7;"]
    every = "; ".join(f"li x{number},1" for number in range(5, 32))
    with pytest.raises(LitmusError, match="a.litmus:4: P0 uses x17 and leaves no register free"):
        translate(parse_litmus(one(every), "a.litmus"), "a.litmus")


def test_a_thread_without_instructions_and_one_variable_less() -> None:
    assert finals("RISCV a\n{}\n P0 | P1 | P2 ;\nexists (2:x5=0)") == ["2:x5=0;"]


def test_the_farthest_nodes() -> None:
    assert [farthest(nodes) for nodes in (2, 3, 4, 5, 6, 16)] == [1, 1, 3, 2, 3, 5]


# Its log.


def test_the_log() -> None:
    test = parse_litmus(SB)
    tally = Tally(test, Counter({(0, 1): 1234567, (1, 1): 3, (1, 0): 20}), seconds=1.234)
    assert log_text(tally) == (
        "Test SB Allowed\nHistogram (3 states)\n1234567:>0:x7=0; 1:x7=1;\n20    :>0:x7=1; 1:x7=0;\n3     :>0:x7=1; 1:x7=1;\nNo\n\n"
        "Witnesses\nPositive: 0, Negative: 1234590\nCondition exists (0:x7=0 /\\ 1:x7=0) is NOT validated\n"
        "Observation SB Never 0 1234590\nTime SB 1.23\n\n"
    )


@pytest.mark.parametrize(
    "condition, counts, kind, said, positive, observation",
    [
        ("exists", {(0,): 1, (1,): 2}, "Allowed", "Ok", "1, Negative: 2", "Sometimes 1 2"),
        ("exists", {(1,): 2}, "Allowed", "No", "0, Negative: 2", "Never 0 2"),
        ("~exists", {(1,): 2}, "Forbidden", "Ok", "2, Negative: 0", "Never 0 2"),
        ("~exists", {(0,): 1, (1,): 2}, "Forbidden", "No", "2, Negative: 1", "Sometimes 1 2"),
        ("forall", {(0,): 3}, "Required", "Ok", "3, Negative: 0", "Always 3 0"),
        ("forall", {(0,): 1, (1,): 2}, "Required", "No", "1, Negative: 2", "Sometimes 1 2"),
    ],
)
def test_verdicts(condition: str, counts: Dict[Tuple[int, ...], int], kind: str, said: str, positive: str, observation: str) -> None:
    text = log_text(Tally(parse_litmus(one("mv x5,x0", condition=f"{condition} (0:x5=0)")), Counter(counts)))
    assert text.startswith(f"Test one {kind}\n") and f"\n{said}\n\nWitnesses\nPositive: {positive}\n" in text
    assert f"Observation one {observation}\n" in text and text.count("*>") == ((0,) in counts)


# What comes out.


@pytest.mark.parametrize("name, count", [("SB", 3), ("MP", 3), ("LB", 3), ("IRIW", 15), ("WRC", 7), ("ISA2", 7), ("CoWW", 1), ("AMO-add-3", 6)])
def test_outcomes_of_one_memory(name: str, count: int) -> None:
    assert len(sequential_states(read_litmus(str(LITMUS / f"{name}.litmus")))) == count


def test_a_store_conditional_of_one_memory() -> None:
    test = read_litmus(str(LITMUS / "LRSC+store.litmus"))
    states = sequential_states(test)
    assert not any(test.holds(state) for state in states) and {state[1] for state in states} == {0, 1}


def test_the_table_has_every_example() -> None:
    assert sorted(ROWS) == sorted(file.stem for file in FILES) and len(FILES) == 20
    assert all("(*" in file.read_text() for file in FILES)


@pytest.mark.parametrize("name", sorted(ROWS))
def test_every_outcome_is_one_of_one_memory(name: str) -> None:
    test = read_litmus(str(LITMUS / f"{name}.litmus"))
    allowed, row = sequential_states(test), ROWS[name]
    runner = Runner(test)
    seen = []
    for losses in (False, True):
        tally = run_test(runner, RUNS, 1, losses)
        assert set(tally.states) <= allowed and tally.unfinished == 0 and sum(tally.states.values()) == RUNS
        assert tally.observation == row.observation
        seen.append(len(tally.states))
    assert (len(allowed), *seen) == row[1:]


@pytest.mark.parametrize("name", ["SB", "2+2W", "IRIW", "AMO-lock"])
def test_runs_by_workers_have_outcomes_of_one_memory(name: str, counted: Counted) -> None:
    test = read_litmus(str(LITMUS / f"{name}.litmus"))
    runner = Runner(test, command=counted.command)
    begun = counted.calls()
    variables = sum(isinstance(location, Variable) for location in test.observed)
    for losses in (False, True):
        states = runner.by_workers(range(3, 3 + RUNS), losses)
        assert len(states) == RUNS and None not in states and set(states) <= sequential_states(test)
        assert states == runner.by_workers(range(3, 3 + RUNS), losses)
    assert counted.calls() == begun + 4 * max(1, variables)
    tally = run_test(runner, 2, 3, workers=RUNS)
    assert sum(tally.states.values()) == RUNS + 2 and tally.observation == ROWS[name].observation


def test_a_run_by_workers_that_traps_or_does_not_end() -> None:
    assert Runner(parse_litmus(one("again: bne x6,x0,again"))).by_workers(range(2)) == (None, None)
    with pytest.raises(TrapError, match=r"one: P0 trapped \(misaligned\)"):
        Runner(parse_litmus(one("lw x5,2(x6)"))).by_workers([7])


def test_losses_are_lost_and_undone() -> None:
    runner = Runner(parse_litmus(SB))
    names: "Counter[str]" = Counter()
    for number in range(6):
        assert runner.run(random.Random(number), losses=True) is not None
        machine = runner._machine
        assert machine is not None
        names.update(answer.name for answer in machine.answers)
    assert names["lost"] >= 4 and names["recovered"] >= 6 and names["validated"] >= 12


# The command.


def command(*words: str) -> "subprocess.CompletedProcess[str]":
    return subprocess.run(
        [sys.executable, "-m", "safetynet", *words], cwd=FOLDER, env={"SAFETYNET": PROGRAM}, capture_output=True, text=True, timeout=120
    )


def test_the_command_prints_a_log_that_the_seed_decides() -> None:
    words = ["litmus", str(LITMUS / "CoWW.litmus"), str(LITMUS / "SB.litmus"), "--runs", "6", "--seed", "3", "--losses"]
    logs = [command(*words) for _ in range(2)]
    assert [it.returncode for it in logs] == [0, 0] and logs[0].stderr == ""
    assert logs[0].stdout.startswith("Test CoWW Required\nHistogram (1 states)\n6     *>x=2;\nOk\n\nWitnesses\nPositive: 6, Negative: 0\n")
    assert "\n\nTest SB Allowed\nHistogram (" in logs[0].stdout and "\nObservation SB Never 0 6\nTime SB " in logs[0].stdout
    first, second = (re.sub("Time .*", "", it.stdout) for it in logs)
    assert first == second


def test_nothing_is_run_where_one_file_is_refused(tmp_path: Path, counted: Counted, monkeypatch: pytest.MonkeyPatch, capsys: pytest.CaptureFixture[str]) -> None:
    monkeypatch.setenv("SAFETYNET", str(counted.command))
    wrong = tmp_path / "wrong.litmus"
    wrong.write_text(SB.replace("lw x7", "ld x7", 1))
    assert main([str(LITMUS / "SB.litmus"), str(wrong), str(tmp_path / "none.litmus")]) == 1
    told = capsys.readouterr()
    assert told.out == "" and counted.calls() == 0
    assert told.err.splitlines() == [
        f"litmus: {wrong}:8: the instruction ld isn't in the subset",
        f"litmus: {tmp_path / 'none.litmus'}: No such file or directory",
    ]


def test_a_run_that_does_not_end_is_not_counted(tmp_path: Path, capsys: pytest.CaptureFixture[str]) -> None:
    endless = tmp_path / "endless.litmus"
    endless.write_text(one("again: bne x6,x0,again"))
    assert main([str(endless), "--runs", "3", "--limit", "0.1"]) == 3
    told = capsys.readouterr()
    assert "Histogram (0 states)" in told.out and "Observation one Never 0 0" in told.out
    assert told.err == "litmus: one: 3 of 3 runs aren't finished\n"


def test_a_run_has_a_limit_of_its_own(monkeypatch: pytest.MonkeyPatch) -> None:
    monkeypatch.setattr("safetynet.litmus.schedules.MOST_QUESTIONS", 4)
    assert run_test(Runner(parse_litmus(one("again: bne x6,x0,again"))), 2, 1).unfinished == 2


def test_a_thread_that_traps(tmp_path: Path, capsys: pytest.CaptureFixture[str]) -> None:
    with pytest.raises(TrapError, match=r"one: P0 trapped \(misaligned\)"):
        run_test(Runner(parse_litmus(one("lw x5,2(x6)"))), 1, 1)
    wrong = tmp_path / "wrong.litmus"
    wrong.write_text(one("lw x5,0(x9)"))
    assert main([str(wrong)]) == 1
    assert capsys.readouterr().err.startswith("litmus: one: P0 trapped (access) ")


def test_a_program_that_is_not_there_is_told(monkeypatch: pytest.MonkeyPatch, capsys: pytest.CaptureFixture[str], made: Callable[[str], str]) -> None:
    monkeypatch.setenv("SAFETYNET", "/nowhere/safetynet")
    assert main([str(LITMUS / "SB.litmus")]) == 1
    assert "'/nowhere/safetynet' is no program" in capsys.readouterr().err
    monkeypatch.setenv("SAFETYNET", made("echo '# safetynet: memory' >&2; exit 7"))
    with pytest.raises(SafetyNetError, match="memory"):
        Runner(parse_litmus(SB))


@pytest.mark.parametrize("words", [["--runs", "0"], ["--runs", "x"], ["--workers", "-1"], ["--limit", "-1"], ["--limit", "nan"], ["--seed", "x"], ["--node", "2"], []])
def test_words_that_are_no_command(words: List[str]) -> None:
    with pytest.raises(SystemExit) as ended:
        main([*words, *([str(LITMUS / "SB.litmus")] if words else [])])
    assert ended.value.code == 2


def test_the_package_has_one_command() -> None:
    assert command("litmsu").returncode == 2 and "the command is litmus" in command("litmsu").stderr
    assert command().returncode == 2 and command("--help").returncode == 0 and "litmus" in command("--help").stdout
