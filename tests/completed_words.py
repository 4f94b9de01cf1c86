#!/usr/bin/env python3
"""Holds contrib/completion.bash against the program's pages: what it offers at each place where a word may stand.

bash is called once, with the words of each case in COMP_WORDS, in a folder with two files and a folder. The last line is
`completed words: N passed, M failed`.
"""
import re
import shlex
import subprocess
import sys
import tempfile
from pathlib import Path
from typing import Dict, List, NamedTuple

HERE = Path(__file__).resolve().parent.parent
sys.dont_write_bytecode = True
sys.path.insert(0, str(HERE / "tools"))
from pages import command_names, list_on, read_command, topics  # noqa: E402

FILES = ["a file.hex", "a folder", "b.script"]
CALLS_FOR_A_PAGE = ["--help", "-h", "--version"]
# A range with more values isn't offered.
FEW = 16


class Case(NamedTuple):
    """Words as bash parts them, the last one at the cursor, and what is to be offered, in any order."""

    words: List[str]
    offered: List[str]


def values_of(command: str) -> Dict[str, List[str]]:
    """Of each option that takes a value, those that are offered: a range that its page names, where it is small, and words."""
    found: Dict[str, List[str]] = {}
    for item in list_on(command, "options"):
        option, _, value = item.term.partition(" ")
        limits = re.search(r"\b(\d+) to (\d+)(?![\d^])", item.text)
        is_few = value == "N" and limits and int(limits[2]) <= FEW
        named = re.search(r": (\w+(?:, \w+)*) or (\w+)", item.text) if value == "WORD" else None
        if named:
            found[option] = [*named[1].split(", "), named[2]]
        elif value:
            found[option] = [str(it) for it in range(int(limits[1]), int(limits[2]) + 1)] if limits and is_few else []
    return found


def excluded_by(command: str, option: str) -> List[str]:
    """The options that don't stand beside one: those that take no value say what the report has, and at most one of them stands."""
    flags = [it for it, value in read_command(command).options.items() if not value]
    return [it for it in flags if it != option] if option in flags else []


def option_cases(command: str) -> List[Case]:
    """A command's options: each by its first letters, those that are left behind another, and the values of those that have few."""
    options, values = read_command(command).options, values_of(command)
    all_with = [it for it in [*options, *CALLS_FOR_A_PAGE] if it.startswith("--v")]
    cases = [Case([command, "-"], [*options, *CALLS_FOR_A_PAGE]), Case([command, "--v"], all_with)]
    for option in options:
        left = [it for it in options if it not in [option, *excluded_by(command, option)]]
        for said in ([option, "=", "7"], [option, "7"]) if option in values else ([option],):
            cases.append(Case([command, *said, "--"], left))
    for option, few in values.items():
        with_one = [it for it in few if it.startswith("1")]
        cases += [Case([command, option, ""], few), Case([command, option, "="], few)]
        cases += [Case([command, option, "1"], with_one), Case([command, option, "=", "1"], with_one)]
        # as where `=` is no place at which bash parts words
        cases.append(Case([command, f"{option}=1"], [f"{option}={it}" for it in with_one]))
    return cases


def operand_cases(command: str) -> List[Case]:
    read = read_command(command)
    flags = [it for it, value in read.options.items() if not value][:1]
    valued = [word for it in [*values_of(command)][:2] for word in (it, "7")]
    befores: List[List[str]] = [[], flags, valued, [*flags, *valued]]
    cases: List[Case] = []
    for many in range(len(read.operands) + 1):
        are_files = many < len(read.operands) and read.operands[many] != "SIZE"
        for before in befores:
            words = [command, *before, *["x"] * many]
            cases += [Case([*words, ""], FILES if are_files else []), Case([*words, "b"], FILES[2:] if are_files else [])]
    return cases


def cases_of_all() -> List[Case]:
    commands = command_names()
    cases = [
        Case([""], [*commands, "help", *CALLS_FOR_A_PAGE]),
        Case(["--"], ["--help", "--version"]),
        Case(["help", ""], [*commands, *topics()]),
        Case(["help", "events", ""], []),
        Case(["fly", ""], []),
        Case(["fly", "-"], []),
    ]
    for command in commands:
        cases += [Case([command], [it for it in [*commands, "help"] if it.startswith(command)])]
        cases += option_cases(command) + operand_cases(command)
    return cases


def offers(cases: List[Case]) -> List[List[str]]:
    """What is offered in each case."""
    lines = [f". {shlex.quote(str(HERE / 'contrib/completion.bash'))}"]
    for case in cases:
        words = " ".join(map(shlex.quote, ["safetynet", *case.words]))
        lines.append(f"COMP_WORDS=({words}) COMP_CWORD={len(case.words)} COMPREPLY=(left over); _safetynet")
        lines.append("printf '%s\\n' \"${COMPREPLY[@]}\" $'\\f'")
    with tempfile.TemporaryDirectory() as folder:
        for name in FILES:
            if "." in name:
                Path(folder, name).write_text("")
            else:
                Path(folder, name).mkdir()
        ran = subprocess.run(["bash", "-u"], input="\n".join(lines), stdout=subprocess.PIPE, cwd=folder, check=True, universal_newlines=True)
    return [[it for it in text.split("\n") if it] for text in ran.stdout.split("\f\n")[:-1]]


def main() -> int:
    cases, failed = cases_of_all(), 0
    found = offers(cases)
    for case, offered in zip(cases, found):
        if sorted(offered) != sorted(case.offered):
            print(f"safetynet {' '.join(case.words)}: offers {offered} and not {case.offered}", file=sys.stderr)
            failed += 1
    failed += abs(len(cases) - len(found))
    print(f"completed words: {len(cases) - failed} passed, {failed} failed")
    return 1 if failed else 0


if __name__ == "__main__":
    sys.exit(main())
