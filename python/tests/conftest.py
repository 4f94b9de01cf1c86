"""Programs in place of the real one: one that counts its calls, one that has no `drive`, and small ones that end badly."""
from __future__ import annotations

import os
import shlex
import sys
from pathlib import Path
from typing import Callable

import pytest
from hypothesis import settings

from stored import PROGRAM

settings.register_profile("gate", deadline=None, database=None, derandomize=True)
settings.load_profile("gate")


# What a program says that is older than the command, as its script says it too.
NO_DRIVE = """case $1 in drive)
  printf '%s\\n' '# why: drive: there is no such command; see safetynet --help' '# safetynet: usage' >&2
  exit 1;;
esac
"""
# A program whose `drive` answers each line with what `answer(line)` gives for its number and its text.
ANSWERING = """import os, sys
if sys.argv[1] != "drive":
    os.execv({program!r}, [{program!r}, *sys.argv[1:]])
{answer}
for number, line in enumerate(sys.stdin, 1):
    os.write(2, f"badline {{number}}\\n".encode() if line == "?\\n" else answer(number, line[:-1]))
"""


class Counted:
    """The real program, or another, behind a script that notes each call."""

    def __init__(self, folder: Path, program: str = PROGRAM) -> None:
        self.notes = folder / "notes"
        self.command = folder / "counted"
        self.command.write_text(f'#!/bin/sh\necho call >>{shlex.quote(str(self.notes))}\nexec {shlex.quote(program)} "$@"\n')
        self.command.chmod(0o755)

    def calls(self) -> int:
        """How many there were."""
        return self.notes.read_text().count("call") if self.notes.exists() else 0


@pytest.fixture
def counted(tmp_path: Path) -> Counted:
    return Counted(tmp_path)


@pytest.fixture
def made(tmp_path: Path) -> Callable[[str], str]:
    """Makes a program of shell lines, and gives its path."""

    def make(lines: str) -> str:
        file = tmp_path / f"made{len(os.listdir(tmp_path))}"
        file.write_text(f"#!/bin/sh\n{lines}\n")
        file.chmod(0o755)
        return str(file)

    return make


@pytest.fixture
def answering(tmp_path: Path) -> Callable[[str], str]:
    """Makes a program whose `drive` answers by a function of Python, ``answer(number, line)``, and gives its path."""

    def make(answer: str) -> str:
        file = tmp_path / f"answering{len(os.listdir(tmp_path))}"
        file.write_text(f"#!{sys.executable}\n" + ANSWERING.format(program=PROGRAM, answer=answer))
        file.chmod(0o755)
        return str(file)

    return make


@pytest.fixture(scope="session")
def older(tmp_path_factory: pytest.TempPathFactory) -> str:
    """The real program without the command `drive`."""
    file = tmp_path_factory.mktemp("older") / "safetynet"
    file.write_text(f'#!/bin/sh\n{NO_DRIVE}exec {shlex.quote(PROGRAM)} "$@"\n')
    file.chmod(0o755)
    return str(file)


@pytest.fixture(scope="session")
def older_drive(tmp_path_factory: pytest.TempPathFactory) -> str:
    """The real program whose `drive` knows events alone, and what they would be answered."""
    file = tmp_path_factory.mktemp("older_drive") / "safetynet"
    lines = "sed -uE 's/^(show|flights|core .*|node .*|block .*|mark|back .*|due .*)$/!&/'"
    file.write_text(f'#!/bin/sh\ncase $1 in drive) {lines} | {shlex.quote(PROGRAM)} "$@"; exit;; esac\nexec {shlex.quote(PROGRAM)} "$@"\n')
    file.chmod(0o755)
    return str(file)


@pytest.fixture(params=["driven", "older drive", "replayed"])
def command(request: pytest.FixtureRequest, older: str, older_drive: str) -> str:
    """The real program: as it is, with a `drive` of events alone, and without `drive`."""
    return {"driven": PROGRAM, "older drive": older_drive, "replayed": older}[request.param]


@pytest.fixture(autouse=True)
def the_program(monkeypatch: pytest.MonkeyPatch) -> None:
    """Tests take the program from ./safetynet of the checkout, or from SAFETYNET where that is set."""
    monkeypatch.setenv("SAFETYNET", PROGRAM)
