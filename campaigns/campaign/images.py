"""The file that a run is given: the program as it is, or what is made of it for the run's number of nodes.

An image of words that stands beside a script `nodes`, as those of examples/c do, is put out by that script for the number of nodes, unless
the script refuses it.
A C program is compiled as examples/c/README.md says, with the `program.ld` and `start.S` beside it.
"""
from __future__ import annotations

import os
import shutil
import subprocess
from pathlib import Path
from typing import List

from .errors import CampaignError

COMPILER = "riscv64-unknown-elf-gcc"
_FLAGS = ["-march=rv32ia", "-mabi=ilp32", "-ffreestanding", "-nostdlib", "-static", "-O2", "-fno-ident"]


def _made(words: List[str]) -> "subprocess.CompletedProcess[bytes]":
    return subprocess.run(words, stdin=subprocess.DEVNULL, stdout=subprocess.PIPE, stderr=subprocess.PIPE, check=False)


def _compiled(program: Path, nodes: int, target: Path) -> None:
    """Compiles a C program for a number of nodes."""
    if shutil.which(COMPILER) is None:
        raise CampaignError(f"{program.name} is to be compiled, and {COMPILER} isn't there; Debian's package gcc-riscv64-unknown-elf brings it")
    beside = program.parent
    words = [COMPILER, *_FLAGS, f"-DNODES={nodes}", "-I", str(beside), "-T", str(beside / "program.ld")]
    done = _made([*words, str(beside / "start.S"), str(program), "-lgcc", "-s", "-o", str(target)])
    if done.returncode != 0:
        said = done.stderr.decode("utf-8", "replace").strip().split("\n")[0]
        raise CampaignError(f"{program.name} isn't compiled: {said}")


def image_of(program: Path, nodes: int, folder: Path) -> Path:
    """The file to run on so many nodes.

    Parameters
    ----------
    program : pathlib.Path
        The program's file.
    nodes : int
        The number of nodes.
    folder : pathlib.Path
        Where a file is put that has to be made.

    Returns
    -------
    pathlib.Path
        `program` itself, or a file of `folder` that is named after it and the number.

    Raises
    ------
    CampaignError
        There is no such program, or it can't be compiled.
    """
    if not program.is_file():
        raise CampaignError(f"{program} is no file")
    script = program.parent / "nodes"
    if program.suffix == ".c":
        target = folder / f"{program.stem}-{nodes}.elf"
        _compiled(program, nodes, target)
        return target
    if program.suffix == ".hex" and os.access(script, os.X_OK) and script.is_file():
        done = _made([str(script), str(nodes), str(program)])
        if done.returncode == 0:
            target = folder / f"{program.stem}-{nodes}.hex"
            target.write_bytes(done.stdout)
            return target
    return program
