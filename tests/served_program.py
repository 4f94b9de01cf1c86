"""A program that is started once and run often: each run is a process of its own, forked from it as it stands before its main.

mutate_inputs/serve.c does it, built by cc as a library that the loader puts before the program's main.
"""
import os
import struct
import subprocess
from pathlib import Path
from typing import List, Sequence, Union

from outcomes import Outcome

SOURCE = Path(__file__).resolve().parent / "mutate_inputs" / "serve.c"


def built_server(folder: Union[str, Path]) -> Path:
    """The library, built in the folder."""
    library = Path(folder, "serve.so")
    subprocess.run(["cc", "-shared", "-fPIC", "-O1", "-o", library, SOURCE, "-ldl"], check=True)
    return library


class ServedProgram:
    """A program in a folder, where its runs find their files. `first` are the words that each run begins with."""

    def __init__(self, library: Path, program: str, first: Sequence[str], folder: Union[str, Path], seconds: int) -> None:
        self.first = [program, *first]
        words, self.words = os.pipe()
        self.answers, answers = os.pipe()
        given = {**os.environ, "LD_PRELOAD": str(library), "SERVE_WORDS": str(words), "SERVE_ANSWERS": str(answers), "SERVE_SECONDS": str(seconds)}
        self.process = subprocess.Popen([program], cwd=folder, env=given, pass_fds=(words, answers), stdin=subprocess.DEVNULL)
        os.close(words)
        os.close(answers)

    def run(self, words: Sequence[str]) -> Outcome:
        """Status, standard output and standard error of a run; the status of one that a signal ended is the signal's number, less than 0."""
        text = b"".join(os.fsencode(word) + b"\0" for word in [*self.first, *words])
        message = struct.pack("i", len(text)) + text
        while message:
            message = message[os.write(self.words, message):]
        ended, console, report = struct.unpack("3i", self.read(12))
        return os.waitstatus_to_exitcode(ended), self.read(console), self.read(report)

    def read(self, size: int) -> bytes:
        """So many bytes of the answers."""
        parts: List[bytes] = []
        while size:
            part = os.read(self.answers, size)
            if not part:
                raise RuntimeError(f"{self.first[0]} ended by itself, with {self.process.wait()}")
            parts.append(part)
            size -= len(part)
        return b"".join(parts)

    def end(self) -> None:
        os.close(self.words)
        os.close(self.answers)
        self.process.wait()
