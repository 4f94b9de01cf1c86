"""An answer before the proof: the same source, run by `rt try` beside the build of the proved program.

    early.py CRATE WORDS..      shows what the crate's source does with these words before any proof, and stops there

`build.py` asks this where no proved program of the present text stands. What `rt try` ran is shown once it has ended; when the proved
program is built it does the work again, and both answers are compared. Whatever ends this ends `rt try` too. What is said goes to standard
error, and the status is the source's, or 125 where `rt try` gave no answer.
"""
import os
import re
import shutil
import signal
import subprocess
import sys
import tempfile
from pathlib import Path
from typing import IO, Callable, Dict, List, NamedTuple, Optional

# What `rt try` says of a run on standard error, behind what the program wrote there: up to three lines before the last one.
SAID = re.compile(rb"(?:^interpreter: .*\n)?(?:^checked: .*\n)?(?:^races: .*\n)?^run=ended status=(\d+) .*proved=no\n\Z", re.M)
# What it says before that of a source that no check will take.
FORETOLD = re.compile(rb"\A(?:rt: a check will refuse this: .*\n)+")
# Names that `rt try` keeps for itself in the folder where it runs the program, and the folder for files that can't keep theirs.
TAKEN = {"program", "stdin", "stdout", "stderr", "given"}
# The status where there is no answer; the program itself never gives it.
NO_ANSWER = 125
# The system's call that has a process told of its parent's end, by the number in <linux/prctl.h>.
PR_SET_PDEATHSIG = 1


class Answer(NamedTuple):
    """What a call of the program came to."""

    console: bytes
    report: bytes
    status: int

    def show(self) -> None:
        """Puts it on both outputs, with nothing held back."""
        put(self.console, sys.stdout.fileno())
        put(self.report, sys.stderr.fileno())


def put(text: bytes, stream: int) -> None:
    """Writes all of a text, if whoever reads the stream takes it."""
    left = memoryview(text)
    while left:
        left = left[os.write(stream, left) :]


def say(text: str) -> None:
    """A line on standard error, at once."""
    print(text, file=sys.stderr, flush=True)


def end_by_signals() -> None:
    """An end from outside, by a signal that isn't ignored, is an end like another: what was started ends too."""
    for number in (signal.SIGTERM, signal.SIGHUP):
        if signal.getsignal(number) is not signal.SIG_IGN:
            signal.signal(number, lambda it, _: sys.exit(128 + it))


def let_go_of_outputs() -> None:
    """Lets go of what is held back for an output that nobody takes, so that the status is the one that is meant."""
    for stream in (sys.stdout, sys.stderr):
        try:
            stream.flush()
        except OSError:
            os.dup2(os.open(os.devnull, os.O_WRONLY), stream.fileno())


def ends_with_this() -> Callable[[], None]:
    """What a process that this one starts does first, so that it is told to end once this one has ended, even if it was killed."""
    parent = os.getpid()
    try:
        from ctypes import CDLL

        prctl = CDLL(None).prctl
    except (ImportError, OSError, AttributeError):
        # a Python without this: then only a kill leaves something behind, which ends by itself
        return lambda: None

    def begin() -> None:
        prctl(PR_SET_PDEATHSIG, signal.SIGTERM)
        if os.getppid() != parent:
            os._exit(1)

    return begin


def option_in(words: List[str], option: str, default: str) -> str:
    """What a call's words give an option."""
    found = default
    for word, following in zip(words, [*words[1:], ""]):
        if word == option:
            found = following
        elif word.startswith(f"{option}="):
            found = word.partition("=")[2]
    return found


def differs(words: List[str]) -> Optional[str]:
    """Why an early answer to a call couldn't be compared with the proved one, if there is a reason."""
    command = words[0] if words else ""
    if command == "run" and option_in(words, "--nodes", "4") != "1" and option_in(words, "--order", "threads") == "threads":
        return "threads decide whose turn comes next, so no two runs need be alike"
    if command == "drive":
        return "it reads standard input, which can be read once only"
    if command == "monitor":
        return "threads decide what the watcher sees, so no two runs need be alike"
    return None


def lacks(crate: Path, words: List[str]) -> Optional[str]:
    """Why `rt try` wouldn't do the same call, if there is a reason: of the user's files it has copies, and beside them files of its own."""
    for word in words[1:]:
        if os.path.exists(word) and not os.path.isfile(word):
            return f"{word} is no plain file, and may be read once only"
        is_own = os.path.normpath(word).split("/")[0] in TAKEN or os.path.isfile(os.path.join(crate, word))
        if is_own and not os.path.exists(word):
            return f"there is no file {word}, and where rt try runs the program there is one"
    return None


def objection(crate: Path, words: List[str]) -> Optional[str]:
    """Why a call has no early answer that could be compared with the proved one, if there is a reason."""
    return differs(words) or lacks(crate, words)


class Handed(NamedTuple):
    """A call as `rt try` gets it: the flags that hand its files over, its words there, and the user's names of files that have others there."""

    flags: List[str]
    words: List[str]
    renamed: Dict[str, str]


def keeps_name(word: str) -> bool:
    """Whether a file can stand under the user's name in the folder where `rt try` runs the program."""
    parts = word.split("/")
    return not (word.startswith("/") or ".." in parts or "=" in word or os.path.normpath(word).split("/")[0] in TAKEN)


def handed_over(words: List[str]) -> Handed:
    """A call for `rt try`, which runs the program in a folder of its own. The first word is a command, and no file."""
    flags: List[str] = []
    there: List[str] = []
    renamed: Dict[str, str] = {}
    for place, word in enumerate(words):
        name = word
        if place and os.path.isfile(word):
            if not keeps_name(word):
                name = f"given/{place}"
                renamed[name] = word
            flags += ["--data", f"{os.path.normpath(name)}={os.path.realpath(word)}"]
        there.append(name)
    return Handed(flags, there, renamed)


def shown_name(word: str) -> bytes:
    """A file's name as the program shows it."""
    return b"".join(bytes([it]) if 32 <= it <= 126 and it not in b'"\\' else b"\\x%02x" % it for it in os.fsencode(word))


def named_by_user(report: bytes, renamed: Dict[str, str]) -> bytes:
    """A report whose line that says why names files as the user did."""
    for name, word in renamed.items():
        shown = shown_name(word).replace(b"\\", b"\\\\")
        report = re.sub(rb"^(# why: )%s(?=:)" % re.escape(name.encode()), rb"\g<1>" + shown, report, flags=re.M)
    return report


class Early:
    """A call that `rt try` does before the proof has ended; of standard input it gets what is in a file."""

    def __init__(self, crate: Path, words: List[str], given: Optional[IO[bytes]] = None) -> None:
        self.handed = handed_over(words)
        self.console: IO[bytes] = tempfile.TemporaryFile()
        self.report: IO[bytes] = tempfile.TemporaryFile()
        command = ["rt", "try", *self.handed.flags, "--", *self.handed.words]
        self.ran = subprocess.Popen(
            command,
            cwd=crate,
            stdin=given or subprocess.DEVNULL,
            stdout=self.console,
            stderr=self.report,
            start_new_session=True,
            preexec_fn=ends_with_this(),
        )

    def has_ended(self) -> bool:
        """Whether there is an answer, or it is known that there is none."""
        return self.ran.poll() is not None

    def wait(self) -> None:
        """Waits until it has ended."""
        self.ran.wait()

    def end(self) -> None:
        """Ends it where it still goes on."""
        if not self.has_ended():
            self.ran.terminate()
            self.ran.wait()

    def answer(self) -> Optional[Answer]:
        """What the program did; None where `rt try` gives no answer: it was refused, took too long, or wrote too much."""
        console, report = self.text(self.console), self.text(self.report)
        said = SAID.search(report)
        if said is None:
            return None
        own = FORETOLD.sub(b"", report[: said.start()])
        return Answer(console, named_by_user(own, self.handed.renamed), int(said[1]))

    def why_none(self) -> str:
        """What `rt try` said where it gave no answer."""
        lines = self.text(self.report).decode(errors="replace").splitlines()
        return next((it for it in reversed(lines) if it and not it.startswith("run=")), "rt try said nothing")

    @staticmethod
    def text(file: IO[bytes]) -> bytes:
        """All that is in a file."""
        file.seek(0)
        return file.read()


def proved_answer(command: List[str]) -> Answer:
    """What the proved program does, which is called by this command."""
    ran = subprocess.run(command, stdin=subprocess.DEVNULL, stdout=subprocess.PIPE, stderr=subprocess.PIPE, check=False)
    return Answer(ran.stdout, ran.stderr, ran.returncode)


def unproved(crate: Path, words: List[str]) -> int:
    """Shows what the source does before any proof; gives the status."""
    say("# nothing of this run is proved")
    why = lacks(crate, words)
    if why:
        say(f"# no answer: {why}")
        return NO_ANSWER
    with tempfile.TemporaryFile() as given:
        if words[:1] == ["drive"]:
            # whole, since rt try itself doesn't wait for what comes late
            shutil.copyfileobj(sys.stdin.buffer, given)
            given.seek(0)
        early = Early(crate, words, given)
        try:
            early.wait()
        finally:
            early.end()
    found = early.answer()
    if found is None:
        say(f"# rt try gave no answer: {early.why_none()}")
        return NO_ANSWER
    found.show()
    return found.status


def main(words: List[str]) -> int:
    """Does what the words say. Where something goes wrong, there is no answer."""
    end_by_signals()
    try:
        return unproved(Path(words[0]), words[1:])
    except KeyboardInterrupt:
        return 130
    except OSError as why:
        try:
            say(f"# no answer: {f'{why.filename}: ' if why.filename else ''}{why.strerror}")
        except OSError:
            # nobody reads that either
            pass
        return NO_ANSWER


if __name__ == "__main__":
    status = main(sys.argv[1:])
    let_go_of_outputs()
    sys.exit(status)
