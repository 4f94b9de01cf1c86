#!/usr/bin/env python3
"""Proves and builds the program with the crates that it stands on. `./safetynet` calls this when it has to.

    build.py PROGRAM TO                     builds the program and runs nothing
    build.py PROGRAM TO proved WORDS..      and runs it with these words
    build.py PROGRAM TO both WORDS..        and shows before that what the source does (early.py), to compare both answers then

Crates are proved side by side, each once those that it stands on are, and each by a process of its own (`build.py --prove`): from nothing
and as the gate proves it, by the calls that rt's own file has for that, which hold each verdict, and the program, to HANDLES. Those with
the most to come after them are urgent and may use all processors; the others run beside them with what is left.

A library is built as its statements, which the crates above load in place of its proofs. It stands in the program's folder out/rlib,
apart from the libraries of rt's other commands, which hold their proofs: NAME.rlib, and in NAME.of sums of what it was made from and of
what it is. One that is of the present text, over the present libraries below it, isn't proved again, so a build that failed or was
interrupted goes on with the crates that it hadn't proved. Nor is a crate that the gate has proved on this machine of the same text over the
same libraries: rt keeps what that made, by the sums of all that it read, and gives it. An rt that keeps nothing has left the libraries of
the gate's last run where they were made; they are taken if nothing that they are made from was touched since that run began.

The program is put into the folder TO, where the gate doesn't take it away, under the name `safetynet`. TO/current is written only once all
is proved and built: its lines are the files and folders that the program was built from, its date is that of the build's beginning.
Whatever was touched later, or during the build, is newer than it. TO/sum is a sum of all that text, by which a file that was touched and not
changed is told from another; it is empty where a file was touched during the build. TO/absent has what the program would have been built from
too, had it been there, and TO/toolchain names the toolchain. Where the program can't be built, or the two answers differ, the status is 125.
Everything that is said goes to standard error.

Whatever ends a build ends the proofs, and the source's run, that it began.
"""
import contextlib
import copy
import fcntl
import functools
import hashlib
import importlib.machinery
import importlib.util
import os
import re
import shutil
import subprocess
import sys
import tempfile
import time
import traceback
from pathlib import Path
from typing import IO, Any, Callable, Dict, Iterable, Iterator, List, Optional, Sequence, Set, Tuple, Union

from early import Answer, Early, end_by_signals, ends_with_this, let_go_of_outputs, objection, proved_answer, say

OWN = Path(__file__).resolve()
HERE = OWN.parent
PARTS = ["src", "specs", "proofs"]
MEMORY_EACH = 3 << 30
# The status where the program can't be built, or its two answers differ; the program itself never gives it.
NOT_BUILT = 125
# About what a build from nothing takes on four processors, by what its checks cost (docs/MEASURES.md).
MINUTES_FROM_NOTHING = 36
# How many processors an early answer has for itself while it is awaited: `rt try` uses no more.
EARLY_PROCESSORS = 2


# What tells whether a crate's text was touched: its files and folders with their times.
Changes = List[Tuple[str, int]]
# Of a crate all crates that it stands on.
Under = Dict[str, Set[str]]


class NotBuilt(Exception):
    """The crate that isn't proved, and what was said of it."""


def folder_of(crate: str) -> Path:
    """Where a crate stands."""
    return HERE / "crates" / crate


def crate_lines() -> List[str]:
    """The lines of crates.txt without comments: a crate, a colon, and what it stands on directly."""
    lines = [it.partition("#")[0].strip() for it in (HERE / "crates.txt").read_text().splitlines()]
    return [it for it in lines if it]


def name_in(line: str) -> str:
    """The crate that a line of crates.txt is of."""
    return line.partition(":")[0].split()[0]


def read_crates() -> Dict[str, List[str]]:
    """What each crate stands on directly, the repository's crates alone."""
    named = {name_in(it): it.partition(":")[2].split() for it in crate_lines()}
    return {name: [it for it in below if it in named] for name, below in named.items()}


def all_under(program: str) -> Under:
    """Of a program, and of each crate that it stands on, all crates that this one stands on."""
    stands_on = read_crates()
    under: Under = {}

    def add(crate: str) -> Set[str]:
        if crate not in under:
            under[crate] = {*stands_on[crate]}.union(*[add(it) for it in stands_on[crate]])
        return under[crate]

    add(program)
    return under


def files_of(crate: str) -> List[Path]:
    """All files of a crate's text, in an order that is always the same."""
    return [it for part in PARTS for it in sorted((folder_of(crate) / part).rglob("*")) if it.is_file()]


def changes_of(crate: str) -> Changes:
    """When each file and folder of a crate's text was last changed: it tells of a change that was taken back, too."""
    folders = [folder_of(crate) / part for part in PARTS if (folder_of(crate) / part).is_dir()]
    return [(str(it), it.stat().st_ctime_ns) for folder in folders for it in [folder, *sorted(folder.rglob("*"))]]


def work_of(crate: str, under: Under) -> int:
    """About what a crate's proof takes: its lines of code without tests, and what it loads of the crates below it."""
    source = folder_of(crate) / "src"
    code = [it for it in source.rglob("*.rt") if not str(it.relative_to(source)).startswith("tests")]
    return sum(it.read_bytes().count(b"\n") for it in code) + 25 * len(under[crate])


def work_behind(under: Under) -> Dict[str, int]:
    """Of each crate the work of the longest chain that begins with it."""
    behind: Dict[str, int] = {}
    for crate in sorted(under, key=lambda it: -len(under[it])):
        behind[crate] = work_of(crate, under) + max((behind[it] for it in behind if crate in under[it]), default=0)
    return behind


def lanes() -> int:
    """How many checks at a time: one a processor, with 3 GiB each."""
    told = dict(it.split(":") for it in Path("/proc/meminfo").read_text().splitlines())
    free = int(told["MemAvailable"].split()[0]) << 10
    return max(1, min(len(os.sched_getaffinity(0)), free // MEMORY_EACH))


class Progress:
    """How far the build is: on a terminal one line that changes, else a line a crate. Nothing is said while an early answer is awaited."""

    def __init__(self, many: int, is_held: bool) -> None:
        self.many, self.done, self.begun = many, 0, time.time()
        self.is_terminal, self.is_held = sys.stderr.isatty(), is_held

    def say(self, text: str, end: str = "\n") -> None:
        """A line in place of the one that changes."""
        if not self.is_held:
            print(("\r\033[K" if self.is_terminal else "") + text, end=end, file=sys.stderr, flush=True)

    def minutes(self) -> str:
        """How long it has taken."""
        return f"{(time.time() - self.begun) / 60:.0f} min"

    def working(self, crates: Iterable[str]) -> None:
        """Says on a terminal what is being proved."""
        if self.is_terminal:
            self.say(f"# proving {self.done + 1} of {self.many}: {', '.join(crates)}, {self.minutes()}", end="")

    def proved(self, crate: str) -> None:
        """Counts a crate that is proved."""
        self.done += 1
        if not self.is_terminal:
            self.say(f"# proved {self.done} of {self.many}: {crate}, {self.minutes()}")


class FirstAnswer:
    """The answer before the proof, if there can be one: shown as soon as it is there, and held against the proved one."""

    def __init__(self, program: str, words: List[str]) -> None:
        why = objection(folder_of(program), words)
        self.early: Optional[Early] = None if why else Early(folder_of(program), words)
        self.shown: Optional[Answer] = None
        if why:
            self.say_none(why)

    @staticmethod
    def say_none(why: str) -> None:
        """Says why the proved answer comes alone."""
        say(f"# no answer before the proof: {why}")

    def is_awaited(self) -> bool:
        """Whether the answer may still come."""
        return self.early is not None and self.shown is None

    def look(self, minutes: Callable[[], int]) -> bool:
        """Shows the answer once it is there, with about how many minutes the proof still takes. Gives whether nothing more is awaited."""
        if self.early and self.shown is None and self.early.has_ended():
            found = self.early.answer()
            if found is None:
                self.say_none(self.early.why_none())
                self.early = None
            else:
                self.show(found, minutes)
        return not self.is_awaited()

    def show(self, found: Answer, minutes: Callable[[], int]) -> None:
        """Shows the answer, unless nobody takes it: the proved program then meets the same, and says so by its status."""
        say("# before the proof:")
        try:
            found.show()
        except OSError as why:
            self.early = None
            self.say_none(f"it can't be written ({why.strerror})")
            return
        self.shown = found
        goes_on = f"the proof goes on (about {minutes()} minutes; what is proved is kept if you stop it)"
        say(f"# this answer came before the proof; {goes_on}")

    def end(self) -> None:
        """Ends the source's run where it still goes on."""
        if self.early:
            self.early.end()

    def held_against(self, command: List[str]) -> int:
        """Runs the proved program, and says whether it gives the answer that was shown. Gives the status."""
        proved = proved_answer(command)
        if proved == self.shown:
            say("# proved: the same answer")
            return proved.status
        other = f"another answer, with status {proved.status}; don't rely on the one above, and call again"
        say(f"# proved: {other} (a file that was read may have changed meanwhile)")
        return NOT_BUILT


def is_taken(handle: Union[int, IO[Any]], how: int = fcntl.LOCK_EX) -> bool:
    """Whether a file or folder is locked by somebody else; locks it otherwise, for itself or to be shared."""
    try:
        fcntl.flock(handle, how | fcntl.LOCK_NB)
    except BlockingIOError:
        return True
    return False


@contextlib.contextmanager
def locked(folder: Path, meanwhile: Callable[[], object]) -> Iterator[int]:
    """Keeps rt, and another build, out of a folder. Whoever inherits what this gives keeps them out too."""
    handle = os.open(folder, os.O_RDONLY)
    try:
        if is_taken(handle):
            say(f"# waiting for another build, or for rt, to end in {folder}")
            while is_taken(handle):
                meanwhile()
                time.sleep(0.2)
        yield handle
    finally:
        os.close(handle)


def said_by_rt(word: str) -> str:
    """What rt says to a word."""
    return subprocess.run(["rt", word], stdout=subprocess.PIPE, text=True, check=True).stdout.strip()


def toolchain_of_rt() -> Path:
    """The toolchain's folder: the page that rt names to be read first stands at its top."""
    return Path(said_by_rt("doc")).parent


def rt_itself(toolchain: str) -> Any:
    """rt's own file as a module, which is the gate's too, for the repository as it is."""
    sys.dont_write_bytecode = True
    loader = importlib.machinery.SourceFileLoader("rt", f"{toolchain}/bin/rt")
    spec = importlib.util.spec_from_loader("rt", loader)
    assert spec is not None
    rt: Any = importlib.util.module_from_spec(spec)
    loader.exec_module(rt)
    # before any thread, as in rt itself: what it starts ends when this process does
    rt.rtlib.guarded()
    rt.rtlib.Crate = rt.Crate
    rt.Crate.allowed = rt.handles_of(str(HERE))
    # rt walks each path through crates.txt anew at every call
    below = functools.lru_cache(maxsize=None)(rt.Crate.below)
    rt.Crate.below = lambda crate: [*below(crate)]
    return rt


def reaches_beyond(rt: Any, crate: Any) -> bool:
    """Whether a crate's text names what only a handle reaches that isn't allowed: the gate's rule beside those of the verdict."""
    code = rt.rtlib.code_of(crate.folder)
    found = [it for it, words in rt.REACHES.items() if it not in crate.allowed and re.search(words, code)]
    if found:
        print(f"{crate.name} names what only the handle {found[0]} reaches, and HANDLES doesn't allow it")
    return bool(found)


def is_given(rt: Any, crate: Any, out: str) -> bool:
    """Whether the gate has made the same on this machine, which is then put into its place. A newer rt keeps what it made, an older leaves it."""
    return is_kept(rt, crate, out) if hasattr(rt, "STORE") else is_left(crate)


def is_kept(rt: Any, crate: Any, out: str) -> bool:
    """Whether rt gives what the gate has made of the same: it keeps a crate's product by all that it was made from."""
    if not any(Path(rt.STORE).glob(f"proof-{crate.name}-*")):
        return False
    # rt is to find each library, and to put what it gives, where this keeps it
    here = {it.name: copy.copy(it) for it in [*crate.below(), crate]}
    for it in here.values():
        it.folder = os.path.dirname(out)
    kept = rt.Kept([*crate.below(), crate])
    for it in crate.below():
        kept.is_built(here[it.name])
    return bool(kept.give(here[crate.name], False, kept.key(crate)))


def left_by_gate(crate: str, begun: int) -> Optional[Path]:
    """The library in a crate's folder if a run of the gate that began then has made it, else None. As a run begins rt puts away all that
    stood there, and what its other commands build has their stamp beside it."""
    made = folder_of(crate) / "out/rlib" / f"{crate}.rlib"
    is_made = (made / "format").is_file() and (made / "format").stat().st_mtime_ns > begun
    return made if is_made and not (made.parent / "stamp").exists() else None


def is_left(crate: Any) -> bool:
    """Whether the gate's last run has left a library that is of the present text, over the libraries that stand here. rt holds a lock while it
    runs, whose date is that of the run's beginning."""
    lock = HERE / ".git/rt-ci.lock"
    if crate.is_program or not lock.is_file():
        return False
    with lock.open() as handle:
        # shared with the other crates' processes
        if is_taken(handle, fcntl.LOCK_SH):
            return False
        begun = lock.stat().st_mtime_ns
        below, made = [it.name for it in crate.below()], left_by_gate(crate.name, begun)
        changes = [(HERE / it).stat().st_ctime_ns for it in ("crates.txt", "HANDLES") if (HERE / it).is_file()]
        changes += [when for it in [*below, crate.name] for _, when in changes_of(it)]
        if made is None or max(changes) >= begun:
            return False
        for it in crate.below():
            other = left_by_gate(it.name, begun)
            if other is None or (other / "format").read_bytes() != Path(it.rlib, "format").read_bytes():
                return False
        shutil.copytree(made, crate.rlib)
        return True


def prove(name: str, jobs: str, program: str, toolchain: str) -> int:
    """Proves one crate from nothing, over the libraries below it, and builds its library, or the program. Gives rt's status."""
    rt, out = rt_itself(toolchain), f"{folder_of(program)}/out"
    crate = rt.Crate(str(folder_of(name)), str(HERE), {})
    for it in [*crate.below(), crate]:
        it.rlib = f"{out}/rlib/{it.name}.rlib"
    # nothing is written into a file that rt gave, or that runs: such a file is removed
    shutil.rmtree(crate.rlib, ignore_errors=True)
    for old in [*Path(out).glob(f"{name}*")] if crate.is_program else []:
        old.unlink()
    if is_given(rt, crate, out):
        return 0
    if reaches_beyond(rt, crate):
        return 1
    words = ["build", *crate.words(["--jobs", jobs], keeps=False)]
    if not crate.is_program:
        return int(crate.prove([*words, "--statements", "-o", crate.rlib]))
    words += ["--toolchain", f"{rt.KIT}/toolchain", "--backend", "llvm"]
    return int(crate.prove([*words, "-o", f"out/{name}.o"]) or crate.link(f"out/{name}.o", f"out/{name}"))


class Built:
    """What is built: the libraries in a folder, and the program. NAME.of there has sums of what a crate was made from and of what it is."""

    def __init__(self, program: str, under: Under, lock: int) -> None:
        self.program, self.under, self.lock = program, under, lock
        self.folder = folder_of(program) / "out/rlib"
        self.folder.mkdir(parents=True, exist_ok=True)
        self.toolchain, self.version = toolchain_of_rt(), said_by_rt("version")
        self.for_all = [it.read_bytes() for it in (self.toolchain / "WHAT", HERE / "HANDLES") if it.is_file()]
        for it in self.folder.iterdir():
            if it.stem not in under:
                shutil.rmtree(it) if it.is_dir() else it.unlink()

    def product(self, crate: str) -> Path:
        """The file that tells what was made of a crate: of a library its format, which holds a sum of its other files."""
        return folder_of(crate) / "out" / crate if crate == self.program else self.folder / f"{crate}.rlib/format"

    def made_from(self, crate: str) -> str:
        """A sum of the toolchain, what is allowed, the crate's line and text, and the libraries below it as they are."""
        line = next(it for it in crate_lines() if name_in(it) == crate)
        found = hashlib.sha256(repr((self.for_all, line)).encode())
        for it in files_of(crate):
            found.update(repr((str(it.relative_to(HERE)), it.read_bytes())).encode())
        for lower in sorted(self.under[crate]):
            found.update(self.product(lower).read_bytes())
        return found.hexdigest()

    def note_of(self, crate: str) -> str:
        """The text of NAME.of."""
        return f"{self.made_from(crate)} {hashlib.sha256(self.product(crate).read_bytes()).hexdigest()}"

    def has(self, crate: str) -> bool:
        """Whether a crate is built of the present text, over the present libraries below it."""
        of = self.folder / f"{crate}.of"
        return of.is_file() and self.product(crate).is_file() and of.read_text() == self.note_of(crate)

    def begin(self, crate: str) -> Tuple[Changes, str]:
        """What is to be the same at the proof's end. What was built before counts for nothing from here on."""
        (self.folder / f"{crate}.of").unlink(missing_ok=True)
        return changes_of(crate), self.made_from(crate)

    def keep(self, crate: str, begun: Tuple[Changes, str]) -> None:
        """Notes what a crate was made from, unless its text was touched meanwhile: then the next build proves it again."""
        if (changes_of(crate), self.made_from(crate)) == begun:
            (self.folder / f"{crate}.of").write_text(self.note_of(crate))


class Proof:
    """One crate's proof, in a process of its own, with what it says in a file."""

    def __init__(self, crate: str, built: Built, jobs: int, is_urgent: bool) -> None:
        self.crate, self.built, self.begun = crate, built, built.begin(crate)
        self.log: IO[str] = tempfile.TemporaryFile("w+", errors="replace")
        self.ran = subprocess.Popen(
            [sys.executable, str(OWN), "--prove", crate, str(jobs), built.program, str(built.toolchain)],
            cwd=folder_of(crate),
            stdin=subprocess.DEVNULL,
            stdout=self.log,
            stderr=subprocess.STDOUT,
            # rt's own settings don't reach the gate's proofs either
            env={it: value for it, value in os.environ.items() if not it.startswith("RT_")},
            # with the lock no other build begins while this proof goes on, whatever becomes of this process
            pass_fds=[built.lock],
            preexec_fn=ends_with_this(),
        )
        if not is_urgent:
            os.setpriority(os.PRIO_PROCESS, self.ran.pid, 10)

    def has_ended(self) -> bool:
        """Whether it ended well; raises where it ended otherwise."""
        status = self.ran.poll()
        if status:
            self.log.seek(0)
            killed = f"its check was ended by signal {-status}\n" if status < 0 else ""
            raise NotBuilt(self.crate, self.log.read() + killed)
        if status == 0:
            self.built.keep(self.crate, self.begun)
        return status == 0

    def end(self) -> None:
        """Ends it where it still goes on, with all that it started."""
        if self.ran.poll() is None:
            self.ran.terminate()
            self.ran.wait()
        self.log.close()


def urgent_of(crates: Sequence[str], behind: Dict[str, int]) -> List[str]:
    """Those with the most to come after them, or hardly less: they decide how long all takes."""
    most = max(behind[it] for it in crates)
    return [it for it in crates if behind[it] >= 0.9 * most]


def jobs_of(crate: str, urgent: Sequence[str], many: int) -> int:
    """How many processors a check is told to use. None gains from more than four."""
    return min(4, max(1, many // len(urgent))) if crate in urgent else 1


def lanes_beside(first: Optional[FirstAnswer], every: int) -> int:
    """How many checks at a time, of so many without an early answer: one that is awaited has its processors left."""
    return max(1, every - EARLY_PROCESSORS) if first and first.is_awaited() else every


def minutes_left(under: Under, done: Set[str]) -> int:
    """About how long the rest of a build takes, by what its crates are of the whole work and by the processors."""
    share = sum(work_of(it, under) for it in under if it not in done) / sum(work_of(it, under) for it in under)
    return max(1, round(MINUTES_FROM_NOTHING * share * max(1, 4 / lanes())))


def build_crates(built: Built, progress: Progress, first: Optional[FirstAnswer]) -> None:
    """Proves and builds the libraries and the program, and shows an early answer as soon as it is there."""
    under, every = built.under, lanes()
    behind = work_behind(under)
    done: Set[str] = set()
    waiting: Set[str] = set()
    running: Dict[str, Proof] = {}
    try:
        while len(done) < len(under):
            many = lanes_beside(first, every)
            for crate in sorted(under, key=lambda it: len(under[it])):
                if crate not in done | waiting | {*running} and under[crate] <= done:
                    if built.has(crate):
                        done.add(crate)
                        progress.proved(crate)
                    else:
                        waiting.add(crate)
            for crate in sorted(waiting, key=lambda it: -behind[it]):
                urgent = urgent_of([*waiting, *running], behind)
                # A place is kept for an urgent one. It may use all processors, others have what it leaves.
                if len(running) >= (many if crate in urgent else many - 1):
                    break
                waiting.remove(crate)
                running[crate] = Proof(crate, built, jobs_of(crate, urgent, many), crate in urgent)
            if first and first.look(lambda: minutes_left(under, done)):
                progress.is_held = False
            if running:
                progress.working(running)
                time.sleep(0.2)
            for crate, proof in [*running.items()]:
                if proof.has_ended():
                    running.pop(crate).end()
                    done.add(crate)
                    progress.proved(crate)
    finally:
        for proof in running.values():
            proof.end()


def written_from(under: Under) -> Tuple[List[str], List[str]]:
    """The files and folders that a program is built from, and those that it would be built from too if they were there."""
    every = ["crates.txt", "HANDLES", *(f"crates/{it}/{part}" for it in sorted(under) for part in PARTS)]
    return [it for it in every if (HERE / it).exists()], [it for it in every if not (HERE / it).exists()]


def sum_of_text(parts: Iterable[str]) -> str:
    """A sum of these files, and of those in these folders, with their names: as `./safetynet` takes it, by sha256sum of the sums of all."""
    found = [file for it in parts for file in [HERE / it, *(HERE / it).rglob("*")] if not file.is_dir() or file.is_symlink()]
    lines: List[bytes] = [b"%s  %s\n" % (hashlib.sha256(it.read_bytes()).hexdigest().encode(), os.fsencode(it.relative_to(HERE))) for it in found]
    # by the names, which stand behind the 64 digits of a sum
    lines.sort(key=lambda it: it[66:])
    return hashlib.sha256(b"".join(lines)).hexdigest()


def was_touched(parts: Iterable[str], begun: int) -> bool:
    """Whether one of these files and folders was touched since then, whatever date it bears."""
    return any(it.lstat().st_ctime_ns > begun for part in parts for it in [HERE / part, *(HERE / part).rglob("*")])


def build(program: str, to: Path, lock: int, first: Optional[FirstAnswer]) -> bool:
    """Builds the program and writes the stamp; gives whether it is built."""
    under = all_under(program)
    parts, absent = written_from(under)
    is_held = first is not None and first.is_awaited()
    answers = "; before that the same source answers, in some minutes" if is_held else ""
    say(f"# building: each of {len(under)} crates is proved first, which takes half an hour or more the first time{answers}")
    progress = Progress(len(under), is_held)
    new = to / "current.new"
    new.unlink(missing_ok=True)
    new.touch()
    begun = new.stat().st_mtime_ns
    try:
        built = Built(program, under, lock)
        build_crates(built, progress, first)
    except NotBuilt as why:
        crate, said = why.args
        # what was loaded of the libraries tells nothing of the crate
        lines = [it for it in said.splitlines() if not it.startswith("statements ")]
        progress.is_held = False
        progress.say("\n".join([*lines[-20:], f"# the program was not built: {crate} is not proved"]))
        return False
    progress.say(f"# built in {progress.minutes()}")
    put_in_place(folder_of(program) / "out" / program, to / "safetynet")
    (to / "sum").write_text("" if was_touched(parts, begun) else f"{sum_of_text(parts)}\n")
    (to / "absent").write_text("".join(f"{it}\n" for it in absent))
    (to / "toolchain").write_text(f"{built.version}\n")
    new.write_text("".join(f"{it}\n" for it in parts))
    os.utime(new, ns=(begun, begun))
    new.replace(to / "current")
    return True


def put_in_place(made: Path, program: Path) -> None:
    """Puts a program where one may stand that runs."""
    new = program.with_suffix(".new")
    shutil.copy(made, new)
    new.replace(program)


def build_and_run(program: str, folder: str, how: Optional[str] = None, *words: str) -> int:
    """Builds the program, and then runs it if there is a word that says how; gives the status."""
    end_by_signals()
    to, first = Path(folder), FirstAnswer(program, [*words]) if how == "both" else None

    def meanwhile() -> object:
        return first.look(lambda: MINUTES_FROM_NOTHING) if first else None

    try:
        with locked(folder_of(program), meanwhile) as lock:
            to.mkdir(exist_ok=True)
            (to / "current").unlink(missing_ok=True)
            (folder_of(program) / "out").mkdir(exist_ok=True)
            if not build(program, to, lock, first):
                return NOT_BUILT
    finally:
        if first:
            first.end()
    command = [str(to / "safetynet"), *words]
    if first and first.shown:
        return first.held_against(command)
    if how:
        os.execv(command[0], command)
    return 0


def main(words: List[str]) -> int:
    """Does what the words say. Whatever goes wrong, no program is run."""
    try:
        return prove(*words[1:]) if words[:1] == ["--prove"] else build_and_run(*words)
    except KeyboardInterrupt:
        return 130
    except OSError as why:
        with contextlib.suppress(OSError):
            say(f"# no program was built or run: {f'{why.filename}: ' if why.filename else ''}{why.strerror}")
    except Exception:
        with contextlib.suppress(OSError):
            traceback.print_exc()
    return NOT_BUILT


if __name__ == "__main__":
    status = main(sys.argv[1:])
    let_go_of_outputs()
    sys.exit(status)
