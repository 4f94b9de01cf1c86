#!/usr/bin/env python3
"""Installs the program under a folder, with its pages, its manual page and its completion for bash.

    tools/install.py PREFIX          installs; PREFIX is relative to where the user stands
    tools/install.py --can PREFIX    says what stands in the way, if something does, and leaves nothing behind

In a checkout `./safetynet install PREFIX` calls this once the program is built of the present text; in an archive of tools/release users do.
All files are put beside their places first and then renamed. Where one can't be, those before it are put back: either all are new, or all are
as they were. What can't be done is one line on standard error, and status 1.
"""
import contextlib
import os
import shutil
import signal
import sys
from pathlib import Path
from typing import List, NamedTuple, Optional

HERE = Path(__file__).resolve().parent.parent
PAGES = "share/safetynet/pages"


class Placed(NamedTuple):
    """A file, its place under PREFIX, and its mode there."""

    source: Path
    place: str
    mode: int


class Refused(Exception):
    """What can't be done, and why."""


def placed() -> List[Placed]:
    """What is installed: from a checkout, or from an archive, where each file stands in its place."""
    pages_beside = HERE / "crates/safetynet_program/pages"
    is_checkout = pages_beside.is_dir()
    pages = sorted((pages_beside if is_checkout else HERE / PAGES).glob("*.txt"))
    from_checkout = [
        Placed(HERE / "build/safetynet", "bin/safetynet", 0o755),
        Placed(HERE / "docs/safetynet.1", "share/man/man1/safetynet.1", 0o644),
        Placed(HERE / "contrib/completion.bash", "share/bash-completion/completions/safetynet", 0o644),
        *(Placed(it, f"{PAGES}/{it.name}", 0o644) for it in pages),
    ]
    return from_checkout if is_checkout else [it._replace(source=HERE / it.place) for it in from_checkout]


def objection(target: Path) -> Optional[str]:
    """What stands in the way of a file in this place, as far as that can be seen beforehand."""
    if target.is_dir():
        return f"{target} is a folder"
    above = next(it for it in target.parents if os.path.lexists(it))
    return None if above.is_dir() else f"{above} is no folder"


def prefix_of(words: List[str]) -> Path:
    """The folder that the words name, if nothing is seen to stand in the way of a file."""
    if len(words) != 1 or not words[0] or words[0].startswith("-"):
        raise Refused("name one PREFIX, the folder to install under")
    prefix = Path(os.path.abspath(words[0]))
    for it in placed():
        why = objection(prefix / it.place)
        if why:
            raise Refused(why)
    return prefix


def beside(target: Path, what: str) -> Path:
    """Where the new file, or a copy of the old one, stands beside its place."""
    return target.with_name(f".{target.name}.{os.getpid()}.{what}")


def make_folder(folder: Path, made: List[Path]) -> None:
    """Makes a folder with those above it, and notes which weren't there."""
    lacking = [it for it in [folder, *folder.parents] if not it.is_dir()]
    for it in reversed(lacking):
        it.mkdir()
        made.append(it)
        it.chmod(0o755)


def put_beside(prefix: Path, files: List[Placed], made: List[Path]) -> None:
    """Puts each file beside its place, and notes what was made."""
    for it in files:
        target = prefix / it.place
        try:
            make_folder(target.parent, made)
            made.append(beside(target, "new"))
            shutil.copyfile(it.source, made[-1])
            made[-1].chmod(it.mode)
        except OSError as why:
            raise Refused(f"{target if it.source.exists() else it.source}: {why.strerror}") from why


def keep(targets: List[Path], made: List[Path]) -> None:
    """Puts a copy of each old file beside it, and notes what was made."""
    for it in filter(os.path.lexists, targets):
        made.append(beside(it, "old"))
        shutil.copy2(it, made[-1], follow_symlinks=False)


def rename_all(targets: List[Path]) -> None:
    """Renames each new file to its place. Where one can't be, those before it become what they were."""
    renamed: List[Path] = []
    try:
        for it in targets:
            beside(it, "new").replace(it)
            renamed.append(it)
    except OSError as why:
        for it in renamed:
            if os.path.lexists(beside(it, "old")):
                beside(it, "old").replace(it)
            else:
                it.unlink()
        raise Refused(f"{targets[len(renamed)]}: {why.strerror}") from why


def take_away(made: List[Path]) -> None:
    """Takes away what was made and still is there, the last first. A folder into which others put something stays."""
    for it in reversed(made):
        with contextlib.suppress(OSError):
            if it.is_dir() and not it.is_symlink():
                it.rmdir()
            else:
                it.unlink()


def can_write(prefix: Path) -> None:
    """Makes the folders and an empty file beside each place, and takes all away again. Raises what can't be made."""
    made: List[Path] = []
    try:
        put_beside(prefix, [it._replace(source=Path(os.devnull)) for it in placed()], made)
    finally:
        take_away(made)


def install(prefix: Path) -> None:
    """Puts all files in their places, or leaves everything as it was."""
    files = placed()
    targets = [prefix / it.place for it in files]
    made: List[Path] = []
    try:
        put_beside(prefix, files, made)
        keep(targets, made)
        # from here on nothing breaks in
        signal.pthread_sigmask(signal.SIG_BLOCK, {signal.SIGINT, signal.SIGTERM})
        rename_all(targets)
    except BaseException:
        take_away(made)
        raise
    take_away([it for it in made if it.suffix == ".old"])
    for page in set((prefix / PAGES).glob("*.txt")).difference(targets):
        # a page that is no more, which harms nobody
        with contextlib.suppress(OSError):
            page.unlink()


def main(words: List[str]) -> int:
    signal.signal(signal.SIGTERM, lambda *_: sys.exit(143))
    try:
        is_asked = words[:1] == ["--can"]
        prefix = prefix_of(words[1:] if is_asked else words)
        if is_asked:
            can_write(prefix)
            return 0
        install(prefix)
    except (Refused, OSError) as why:
        said = f"{why.filename or words[-1]}: {why.strerror}" if isinstance(why, OSError) else str(why)
        print(f"# install: {said}; nothing was installed", file=sys.stderr)
        return 1
    print(f"# installed {prefix}/bin/safetynet, and pages, manual page and completion in {prefix}/share", file=sys.stderr)
    return 0


if __name__ == "__main__":
    try:
        sys.exit(main(sys.argv[1:]))
    except KeyboardInterrupt:
        sys.exit(130)
