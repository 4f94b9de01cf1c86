"""A repository of a few crates and a program over them, for measurements and comparisons that call the crates without the whole program."""
import re
import subprocess
from pathlib import Path
from typing import Dict, List, Optional

ROOT = Path(__file__).resolve().parent.parent


def needs_of(lines: str) -> Dict[str, List[str]]:
    """What each crate of a crates.txt names."""
    found = re.findall(r"^(\w+)[^:#\n]*:(.*)$", lines, re.MULTILINE)
    return {name: needs.split() for name, needs in found}


def below(names: List[str], needs: Dict[str, List[str]]) -> List[str]:
    """The crates of the repository that these stand on, themselves among them."""
    seen: List[str] = []
    for name in names:
        for lower in below(needs.get(name, []), needs) + [name]:
            if lower in needs and lower not in seen:
                seen.append(lower)
    return seen


def listed(revision: Optional[str] = None) -> str:
    """crates.txt as it stands in the revision or, with none, here."""
    if revision is None:
        return (ROOT / "crates.txt").read_text()
    return subprocess.run(["git", "show", f"{revision}:crates.txt"], cwd=ROOT, check=True, capture_output=True, text=True).stdout


def copy_crates(folder: Path, revision: Optional[str], names: List[str]) -> None:
    """The sources of these crates, as they stand in the revision or, with none, here."""
    paths = [f"crates/{name}" for name in names]
    if revision is None:
        command = ["tar", "-c", "--exclude=out"] + paths
    else:
        command = ["git", "archive", revision] + paths
    packed = subprocess.run(command, cwd=ROOT, check=True, capture_output=True).stdout
    subprocess.run(["tar", "-x"], cwd=folder, check=True, input=packed)


def write_program(folder: Path, name: str, mentions: str, files: Dict[str, str], lower: List[str], needs: Dict[str, List[str]]) -> Path:
    """Writes a program's crate, with these files, beside those below it, and the list of all; gives its folder."""
    made = folder / "crates" / name
    for file, text in {"specs/Lib.antt": "", "proofs/Lib.antt": "", **files}.items():
        (made / file).parent.mkdir(parents=True, exist_ok=True)
        (made / file).write_text(text)
    lines = "".join(f"{it}: {' '.join(needs[it])}\n" for it in lower)
    (folder / "crates.txt").write_text(f"{lines}{name}: {mentions}\n")
    return made


def with_program(folder: Path, name: str, mentions: str, files: Dict[str, str], revision: Optional[str] = None) -> Path:
    """Copies the crates that a program mentions, and all below them, and writes the program's crate beside them; gives its folder."""
    needs = needs_of(listed(revision))
    lower = below(mentions.split(), needs)
    copy_crates(folder, revision, lower)
    return write_program(folder, name, mentions, files, lower, needs)
