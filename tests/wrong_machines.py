#!/usr/bin/env python3
"""Puts one wrong protocol after another into the machine's definitions, and shows which crate's theorem refuses it.

    tests/wrong_machines.py [NAME ..]

A must-fail edit changes one crate alone, and the theorems about the machine stand above its definitions. So these edits of
crates/sn_model/specs are tried here, by hand: each on a copy of the repository, in which `consistent_cuts` and all that it
stands on is checked. It takes some minutes an edit. The status is 0 where each was refused.
"""
import os
import re
import shutil
import subprocess
import sys
import tempfile
from pathlib import Path
from typing import Optional

ROOT = Path(__file__).resolve().parent.parent
SPECS = Path("crates/sn_model/specs")

# name: what is wrong, the file, the text that stands there once, and what stands there then
WRONG = {
    "noted_once": (
        "the old content is noted only once since the start", "Access.antt",
        "log = log_with_note node.log node.now block", "log = log_with_note node.log 0 block"),
    "tag_ignored": (
        "a delivery ignores the message's tag", "NetEvents.antt",
        "nat_lt (node_at s f.message.to).now f.message.tag then", "nat_lt (node_at s f.message.to).now 0 then"),
    "homes_forgotten": (
        "readiness looks at the miss and the put alone", "NodeEvents.antt",
        "(least_begun (node_at s n).now (length s.nodes) n 0 s.homes)", "(node_at s n).now"),
    "messages_survive": (
        "a recovery keeps the messages in flight", "PointEvents.antt",
        "record net { flights = []; planned = net.dead }", "record net { planned = net.dead }"),
    "copies_survive": (
        "a recovery keeps the lines of the caches, Shared copies among them", "PointEvents.antt",
        "record { lines = restored_lines log k 0 cache.lines; miss", "record { lines = cache.lines; miss"),
    "order_of_retirement": (
        "a validation commits what retired, in order of retirement across intervals", "MachineEvents.antt",
        "records_of (filter (λ r. nat_eq r.interval s.fabric.point) s.pending)", "records_of s.pending"),
    "reservation_survives": (
        "a store-conditional is done after the copy was lost", "MachineEvents.antt",
        "if is_reserved core.reservation block then bare core else core", "core"),
    "output_at_retirement": (
        "output is released when its instruction retires", "Instructions.antt",
        "  held = s.held ++ held_in (node_at s.fabric n).now next.effect.out;", "  released = s.released ++ option_to_list next.effect.out;"),
    "byte_taken_twice": (
        "a byte of input is taken twice", "Instructions.antt",
        " + length (in_of n (records_of s.pending))", ""),
    "node_skipped": (
        "a validation doesn't ask the first node", "MachineEvents.antt",
        "(λ k. nat_le k s.fabric.point) s.reported", "(λ k. nat_le k s.fabric.point) (drop 1 s.reported)"),
    "owner_named_early": (
        "the home names the new owner at the forward", "HomeRows.antt",
        "record at.entry { sharers = no_sharers; transaction = transaction_by Move r now }", "record at.entry { holder = OfCache r; sharers = no_sharers; transaction = transaction_by Move r now }"),
}


def copy_of_repository(folder: str) -> Path:
    """The crates with what their checks kept, so that only what an edit touches is checked again."""
    copy = Path(folder) / "repository"
    shutil.copytree(ROOT / "crates", copy / "crates", symlinks=True)
    for name in ("crates.txt", "HANDLES"):
        shutil.copy2(ROOT / name, copy / name)
    return copy


def refused_by(copy: Path) -> Optional[str]:
    """The crate whose check fails first, or None where all is proved."""
    done = subprocess.run(["rt", "check"], cwd=copy / "crates/consistent_cuts", capture_output=True, text=True)
    if done.returncode == 0:
        return None
    found = re.findall(r"^(?:\./)?(\S+\.antt):\d+:\d+: error: (.*)$", done.stdout + done.stderr, re.M)
    crates = re.findall(r"^rt: chose --jobs \d+ for (\w+)$", done.stdout + done.stderr, re.M)
    place = f"{found[0][0]}: {found[0][1][:90]}" if found else "see rt check"
    return f"{crates[-1] if crates else '?'}, {place}"


def main() -> int:
    names = sys.argv[1:] or list(WRONG)
    missed = 0
    with tempfile.TemporaryDirectory(dir=os.environ.get("TMPDIR")) as folder:
        copy = copy_of_repository(folder)
        for name in names:
            wrong, file, old, new = WRONG[name]
            path = copy / SPECS / file
            right = path.read_text()
            if right.count(old) != 1:
                print(f"{name}: the text stands {right.count(old)} times in {file}")
                return 2
            path.write_text(right.replace(old, new))
            crate = refused_by(copy)
            path.write_text(right)
            missed += crate is None
            print(f"{name} ({wrong}): " + (f"refused by {crate}" if crate else "NOT REFUSED"), flush=True)
    return 1 if missed else 0


if __name__ == "__main__":
    sys.exit(main())
