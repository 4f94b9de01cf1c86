#!/usr/bin/env python3
"""Resumes from save files that are spoiled in one place, or in two of which the first counts, and from files at their bounds.

    tests/spoiled_saves.py PROGRAM

PROGRAM is the built program. Each row is a save file and what comes of it by the rules of docs/FORMATS.md: it is gone on from, with so many records
committed, or it is refused for one cause at one line, record, node or pair of nodes, which the line `# why: ` names. A file that is refused has
nothing written but this line and the status. The last line tells how many rows there were, and the status is 1 where one isn't so.
"""
from __future__ import annotations

import re
import subprocess
import sys
import tempfile
from collections import Counter
from pathlib import Path
from typing import Dict, Iterator, List, NamedTuple, Tuple

TOP = Path(__file__).resolve().parent.parent
SECONDS = 120

# `jal x0, 0`: whatever comes, each core's next instruction sees nothing, for ever.
SPIN = "0000006f\n"
# Reads a byte, puts it out, and ends.
ECHO = (TOP / "examples/shared/echo.hex").read_text(encoding="ascii")
# Counts for ever in a word that the cores share, and puts a digit out for each count.
LETTERS = (TOP / "examples/save/letters.hex").read_text(encoding="ascii")

# Where the line that says why has the numbers of a cause.
AT_LINE = rb"# why: a\.save:([0-9]+): "
NUMBERS: Dict[str, bytes] = {
    "badline": AT_LINE,
    "outofrange": AT_LINE,
    "setfull": AT_LINE,
    "cutoff": rb"nodes ([0-9]+) and ([0-9]+) are cut off",
    "notlegal": rb"`rec` line ([0-9]+) after",
    "unread": rb"node ([0-9]+) has read",
}


class Row(NamedTuple):
    """A save file, and what comes of it: `committed` and how many records, or the word of a cause and its numbers."""

    what: str
    save: str
    comes: str
    program: str = SPIN


def saved(*lines: str, config: str = "2 16 4 256", marks: str = "1 1 4", end: str = "end\n") -> str:
    """A save file with these lines behind the first three; it is good where they are."""
    head = ["safetynet-save 1", f"config {config}", f"marks {marks}"]
    return "".join(f"{line}\n" for line in [*head, *lines]) + end


def record(node: int, word: str = "00000000", flag: int = 0, byte: str = "") -> str:
    return f"rec {node} {word} {flag}" + (f" {byte}" if byte else "")


# A file with each kind of line, twice where there may be two.
WHOLE = saved("dead b0", "dead b1", "owner 64 0", "owner 65 1", "given 0 41", "given 1 42", record(0), record(1)).splitlines()


def of_lines(lines: List[str]) -> str:
    return "".join(f"{line}\n" for line in lines)


def good() -> Iterator[Row]:
    yield Row("each kind of line", of_lines(WHOLE), "committed 2")
    yield Row("a start at which nothing has happened", saved(marks="0 1 0"), "committed 0")


def orders() -> Iterator[Row]:
    """Each line exchanged with the next, doubled, and left out."""
    exchanged = ["badline 1", "badline 2", "badline 3", "outofrange 5", "badline 6", "outofrange 7", "badline 8", "outofrange 9", "badline 10", "committed 2",
                 "badline 12"]
    for place, comes in enumerate(exchanged):
        lines = [*WHOLE[:place], WHOLE[place + 1], WHOLE[place], *WHOLE[place + 2:]]
        yield Row(f"lines {place + 1} and {place + 2} exchanged", of_lines(lines), comes)
    doubled = ["badline 2", "badline 3", "badline 4", "outofrange 5", "outofrange 6", "outofrange 7", "outofrange 8", "committed 2", "committed 2",
               "committed 3", "committed 3", "badline 13"]
    for place, comes in enumerate(doubled):
        yield Row(f"line {place + 1} twice", of_lines([*WHOLE[:place + 1], *WHOLE[place:]]), comes)
    left_out = ["badline 1", "badline 2", "badline 3", *["committed 2"] * 6, *["committed 1"] * 2, "badline 12"]
    for place, comes in enumerate(left_out):
        yield Row(f"without line {place + 1}", of_lines([*WHOLE[:place], *WHOLE[place + 1:]]), comes)


def ends() -> Iterator[Row]:
    """The end lacks, stands twice, is another line, or has text behind it."""
    yield Row("no byte", "", "badline 1")
    yield Row("one empty line", "\n", "badline 1")
    yield Row("the first line without its LF", "safetynet-save 1", "badline 1")
    yield Row("the first line alone", "safetynet-save 1\n", "badline 2")
    yield Row("no end", saved(record(0), end=""), "badline 5")
    for last in ["end", "end ", "End\n", "end \n", " end\n", "end\r\n", "en\n", "\n", "x"]:
        yield Row(f"{last!r} as the last line", saved(record(0), end=last), "badline 5")
    for behind in ["end\n", "end", "\n", " ", "x", "\0", "# a comment\n", record(0) + "\n"]:
        yield Row(f"{behind!r} behind the end", saved(record(0)) + behind, "badline 6")


def forms() -> Iterator[Row]:
    """A line of another form, for each kind. In one line form comes before range."""
    yield Row("each line ends with CR and LF", of_lines(WHOLE).replace("\n", "\r\n"), "badline 1")
    for line in ["safetynet-save 2", "safetynet-save", " safetynet-save 1", "safetynet-save 01", "# safetynet-save 1", "", "\ufeffsafetynet-save 1"]:
        yield Row(f"{line!r} as the first line", of_lines([line, *WHOLE[1:]]), "badline 1")
    for config in ["2 16 4", "2 16 4 256 1", "2  16 4 256", "2 16 4 256 ", "2\t16 4 256", "02 16 4 256", "2 16 4 0256", "-2 16 4 256", "+2 16 4 256", "2 16 4 2x",
                   "17 16 4 x", "0 0 0", "18446744073709551616 16 4 256"]:
        yield Row(f"config {config!r}", saved(config=config), "badline 2")
    for marks in ["1 1", "1 1 4 0", "1  1 4", "1 1 4 ", "1 01 4", "1 1 04", "1 -1 4", "5 0 x", "1 18446744073709551616 4", "18446744073709551616 1 4"]:
        yield Row(f"marks {marks!r}", saved(marks=marks), "badline 3")
    for line in ["dead", "dead ", "dead a", "dead c0", "dead A0", "dead 0", "dead a00", "dead a-1", "dead a0 ", "dead  a0", "dead a0 b0", "dead a18446744073709551616",
                 "owner 64", "owner 64 0 0", "owner 064 0", "owner 64  0", "owner 64 0 ", "owner x 0", "owner 65536 x", "owner 18446744073709551616 0",
                 "given 0", "given 0 4", "given 0 411", "given 0 4G", "given 0 4A", "given 0 0x41", "given 00 41", "given 0 41 ", "given 2 4A",
                 "rec", "rec ", "rec 0", "rec 0 00000000", "rec 0 0000000 0", "rec 0 000000000 0", "rec 0 0000000A 0", "rec 0 00000000 2", "rec 0 00000000 00",
                 "rec 0 00000000 0 4", "rec 0 00000000 0 4A", "rec 0 00000000 0 41 ", "rec 00 00000000 0", "rec  0 00000000 0", "rec 2 0000000 0",
                 "0 00000000 0", "step 0", "# a comment", "", " ", "end 0", "safetynet-save 1", "config 2 16 4 256", "marks 1 1 4"]:
        yield Row(f"the line {line!r}", saved(line), "badline 4")


def sizes() -> Iterator[Row]:
    for config in ["1 1 1 4", "16 256 16 4096"]:
        yield Row(f"config {config} at its bounds", saved(config=config, marks="0 1 0"), "committed 0")
    for config in ["0 16 4 256", "17 16 4 256", "2 0 4 256", "2 257 4 256", "2 16 0 256", "2 16 17 256", "2 16 4 3", "2 16 4 4097", "18446744073709551615 16 4 256",
                   "258 16 4 256", "2 65552 4 256", "2 16 260 256", "2 16 4 65792"]:
        yield Row(f"config {config} beyond them", saved(config=config), "outofrange 2")


def marks() -> Iterator[Row]:
    for numbers in ["0 1 0", "0 18 1", "1 1 1", "0 1 3000000000", "3000000000 51000000001 3000000000"]:
        yield Row(f"marks {numbers} at their bounds", saved(marks=numbers), "committed 0")
    for numbers in ["0 0 0", "0 2 0", "1 1 0", "0 0 1", "0 19 1", "2 1 1", "0 1 3000000001", "3000000000 51000000002 3000000000", "3000000001 1 3000000000",
                    "4294967296 1 1", "0 18446744073709551615 1", "0 1 4294967296", "0 1 18446744073709551615", "18446744073709551615 1 1"]:
        yield Row(f"marks {numbers} beyond them", saved(marks=numbers), "outofrange 3")


def items() -> Iterator[Row]:
    """Switches, blocks, nodes and counts of lines at their bounds, and one beyond."""
    yield Row("the last switch", saved("dead b1"), "committed 0")
    yield Row("the last of sixteen nodes' switches", saved("dead b15", config="16 16 4 256"), "committed 0")
    for line in ["dead a2", "dead b2", "dead a16", "dead a18446744073709551615"]:
        yield Row(f"{line} of two nodes", saved(line), "outofrange 4")
    yield Row("a dead switch before any event", saved("dead b1", marks="0 1 0"), "outofrange 4")
    yield Row("the first and the last block", saved("owner 0 0", "owner 65535 1"), "committed 0")
    for line in ["owner 65536 0", "owner 64 2", "owner 64 18446744073709551615", "owner 18446744073709551615 0", "owner 65600 0"]:
        yield Row(f"{line} of two nodes", saved(line), "outofrange 4")
    yield Row("a block twice", saved("owner 64 0", "owner 64 1"), "outofrange 5")
    yield Row("an owner before any event", saved("owner 64 0", marks="0 1 0"), "outofrange 4")
    yield Row("the least and the greatest byte", saved("given 0 00", "given 1 ff"), "committed 0")
    yield Row("a byte of a third node", saved("given 2 41"), "outofrange 4")
    yield Row("as many bytes as events", saved("given 0 41", marks="1 1 1"), "committed 0")
    yield Row("a byte more", saved("given 0 41", "given 0 42", marks="1 1 1"), "outofrange 5")
    yield Row("a byte before any event", saved("given 0 41", marks="0 1 0"), "outofrange 4")
    yield Row("as many records as events", saved(record(0), marks="1 1 1"), "committed 1")
    yield Row("a record more", saved(record(0), record(0), marks="1 1 1"), "outofrange 5")
    yield Row("a record at point 0", saved(record(0), marks="0 1 4"), "outofrange 4")
    yield Row("a record of a third node", saved(record(2)), "outofrange 4")
    yield Row("the 1,000,001st byte", saved(*["given 0 41"] * 1_000_001, marks="1 1 3000000000"), "outofrange 1000004")
    yield Row("the 1,000,001st record", saved(*[record(0)] * 1_000_001, marks="1 1 3000000000"), "outofrange 1000004")


def points() -> Iterator[Row]:
    """Files whose lines are good, refused for what they say."""
    yield Row("a node without a living switch", saved("dead a0", "dead b0"), "cutoff 0 0")
    yield Row("one node without one", saved("dead a0", "dead b0", config="1 16 4 256"), "cutoff 0 0")
    yield Row("two nodes that no link joins", saved("dead a0"), "cutoff 0 1")
    yield Row("the first of many such pairs", saved("dead a3", "dead b3", config="4 16 4 256"), "cutoff 0 3")
    yield Row("switches that leave a way", saved("dead b0", "dead b1"), "committed 0")
    for sets, ways in [(1, 1), (1, 4), (16, 4), (256, 16)]:
        full = [f"owner {sets * place} 1" for place in range(ways)]
        config = f"2 {sets} {ways} 256"
        yield Row(f"{ways} ways that are full", saved(*full, config=config), "committed 0")
        yield Row(f"and one too many, in {sets} sets", saved(*full, f"owner {sets * ways} 1", config=config), f"setfull {4 + ways}")
        yield Row(f"of another node, in {sets} sets", saved(*full, f"owner {sets * ways} 0", config=config), "committed 0")
        yield Row(f"behind a dead switch, in {sets} sets", saved("dead b1", *full, f"owner {sets * ways} 1", config=config), f"setfull {5 + ways}")
    yield Row("a word that isn't there", saved(record(0), record(1, "00000001")), "notlegal 2")
    yield Row("a conditional store that is none", saved(record(0), record(1, flag=1)), "notlegal 2")
    yield Row("a byte that nobody asks for", saved("given 0 41", record(0, byte="41")), "notlegal 1")
    read = [record(0), record(0, byte="41")]
    yield Row("a core that has ended", saved("given 0 41", *read, *[record(0)] * 4, marks="1 1 9"), "committed 6", ECHO)
    yield Row("and goes on", saved("given 0 41", *read, *[record(0)] * 5, marks="1 1 9"), "notlegal 7", ECHO)
    yield Row("a byte that was given", saved("given 0 41", *read), "committed 2", ECHO)
    yield Row("and another behind it", saved("given 0 41", "given 0 42", *read), "committed 2", ECHO)
    yield Row("no byte where one is wanted", saved("given 0 41", record(0), record(0)), "notlegal 2", ECHO)
    yield Row("a byte that wasn't given", saved(*read), "unread 0", ECHO)
    yield Row("another byte", saved("given 0 42", *read), "unread 0", ECHO)
    yield Row("a byte of another node", saved("given 1 41", *read), "unread 0", ECHO)
    yield Row("a byte that isn't the first", saved("given 0 42", "given 0 41", *read), "unread 0", ECHO)
    yield Row("the second node's byte", saved("given 0 41", *read, record(1), record(1, byte="41")), "unread 1", ECHO)


def twofold() -> Iterator[Row]:
    """Two causes in one file, of which the first in their order counts."""
    yield Row("two lines of other forms", saved("dead", "owner", "given"), "badline 4")
    yield Row("a range before a form", saved("dead a2", "owner"), "outofrange 4")
    yield Row("a form before a range", saved("dead", "owner 65536 0"), "badline 4")
    yield Row("sizes and marks out of range", saved(config="17 16 4 256", marks="2 1 1"), "outofrange 2")
    yield Row("a wrong place and a wrong range in one line", saved("owner 64 0", "dead a9"), "badline 5")
    yield Row("a range, and no end", saved("owner 64 2", end=""), "outofrange 4")
    yield Row("no end, and nodes that are cut off", saved("dead a0", end=""), "badline 5")
    yield Row("a range, and nodes that are cut off", saved("dead a0", record(0), record(2)), "outofrange 6")
    yield Row("text behind the end, and a record that is no step", saved(record(0, "00000001")) + "x", "badline 6")
    crowd = [f"owner {block} 1" for block in (0, 16, 32, 48, 64)]
    yield Row("cut off, and a full set", saved("dead a0", *crowd), "cutoff 0 1")
    yield Row("cut off, and a record that is no step", saved("dead a0", record(0, "00000001")), "cutoff 0 1")
    yield Row("two full sets", saved(*crowd, "owner 80 1", marks="1 1 9"), "setfull 8")
    yield Row("a full set, and a record that is no step", saved(*crowd, record(0, "00000001"), marks="1 1 9"), "setfull 8")
    yield Row("a full set, and a byte that wasn't given", saved(*crowd, record(0), record(0, byte="41"), marks="1 1 9"), "setfull 8", ECHO)
    yield Row("two records that are no step", saved(record(0), record(0, "00000001"), record(1, "00000001")), "notlegal 2")
    yield Row("a byte that wasn't given, and then no step", saved(record(0), record(0, byte="41"), record(1, "00000001")), "notlegal 3", ECHO)
    yield Row("two nodes' bytes that weren't given", saved(record(1), record(1, byte="41"), record(0), record(0, byte="41")), "unread 0", ECHO)


def other_digit(digit: str, by: int) -> str:
    return f"{(int(digit, 16) + by) % 16:x}"


def spoiled_records() -> Iterator[Row]:
    """Each record of examples/save/twice.save spoiled in one digit of its word, in its flag, and by a byte."""
    lines = (TOP / "examples/save/twice.save").read_text(encoding="ascii").splitlines()
    first = next(place for place, line in enumerate(lines) if line.startswith("rec "))
    records = lines[first:-1]
    yield Row("the file as it is", of_lines(lines), f"committed {len(records)}", LETTERS)

    def with_record(place: int, line: str) -> str:
        return of_lines([*lines[:first + place], line, *lines[first + place + 1:]])

    for place, line in enumerate(records):
        _, node, word, flag = line.split(" ")
        digits = range(8) if word != "00000000" else [place % 8]
        for digit in digits:
            changed = word[:digit] + other_digit(word[digit], 1 + place % 15) + word[digit + 1:]
            yield Row(f"record {place + 1} sees {changed}", with_record(place, f"rec {node} {changed} {flag}"), f"notlegal {place + 1}", LETTERS)
        yield Row(f"record {place + 1} did a store", with_record(place, f"rec {node} {word} 1"), f"notlegal {place + 1}", LETTERS)
        yield Row(f"record {place + 1} read a byte", with_record(place, f"{line} 41"), f"notlegal {place + 1}", LETTERS)


def rows() -> List[Row]:
    parts = [good, orders, ends, forms, sizes, marks, items, points, twofold, spoiled_records]
    return [row for part in parts for row in part()]


def said(status: int, console: bytes, report: bytes) -> str:
    """What a call came to, in the words of a row; the whole where it is none of these."""
    committed = re.search(rb"^committed ([0-9]+)$", report, re.MULTILINE)
    if status == 0 and not console and committed:
        return f"committed {committed[1].decode()}"
    word = re.fullmatch(rb"(# why: [^\n]*\n)# safetynet: save ([a-z]+)\n", report)
    if status == 12 and not console and word:
        numbers = re.search(NUMBERS.get(word[2].decode(), rb"(?!)"), word[1])
        if numbers:
            return " ".join([word[2].decode(), *(number.decode() for number in numbers.groups())])
    return f"status {status}, console {console[:100]!r}, report {report[-300:]!r}"


def resumed(program: str, folder: Path, row: Row) -> str:
    """What comes of a row's file, with a script that has no event."""
    (folder / "a.hex").write_text(row.program, encoding="ascii")
    (folder / "a.save").write_bytes(row.save.encode())
    words = [program, "resume", "a.hex", "a.save", "/dev/null"]
    done = subprocess.run(words, cwd=folder, stdin=subprocess.DEVNULL, capture_output=True, timeout=SECONDS, check=False)
    return said(done.returncode, done.stdout, done.stderr)


def judged(program: str) -> Tuple[List[str], Counter[str]]:
    """What isn't so, a line a row, and how often each word came."""
    wrong: List[str] = []
    words: Counter[str] = Counter()
    with tempfile.TemporaryDirectory() as folder:
        for row in rows():
            comes = resumed(program, Path(folder), row)
            words[comes.split(" ")[0]] += 1
            if comes != row.comes:
                wrong.append(f"{row.what}: {comes} and not {row.comes}")
    return wrong, words


def main() -> int:
    if len(sys.argv) != 2:
        print(__doc__)
        return 2
    wrong, words = judged(str(Path(sys.argv[1]).resolve()))
    for line in wrong:
        print(line)
    counts = ", ".join(f"{count} {word}" for word, count in sorted(words.items()))
    print(f"{sum(words.values())} save files, {len(wrong)} of them not as they should be; {counts}")
    return 1 if wrong else 0


if __name__ == "__main__":
    sys.exit(main())
