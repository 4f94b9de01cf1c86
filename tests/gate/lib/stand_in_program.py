#!/usr/bin/env python3
"""Writes a static ELF file for x86-64 that puts a text and ends well: a program that needs nothing, as a stand-in for the proved one.

    stand_in_program.py FILE TEXT
"""
import struct
import sys
from pathlib import Path

PLACE = 0x400000


def program(text: bytes) -> bytes:
    """The file's bytes: its header, one program header, the code, and the text behind it."""
    behind = b"\xba" + struct.pack("<I", len(text)) + b"\x0f\x05" + b"\xb8\x3c\0\0\0\x31\xff\x0f\x05"
    # write(1, what stands behind the code, its length), and exit(0)
    code = b"\xb8\x01\0\0\0\xbf\x01\0\0\0\x48\x8d\x35" + struct.pack("<I", len(behind)) + behind
    size = 120 + len(code) + len(text)
    header = b"\x7fELF\x02\x01\x01" + bytes(9) + struct.pack("<HHIQQQIHHHHHH", 2, 62, 1, PLACE + 120, 64, 0, 0, 64, 56, 1, 0, 0, 0)
    return header + struct.pack("<IIQQQQQQ", 1, 5, 0, PLACE, PLACE, size, size, 4096) + code + text


if __name__ == "__main__":
    made = Path(sys.argv[1])
    made.write_bytes(program(f"{sys.argv[2]}\n".encode()))
    made.chmod(0o755)
