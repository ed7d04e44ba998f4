"""What the head of a program says of how it is loaded: its loader, and the libraries that it needs."""
from __future__ import annotations

import os

LOAD, DYNAMIC, INTERPRETER = 1, 2, 3  # kinds of the parts of a program
NEEDED, STRING_TABLE = 1, 5  # kinds of entries of the dynamic part
C_LIBRARY = ("libc.so", "libm.so", "libdl.so", "librt.so", "libpthread.so", "libstdc++.so", "libgcc_s.so", "ld-linux")


def number(text: bytes, at: int, size: int) -> int:
    return int.from_bytes(text[at:at + size], "little")


def parts(text: bytes) -> list[tuple[int, int, int, int]]:
    """The parts of a program of 64 bits: kind, place in the file, address, size in the file. None of another program."""
    if text[:6] != b"\x7fELF\x02\x01":
        return []
    first, size, count = number(text, 32, 8), number(text, 54, 2), number(text, 56, 2)
    heads = [first + size * at for at in range(count)]
    return [(number(text, at, 4), number(text, at + 8, 8), number(text, at + 16, 8), number(text, at + 32, 8)) for at in heads]


def loader(text: bytes) -> str | None:
    """The loader that a program asks for."""
    for kind, place, _, size in parts(text):
        if kind == INTERPRETER:
            return os.fsdecode(text[place:place + size].rstrip(b"\0"))
    return None


def needed(text: bytes) -> list[str]:
    """The names of the libraries that a program needs."""
    all_parts = parts(text)
    entries = [(number(text, at, 8), number(text, at + 8, 8)) for kind, place, _, size in all_parts if kind == DYNAMIC
               for at in range(place, place + size, 16)]
    addresses = [value for tag, value in entries if tag == STRING_TABLE]
    places = [place + address - start for address in addresses[:1] for kind, place, start, size in all_parts
              if kind == LOAD and start <= address < start + size]
    return [name_at(text, places[0] + value) for tag, value in entries if tag == NEEDED] if places else []


def name_at(text: bytes, at: int) -> str:
    return os.fsdecode(text[at:text.find(b"\0", at)])


def listed(output: bytes) -> list[str]:
    """The paths in a loader's list of libraries: lines as `libm.so.6 => /lib/libm.so.6 (0x7f..)`."""
    found = []
    for line in os.fsdecode(output).split("\n"):
        path = line[line.find("/"):].rpartition(" (0x")[0] if "/" in line else ""
        if path:
            found.append(path)
    return found
