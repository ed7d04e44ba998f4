"""What a 64-bit ELF file has: its sections, its functions by their symbols, and which addresses lie within one."""
from __future__ import annotations

import struct
import zlib
from bisect import bisect_left
from itertools import chain
from typing import BinaryIO, Iterable, Iterator, NamedTuple

from ..base.files import is_file
from ..base.words import bytes_of

MAGIC = b"\x7fELF\x02\x01"  # 64 bits, the least byte first
HEADER = struct.Struct("<16xHHIQQQIHHHHHH")
SECTION = struct.Struct("<IIQQQQIIQQ")
SYMBOL = struct.Struct("<IBBHQQ")
TABLES = (2, 11)  # the sections .symtab and .dynsym
NAMES = 3  # sections of names, such as those of the sections
NOTES = 7  # sections of notes
BUILD_ID = b"\3\0\0\0GNU\0"  # the type and the owner of the note of a build, which lies in a section of its own
DEBUG_INFORMATION = b"\0.debug_info\0"
FUNCTIONS = (2, 10)  # functions, and such as are chosen when they are loaded
MOST_OF_TABLE = 1 << 28  # bytes
UNDEFINED = 0
COMPRESSED, OF_COMPRESSED = 0x800, struct.Struct("<IIQQ")  # a flag of a section, and what it begins with then
RELOCATABLE = 1  # the type of a file whose addresses the linker has yet to fill in


class Section(NamedTuple):
    """A section of a file."""

    name: int
    kind: int
    flags: int
    address: int
    offset: int
    size: int
    link: int
    info: int
    alignment: int
    of_entry: int

    def content(self, file: BinaryIO) -> bytes:
        file.seek(self.offset)
        return file.read(min(self.size, MOST_OF_TABLE))


def machine_and_sections(file: BinaryIO) -> tuple[int, list[Section]]:
    """The number of a file's machine, and the file's sections."""
    head = file.read(HEADER.size)
    if not head.startswith(MAGIC):
        return 0, []
    _, machine, _, _, _, offset, _, _, _, _, size, count, _ = HEADER.unpack(head)
    if size != SECTION.size:
        return machine, []
    file.seek(offset)
    sections = file.read(size * count)
    return machine, [Section(*words) for words in SECTION.iter_unpack(sections[:len(sections) - len(sections) % size])]


def linked_sections(module: str, names: Iterable[bytes]) -> dict[bytes, bytes]:
    """What those sections of these names have that are there, but for a file that the linker has yet to go through; OSError, ValueError or zlib.error if it
    can't be read."""
    with open(bytes_of(module), "rb") as file:
        kind = int.from_bytes(file.read(18)[16:], "little")
        file.seek(0)
        sections = [] if kind == RELOCATABLE else machine_and_sections(file)[1]
        tables = [section.content(file) for section in sections if section.kind == NAMES]
        table = next((table for table in tables if all(b"\0%s\0" % name in table for name in names)), b"")
        found = {table[section.name:table.find(b"\0", section.name)]: section for section in sections}
        return {name: inflated(found[name], file) for name in names if name in found}


def inflated(section: Section, file: BinaryIO) -> bytes:
    content = section.content(file)
    return zlib.decompressobj().decompress(content[OF_COMPRESSED.size:], MOST_OF_TABLE) if section.flags & COMPRESSED else content


def build_id_of(module: str) -> str:
    """What tells a build of a module from others, as the linker has noted it; empty if it hasn't, or the module can't be read."""
    try:
        with open(bytes_of(module), "rb") as file:
            notes = [section.content(file) for section in machine_and_sections(file)[1] if section.kind == NOTES]
    except (OSError, struct.error, ValueError, MemoryError):
        return ""
    for note in notes:
        size, found, rest = note.partition(BUILD_ID)
        if found:
            return rest[:int.from_bytes(size[-4:], "little")].hex()
    return ""


def build_words(module: str) -> str:
    """A module, and which build it is."""
    return "%s, %s" % (module, "build " + build_id_of(module) if build_id_of(module) else "whose build isn't known")


def has_debug_information(program: str) -> bool:
    """Whether a program has debug information in its own file; of one that can't be read that isn't known, as if it had."""
    try:
        with open(bytes_of(program), "rb") as file:
            return any(DEBUG_INFORMATION in section.content(file) for section in machine_and_sections(file)[1] if section.kind == NAMES)
    except (OSError, struct.error, MemoryError):
        return True


def whole_entries(table: bytes, entry: struct.Struct) -> Iterator[tuple[int, ...]]:
    return entry.iter_unpack(table[:len(table) - len(table) % entry.size])


def is_function(info: int, section: int) -> bool:
    return info & 15 in FUNCTIONS and section != UNDEFINED


def functions_of(module: str) -> Iterator[tuple[int, int]]:
    """The first and the last address, exclusive, of each function that a module names."""
    with open(bytes_of(module), "rb") as file:
        tables = [section.content(file) for section in machine_and_sections(file)[1] if section.kind in TABLES]
        for _, info, _, section, value, size in chain.from_iterable(whole_entries(table, SYMBOL) for table in tables):
            if is_function(info, section) and size:
                yield value, value + size


def within_functions(module: str, addresses: list[int]) -> set[int]:
    """Those of the addresses that lie within a function. A stripped program has symbols of few functions, and the nearest one is
    another function than that of the address."""
    wanted, found = sorted(addresses), set()
    try:
        for first, end in functions_of(module) if is_file(module) else ():
            place = bisect_left(wanted, first)
            while place < len(wanted) and wanted[place] < end:
                found.add(wanted[place])
                place += 1
    except (OSError, struct.error, ValueError, MemoryError):
        pass
    return found
