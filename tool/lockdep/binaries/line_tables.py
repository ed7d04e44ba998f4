"""Of which file code is, by the line tables of DWARF 5 in a module's own file. addr2line of binutils 2.40 takes another file for code of the table's first
one, as for functions of a header that begins a unit of gcc. What isn't understood here is left to addr2line."""
from __future__ import annotations

import os
import re
import struct
import zlib
from bisect import bisect_right
from dataclasses import dataclass
from typing import Iterable, Iterator, NamedTuple

from ..base.words import text_of
from .elf import linked_sections

SET_ADDRESS = re.compile(rb"\0\x09\x02(.{8})", re.DOTALL)  # begins a sequence of rows; other bytes may look so, too
FIXED = {0x0b: 1, 0x05: 2, 0x06: 4, 0x07: 8, 0x1e: 16}  # bytes of the forms of numbers and checksums
STRING, BLOCK, NUMBER, IN_STRINGS, IN_LINE_STRINGS = 0x08, 0x09, 0x0f, 0x0e, 0x1f
PATH, FOLDER = 1, 2  # what a file of the table has
ADVANCE, FILE, BY_MOST, BY_FIXED = 2, 4, 8, 9  # codes of a program of lines that change the address or the file
END_OF_SEQUENCE, ADDRESS = 1, 2  # what follows a code 0
MOST_TRIED = 4  # beginnings of sequences before an address


class Row(NamedTuple):
    """From which address on code is of a file, by its number; 0 from the end of a sequence on."""

    address: int
    file: int


@dataclass
class Bytes:
    """What is read of a table, and how far."""

    data: bytes
    at: int = 0

    def number(self, size: int) -> int:
        self.at += size
        if self.at > len(self.data):
            raise ValueError("the table ends here")
        return int.from_bytes(self.data[self.at - size:self.at], "little")

    def leb(self) -> int:
        """A number of seven bits a byte. (Of a signed one as many bytes are passed over.)"""
        value = shift = 0
        while True:
            byte = self.data[self.at]
            self.at += 1
            value |= (byte & 127) << shift
            shift += 7
            if byte < 128:
                return value

    def string(self) -> bytes:
        end = self.data.index(0, self.at)
        start, self.at = self.at, end + 1
        return self.data[start:end]


class Unit:
    """The table of one unit of the section `.debug_line`; ValueError if it isn't of DWARF 5."""

    def __init__(self, sections: dict[bytes, bytes], start: int) -> None:
        self.sections, self.bytes = sections, Bytes(sections[b".debug_line"], start)
        length = self.bytes.number(4)
        self.of_offset = 8 if length == 0xffffffff else 4
        self.end = (self.bytes.number(8) if self.of_offset == 8 else length) + self.bytes.at
        if self.bytes.number(2) != 5:
            raise ValueError("another version")
        self.bytes.number(2)
        begin = self.bytes.number(self.of_offset)
        self.begin = begin + self.bytes.at
        self.step, _, _, _, self.range, self.base = (self.bytes.number(1) for _ in range(6))
        self.operands = [0] + [self.bytes.number(1) for _ in range(self.base - 1)]

    def files(self) -> list[str]:
        """The files by their numbers, with their folders."""
        folders = [text_of(entry[PATH]) for entry in self.entries()]
        files = [(text_of(entry[PATH]), folders[entry.get(FOLDER, 0)]) for entry in self.entries()]
        return [os.path.join(folders[0], folder, path) for path, folder in files]

    def entries(self) -> Iterator[dict]:
        forms = [(self.bytes.leb(), self.bytes.leb()) for _ in range(self.bytes.number(1))]
        for _ in range(self.bytes.leb()):
            yield {what: self.value(form) for what, form in forms}

    def value(self, form: int) -> int | bytes:
        if form in (IN_STRINGS, IN_LINE_STRINGS):
            return Bytes(self.sections[b".debug_str" if form == IN_STRINGS else b".debug_line_str"], self.bytes.number(self.of_offset)).string()
        if form == BLOCK:
            return self.bytes.number(self.bytes.leb())
        if form not in FIXED and form not in (STRING, NUMBER):
            raise ValueError("an unknown form")
        return self.bytes.string() if form == STRING else self.bytes.leb() if form == NUMBER else self.bytes.number(FIXED[form])

    def rows(self) -> Iterator[Row]:
        """From which addresses on code is of which file."""
        read, end, base, step, steps = self.bytes, self.end, self.base, self.step, self.steps()
        data, address, file, last = read.data, 0, 1, 0
        read.at = self.begin
        while read.at < end:
            code = data[read.at]
            read.at += 1
            if code >= base or code == 1:
                address += steps[code]
                if file != last:
                    yield Row(address, file)
                    last = file
            elif code == 0:
                after = read.leb() + read.at
                kind = data[read.at]
                if kind == END_OF_SEQUENCE:
                    yield Row(address, 0)
                    address, file, last = 0, 1, 0
                elif kind == ADDRESS:
                    address = int.from_bytes(data[read.at + 1:after], "little")
                read.at = after
            elif code == FILE:
                file = read.leb()
            elif code in (ADVANCE, BY_MOST, BY_FIXED):
                address += read.leb() * step if code == ADVANCE else steps[255] if code == BY_MOST else read.number(2)
            else:
                for _ in range(self.operands[code]):
                    read.leb()

    def steps(self) -> list[int]:
        """How far each code goes on that makes a row."""
        return [0] * self.base + [code // self.range * self.step for code in range(256 - self.base)]


def starts_of_units(section: bytes) -> list[int]:
    starts, at = [], 0
    while at < len(section):
        starts.append(at)
        head = Bytes(section, at)
        length = head.number(4)
        at = (head.number(8) if length == 0xffffffff else length) + head.at
    return starts


def files_of(module: str, addresses: Iterable[int]) -> dict[int, str]:
    """The files of those addresses that tables of DWARF 5 have."""
    try:
        sections = linked_sections(module, (b".debug_line", b".debug_line_str", b".debug_str"))
        section = sections.get(b".debug_line", b"")
        starts = starts_of_units(section)
        begins = sorted((int.from_bytes(found.group(1), "little"), starts[bisect_right(starts, found.start()) - 1]) for found in SET_ADDRESS.finditer(section))
        return dict(Tables(sections, begins).files(addresses))
    except (OSError, struct.error, ValueError, ArithmeticError, MemoryError, LookupError, zlib.error):
        return {}


class Tables:
    """The tables of units, each read when an address of it is asked for."""

    def __init__(self, sections: dict[bytes, bytes], begins: list[tuple[int, int]]) -> None:
        self.sections, self.begins = sections, begins
        self.units: dict[int, tuple[list[str], list[Row]]] = {}

    def files(self, addresses: Iterable[int]) -> Iterator[tuple[int, str]]:
        for address in addresses:
            at = bisect_right(self.begins, (address, len(self.sections[b".debug_line"])))
            units = dict.fromkeys(unit for _, unit in reversed(self.begins[max(0, at - MOST_TRIED):at]))
            found = next(filter(None, (self.file_in(unit, address) for unit in units)), "")
            if found:
                yield address, found

    def file_in(self, start: int, address: int) -> str:
        """The file of an address in a unit; empty if that has none."""
        files, rows = self.unit(start)
        at = bisect_right([row.address for row in rows], address) - 1
        return files[rows[at].file] if at >= 0 and 0 < rows[at].file < len(files) else ""

    def unit(self, start: int) -> tuple[list[str], list[Row]]:
        """The files and rows of a unit, in the order of addresses, where the end of a sequence comes before what begins there."""
        if start not in self.units:
            try:
                unit = Unit(self.sections, start)
                self.units[start] = unit.files(), sorted(unit.rows(), key=lambda row: (row.address, row.file > 0))
            except ValueError:
                self.units[start] = [], []
        return self.units[start]
