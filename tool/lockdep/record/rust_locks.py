"""Which crates of a Rust program take locks of std::sync itself, where the program has debug information.

A lock that isn't free is waited for in a function of std that nothing but such locks calls. So the calls of these functions are looked for in the
machine code, and addr2line says which functions each call was inlined into. If all of these are the library's, the function that has the call is
itself one of the library's locks, and its own calls are looked for, and so on."""
from __future__ import annotations

import os
import re
import struct
from bisect import bisect_right
from enum import Enum
from itertools import chain
from typing import BinaryIO, Iterator

from ..base.words import bytes_of
from ..binaries.elf import SYMBOL, TABLES, Section, is_function, machine_and_sections, whole_entries
from ..binaries.symbols import Address, Frame, Symbols

WAITS = re.compile(rb"3std3sys4sync(?:5mutex5futex.*14lock_contended|6rwlock5futex.*(?:14read|15write)_contended|4once5futex.*4(?:call|wait))"
                   rb"(?:17h[0-9a-f]{16}E)?(?:\.llvm\.[0-9]+)?$")
# How names begin of what std, core and alloc define, and of what the recorder defines that is in each recorded program.
BEFORE_CRATE = rb"_R(?:I|N[A-Za-z]|[MX](?:s[0-9A-Za-z]*_)?)*C(?:s[0-9A-Za-z]*_)?"
OF_LIBRARY = re.compile(rb"_ZN(?:3std|4core|5alloc)|_ZN[0-9]+_\$LT\$(?:std|core|alloc)\.\.|" + BEFORE_CRATE + rb"(?:3std|4core|5alloc)")
OF_RECORDER = re.compile(rb"(?:_ZN|" + BEFORE_CRATE + rb")14lockdep_record9recording")
IN_RECORDER = "/src/recording/"
MOST_OF_RECORDER = 20  # functions of the recorder that are asked for its folder
RECORDER = re.compile(r"[<&]*lockdep_record::")
CRATE = re.compile(r"[<&]*(?!std::|core::|alloc::)([A-Za-z_][A-Za-z0-9_]*)::")
# Paths of Rust's own sources.
LIBRARY = re.compile(r".*/library/(std|core|alloc)/src/(.*)|.*/(?:rustc/[0-9a-f]+|rustc-[^/]+|rustlib/src/rust)/(?:library|vendor)/|.*/rust/deps/")
LOCKS = ("sync/poison", "sync/nonpoison", "sync/once", "sync/lazy_lock", "sys/sync/")  # of std
MOST_LEVELS = 8  # of functions of the library between a lock's wait and the program
MOST_CALLS = 10000  # whose places are asked for
PATIENCE = 10  # seconds of processor time for one level's places


class Kind(Enum):
    """What a function is for a call that waits for a lock."""

    LOCK = "a lock of std::sync"
    PASSED = "a function of core or alloc, as one that calls a closure"
    OTHER = "one of the recorder, of another part of std, or unknown: its locks aren't the program's"
    PROGRAM = "one of a crate of the program"


def kind_of(frame: Frame, recorder: str) -> Kind:
    if not frame.path or is_of_recorder(frame, recorder):
        return Kind.OTHER
    library = LIBRARY.match(frame.path)
    if not library:
        return Kind.PROGRAM
    if library[1] in ("core", "alloc"):
        return Kind.PASSED
    return Kind.LOCK if library[1] == "std" and library[2].startswith(LOCKS) else Kind.OTHER


def is_of_recorder(frame: Frame, recorder: str) -> bool:
    """Whether a function is one of the recorder. If the folder of its sources isn't known, the function's name tells; it may be cut."""
    if recorder:
        return frame.path.startswith(recorder)
    return "::" not in frame.function or bool(RECORDER.match(frame.function))


def crate_of(frame: Frame) -> str:
    """The crate of a function, or the folder of its sources."""
    crate = CRATE.match(frame.function)
    return crate[1] if crate else os.path.basename(frame.path.rpartition("/src/")[0])


# ---- Machine code.

CODE, RELOCATIONS, RUNS = 1, 4, 4  # kinds of sections, and a flag
RELOCATION = struct.Struct("<QQq")
X86_64, AARCH64 = 62, 183
RELATIVE = 8  # a relocation of x86-64 that is an address of the program itself
# A call or jump, one by a table of addresses, and a load from that table; with the upper byte of a distance below 128 MB.
X86_64_CALLS = re.compile(rb"(?:[\xe8\xe9]|\xff[\x15\x25]|\x8b[\x05\x0d\x15\x1d\x25\x2d\x35\x3d])(?=...[\x00-\x07\xf8-\xff])", re.S)
DIRECT = (0xe8, 0xe9)
DISTANCE = struct.Struct("<i")
AARCH64_CALLS = re.compile(rb"[\x14-\x17\x94-\x97]")  # the last byte of a call or jump
INSTRUCTION = struct.Struct("<I")


def calls_of_x86_64(code: bytes, start: int, functions: set[int], slots: dict[int, int]) -> Iterator[tuple[int, int]]:
    """The calls of some functions, each with where its instruction ends. It may be the one that loads the function's address for a call."""
    for found in X86_64_CALLS.finditer(code):
        at = found.end()
        to = start + at + DISTANCE.size + DISTANCE.unpack_from(code, at)[0]
        if to in functions if code[at - 1] in DIRECT else to in slots:
            yield slots.get(to, to), start + at + DISTANCE.size


def calls_of_aarch64(code: bytes, start: int, functions: set[int]) -> Iterator[tuple[int, int]]:
    for found in AARCH64_CALLS.finditer(code):
        at = found.start() - 3
        if at % INSTRUCTION.size == 0:
            distance = INSTRUCTION.unpack_from(code, at)[0] & 0x3ffffff
            to = start + at + INSTRUCTION.size * (distance - ((distance & 0x2000000) << 1))
            if to in functions:
                yield to, start + at + INSTRUCTION.size


class Code:
    """The functions of a program by where they begin, those that wait for a lock, and the calls of these and of the library's."""

    def __init__(self, file: BinaryIO) -> None:
        self.machine, sections = machine_and_sections(file)
        self.names: dict[int, bytes] = {}
        for table in sections:
            if table.kind == TABLES[0]:
                self.read_names(table.content(file), sections[table.link].content(file))
        self.starts = sorted(self.names)
        self.waits = {start for start, name in self.names.items() if WAITS.search(name)}
        self.calls: dict[int, list[int]] = {}  # where the instructions end
        if self.waits:
            self.read_calls(file, sections)

    def read_names(self, table: bytes, names: bytes) -> None:
        for name, info, _, section, value, _ in whole_entries(table, SYMBOL):
            if is_function(info, section):
                self.names[value] = names[name:names.find(b"\0", name)]

    def read_calls(self, file: BinaryIO, sections: list[Section]) -> None:
        functions = self.waits | {start for start, name in self.names.items() if OF_LIBRARY.match(name)}
        relocations = [section.content(file) for section in sections if section.kind == RELOCATIONS]
        slots = {slot: start for table in relocations for slot, info, start in whole_entries(table, RELOCATION)
                 if info == RELATIVE and start in functions}
        for section in sections:
            if section.kind == CODE and section.flags & RUNS:
                for to, call in self.calls_in(section.content(file), section.address, functions, slots):
                    self.calls.setdefault(to, []).append(call)

    def calls_in(self, code: bytes, start: int, functions: set[int], slots: dict[int, int]) -> Iterator[tuple[int, int]]:
        if self.machine == AARCH64:
            return calls_of_aarch64(code, start, functions)
        return calls_of_x86_64(code, start, functions, slots) if self.machine == X86_64 else iter(())

    def function_at(self, address: int) -> int:
        """Where the function begins that has an address."""
        place = bisect_right(self.starts, address)
        return self.starts[max(0, place - 1)]


# ---- Who takes the locks.

class Takers:
    """The crates of a program that take locks of std::sync themselves, each with the first place where it does."""

    def __init__(self, program: str) -> None:
        self.program = program
        self.by_crate: dict[str, Frame] = {}
        with open(bytes_of(program), "rb") as file:
            self.code = Code(file)
        self.recorder = self.recorder_folder() if self.code.waits else ""
        functions, seen = self.code.waits, set(self.code.waits)
        for level in range(MOST_LEVELS):
            functions = self.look(functions, is_wait=level == 0) - seen
            seen |= functions

    def places(self, ends: list[int]) -> list[list[Frame]]:
        """The functions of instructions, by where these end."""
        addresses, symbols = [Address(self.program, end) for end in ends], Symbols(reader="")
        for address in addresses:
            symbols.want(address)
        symbols.ask(PATIENCE)
        return [symbols.frames(address) for address in addresses]

    def recorder_folder(self) -> str:
        """The folder of the recorder's sources: empty if they have no debug information."""
        own = [start + 1 for start in self.code.starts if OF_RECORDER.match(self.code.names[start])][:MOST_OF_RECORDER]
        for frame in chain.from_iterable(self.places(own)):
            above, found, _ = frame.path.rpartition(IN_RECORDER)
            if found:
                return above + "/src/"
        return ""

    def look(self, functions: set[int], is_wait: bool) -> set[int]:
        """Looks at the calls of some functions. The result is those functions that have such calls and are themselves the library's."""
        calls = sorted({call for function in functions for call in self.code.calls.get(function, ())})[:MOST_CALLS]
        callers = set()
        for call, frames in zip(calls, self.places(calls)):
            if self.is_passed_on(frames, is_sure=not is_wait):
                callers.add(self.code.function_at(call - 1))
        return {caller for caller in callers if OF_LIBRARY.match(self.code.names[caller])}

    def is_passed_on(self, frames: list[Frame], is_sure: bool) -> bool:
        """Whether the functions of a call are all the library's. Otherwise the first other one is noted, if it is the program's. Where a wait
        is called, a lock has to be among them."""
        for frame in frames:
            kind = kind_of(frame, self.recorder)
            is_sure = is_sure or kind is Kind.LOCK
            if kind is Kind.PROGRAM and is_sure:
                self.note(frame)
            if kind in (Kind.PROGRAM, Kind.OTHER):
                return False
        return is_sure

    def note(self, frame: Frame) -> None:
        crate = crate_of(frame)
        first = self.by_crate.get(crate, frame)
        self.by_crate[crate] = min(first, frame, key=lambda each: (each.path, each.line))

    def lines(self) -> list[str]:
        return ["crate %s, as at %s:%d" % (crate, frame.path, frame.line) for crate, frame in sorted(self.by_crate.items())]


def takers(program: str) -> list[str]:
    """The crates of a program that take locks of std::sync themselves, each with a place: none of a file that can't be read."""
    try:
        return Takers(program).lines()
    except (OSError, struct.error, ValueError, IndexError, KeyError, MemoryError):
        return []
