"""Where addresses are in the source: for each module the recorder's reader of debug information is asked, after all addresses were gathered, and
addr2line about what that doesn't know. The reader comes first, since addr2line reads some of the debug information of gcc and clang in a wrong way,
and no split files; of which file code is, `line_tables.py` says of what addr2line knows."""
from __future__ import annotations

import os
import re
from dataclasses import dataclass
from typing import Iterable

from ..base.files import is_elf, is_file
from ..base.home import HOME
from ..base.tools import PATIENCE, other_answer
from ..base.words import CALLED_FROM, bytes_of, text_of
from .cplusplus import demangled, short_function
from .line_tables import files_of

# A place in words: FILE:LINE, and the function if it is known. Of a FILE that has SHOWN_FROM in it what is behind that is shown, as the path
# below the folder of a kernel's source; otherwise its name.
PLACE = re.compile(r"(.*?):([0-9]{1,9})(?: (.*))?")
SHOWN_FROM = "/./"
SAID_PLACE = re.compile(r".*:(\d+|\?)( \(discriminator \d+\))?")  # as addr2line has it
WRAPPERS = ("std::", "__gthread", "__gnu_cxx::")
NO_FILE = "<artificial>"  # of gcc's units with -flto, where addr2line takes the wrong file
SYSTEM_HEADERS = ("/usr/include/", "/usr/lib/gcc")

# The recorder's reader of debug information, if it is built.
READER = os.path.join(HOME, "recorders", "pthread", "out", "names")


@dataclass(frozen=True)
class Frame:
    """A function of a place: its name, and its file and line if they are known; otherwise its module and offset. A place of data
    has no function."""

    function: str
    path: str
    line: int
    address: str
    is_wrapper: bool = False
    is_source: bool = False  # a place in words, whose line may be unknown
    shown: str = ""  # the file, if more of its path is shown than its name

    @property
    def words(self) -> str:
        """Such as `pays at abba.c:7`."""
        place = "%s:%d" % (self.shown or os.path.basename(self.path), self.line) if self.path else self.address
        joint = "at" if self.path or self.is_source else "in"
        return "%s %s %s" % (self.function, joint, place) if self.function else place


def place_words(frames: list[Frame]) -> str:
    """A chain of callers in words, innermost first, such as `pays at abba.c:7 < main at abba.c:20`."""
    return CALLED_FROM.join(frame.words for frame in frames)


def without_wrappers(frames: list[Frame]) -> list[Frame]:
    """The frames without wrappers, if there are others."""
    return [frame for frame in frames if not frame.is_wrapper] or frames


def is_wrapper(function: str, place: str) -> bool:
    """A function of the C++ library or of a system header: its place in the program says nothing."""
    return function.startswith(WRAPPERS) or "/include/c++/" in place or place.startswith(SYSTEM_HEADERS)


def frame_of(function: str, place: str, address: str) -> Frame:
    """A frame from two lines of addr2line."""
    function, place = short_function(function), os.path.normpath(place)
    path, _, line = place.partition(" (discriminator")[0].rpartition(":")
    is_known = line.isdigit() and int(line) > 0 and not path.startswith("?") and os.path.basename(path) != NO_FILE
    function = "" if function.startswith("?") else function
    return Frame(function, os.path.normpath(path) if is_known else "", int(line) if is_known else 0, address,
                 is_wrapper(function, place))


def source_frame(place: str) -> Frame:
    """A frame from a place in words, `FILE:LINE FUNCTION`. Line 0 says that no line is known."""
    parts = PLACE.fullmatch(place)
    if not parts:
        return Frame("", "", 0, place, is_source=True)
    line, path = int(parts[2]), parts[1]
    is_known = line > 0 and bool(path)
    address = "%s:%d" % (path, line) if line > 0 else os.path.basename(path)
    shown = path.partition(SHOWN_FROM)[2]
    return Frame(parts[3] or "", os.path.normpath(path) if is_known else "", line if is_known else 0, address, is_source=True, shown=shown)


@dataclass(frozen=True)
class Address:
    """A place of a program: a module with an offset, in its code or its data; or a place in words, without an offset."""

    module: str
    offset: int | None
    is_code: bool = True

    @property
    def looked_up(self) -> int:
        """A call returns to the instruction after it, so the one before that is looked up."""
        return max(0, (self.offset or 0) - self.is_code)


def listed(addresses: Iterable[int]) -> bytes:
    """Addresses as they are asked for."""
    return "".join("0x%x\n" % address for address in addresses).encode()


def own_reader() -> str:
    """The recorder's reader of debug information; empty if it was built without libdw, and is a script that finds nothing."""
    return READER if is_elf(READER) else ""


class Symbols:
    """What is said about addresses, once they were all gathered. Without a reader only addr2line is asked."""

    def __init__(self, reader: str | None = None) -> None:
        self.reader = own_reader() if reader is None else reader
        self.wanted: dict[str, dict[int, str]] = {}
        self.data: dict[str, set[int]] = {}
        self.known: dict[Address, list[Frame]] = {}
        self.answers: dict[tuple[str, int], list[Frame]] = {}

    def want(self, place: Address) -> None:
        """Gathers a place. A place in words isn't looked up."""
        if place.offset is None:
            self.known[place] = [source_frame(place.module)]
        else:
            shown = "%s+%x" % (os.path.basename(place.module), place.offset)
            self.wanted.setdefault(place.module, {})[place.looked_up] = shown
            if not place.is_code:
                self.data.setdefault(place.module, set()).add(place.looked_up)

    def ask(self, patience: int = PATIENCE) -> None:
        is_there = has_addr2line()
        for module, addresses in self.wanted.items():
            if is_there and is_file(module) and self.reader:
                self.ask_reader(module, addresses, patience)
            self.ask_binutils(module, {address: shown for address, shown in addresses.items() if (module, address) not in self.answers}, patience)

    def ask_binutils(self, module: str, addresses: dict[int, str], patience: int) -> None:
        said = None
        if addresses and is_file(module):
            words = ["addr2line", "-a", "-i", "-f", "-C", b"--exe=" + bytes_of(module)]
            said = other_answer(words, listed(addresses), patience)
        lines = text_of(said or b"").split("\n")
        self.take(module, addresses, lines, files_of(module, addresses.keys() - self.data.get(module, ())) if any(lines) else {})
        self.drop_nearest(module, addresses)

    def ask_reader(self, module: str, addresses: dict[int, str], patience: int) -> None:
        """Asks where code is, and then where variables are declared, a line for each. What the reader doesn't know has no answer."""
        data = sorted(self.data.get(module, ()))
        code = {address: shown for address, shown in addresses.items() if address not in self.data.get(module, ())}
        said = other_answer([self.reader, "--places", bytes_of(module)], listed(code) + b"\n" + listed(data), patience)
        lines = text_of(said or b"").split("\n")
        of_code = max(0, len(lines) - 1 - len(data))
        self.take_code(module, code, lines[:of_code] + [""])
        self.take_data(module, addresses, dict(zip(data, lines[of_code:-1])))

    def take_code(self, module: str, code: dict[int, str], lines: list[str]) -> None:
        names = demangled([line for line in lines if line.startswith("_Z")])
        self.take(module, code, [names.get(line, line) for line in lines])
        for address in code:
            if not self.answers[module, address][0].function:
                del self.answers[module, address]

    def take_data(self, module: str, addresses: dict[int, str], lines: dict[int, str]) -> None:
        for address, line in lines.items():
            frame = frame_of("", line, addresses[address])
            if frame.path:
                self.answers[module, address] = [frame]

    def take(self, module: str, addresses: dict[int, str], lines: list[str], files: dict[int, str] = {}) -> None:
        """Reads the output: for each address a line with it, and then two lines for each function, of the first of which the file may be known better. What
        has others, as by a line break in a path, is unknown."""
        heads, said, own = {"0x%016x" % address: address for address in addresses}, {address: [] for address in addresses}, []
        for line in lines[:-1]:
            if line in heads:
                own = said[heads[line]]
            else:
                own.append(line)
        for address, own in said.items():
            is_whole = len(own) % 2 == 0 and all(map(SAID_PLACE.fullmatch, own[1::2]))
            if address in files and is_whole and own:
                own[1] = "%s:%s" % (files[address], own[1].rpartition(":")[2])
            frames = [frame_of(function, place, addresses[address]) for function, place in zip(own[::2], own[1::2])] if is_whole else []
            self.answers[module, address] = frames or [Frame("", "", 0, addresses[address])]

    def drop_nearest(self, module: str, addresses: dict[int, str]) -> None:
        """Without debug information addr2line names the nearest symbol. It is dropped if the address isn't within a function."""
        doubtful = [address for address in addresses
                    if any(frame.function and not frame.path for frame in self.answers[module, address])]
        if not doubtful:
            return
        from .elf import within_functions
        for address in set(doubtful) - within_functions(module, doubtful):
            self.answers[module, address] = [frame if frame.path else Frame("", "", 0, frame.address)
                                             for frame in self.answers[module, address]]

    def frames(self, place: Address) -> list[Frame]:
        """The functions of a place, inlined ones first. Data has no function."""
        if place.offset is None:
            return self.known.get(place, [])
        frames = self.answers.get((place.module, place.looked_up), [])
        return frames if place.is_code else [Frame("", frame.path, frame.line, frame.address) for frame in frames]

    @property
    def is_asked(self) -> bool:
        """Whether there were addresses to look up."""
        return bool(self.wanted)

    @property
    def has_lines(self) -> bool:
        return any(frame.path for frames in self.answers.values() for frame in frames)


def has_addr2line() -> bool:
    import shutil
    return shutil.which("addr2line") is not None
