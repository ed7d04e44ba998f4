"""What classes of locks and single locks are called in traces, from what processes call them. What differs by the recorder is in one table."""
from __future__ import annotations

import os
import re
from binascii import crc32

from . import packages
from .finishing import MOST_KEYS, MOST_NAME, LockNames
from .joins import STARTED, THREAD

TYPE_CHECKING = False  # for a tool that checks types, it is true
if TYPE_CHECKING:
    from typing import Callable, NamedTuple
    from .log import Process, Told

    class Form(NamedTuple):
        """How the names of a recorder are made: from what a process tells of a class (`visible`), after those of all processes were told apart (`prepare`).
        If a name is a whole one, classes of that name are one; otherwise the next one is numbered. `is_library` says which ones are those of the
        language's own library; for other recorders the class says so."""
        visible: Callable[[Told], str]
        is_whole: bool
        prepare: Callable[[list[Process]], None]
        is_library: Callable[[Process, Told], bool]
else:
    from collections import namedtuple
    Form = namedtuple("Form", "visible is_whole prepare is_library")

LIBRARY = "library"  # the kind of a class that the language's own library makes for itself
KEPT_KINDS = ("any object of", "the class object of", STARTED)  # kinds of classes; all others are made somewhere
HASHED = 8  # letters that a hash takes, with what stands between it and the name in Rust
MOST_TEXT = 44  # bytes of a name in Go, which leave room for where it is made


class Class:
    """A class: its name, where it is made, and how."""

    def __init__(self, name: str, place: str, kind: str) -> None:
        self.name, self.place, self.kind, self.is_used = name, place, kind, False


class Names:
    """The classes of all processes, and the names of single locks."""

    def __init__(self, form: Form) -> None:
        self.form, self.locks, self.is_many = form, LockNames(), False
        self.classes: dict[object, Class] = {}
        self.taken: set[str] = set()
        self.used: list[Class] = []
        self.of_reentrant: set[str] = set()  # classes of locks that can be taken again by who holds them

    def name_all(self, processes: list[Process]) -> None:
        """Names the classes of all processes."""
        self.form.prepare(processes)
        for process in processes:
            process.unknown = self.unknown
            process.classes = {number: self.class_of(process, told) for number, told in process.told.items()}
            self.of_reentrant.update(process.classes[number].name for number in process.reentrant if number in process.classes)

    def class_of(self, process: Process, told: Told) -> Class:
        kind = LIBRARY if self.form.is_library(process, told) else told.kind
        return self.found(self.form.visible(told), told.place, kind)

    def found(self, name: str, place: str, kind: str) -> Class:
        key = name if self.form.is_whole else (name, place)
        found = self.classes.get(key)
        if found is None:
            found = self.classes[key] = Class(name if self.form.is_whole else self.numbered(name), place, kind)
        return found

    def unknown(self) -> Class:
        """The class of a lock of which nothing was written."""
        return self.found("unknown", "?:0 ?", "")

    def numbered(self, name: str) -> str:
        """The name, or another one that no other class has."""
        number, fitting = 1, cut(name)
        while fitting in self.taken:
            number += 1
            fitting = cut("%s~%d" % (name, number))
        self.taken.add(fitting)
        return fitting

    def use(self, of: Class) -> bool:
        """Whether a class is one of those that are written."""
        if not of.is_used and len(self.used) < MOST_KEYS:
            self.used.append(of)
            of.is_used = True
        return of.is_used

    def reentrant(self) -> set[str]:
        """The names of single locks that can be taken again by who holds them."""
        return {lock for (of, _, _), lock in self.locks.names.items() if of in self.of_reentrant}

    def of_lock(self, key: tuple[Class, int, int]) -> str:
        """The name of a single lock."""
        of, ordinal, process = key
        return self.locks.name(of.name, ordinal, process, "@%d" % process if self.is_many else "")

    def listed(self) -> list[tuple[str, str, str]]:
        """The classes that are written: the name of each, where it is made, and how. One whose place is empty says by its name where it is."""
        return [(each.name, each.place, each.kind if each.kind in KEPT_KINDS else "made in") for each in self.used if each.place]

    def are_all_of_library(self) -> bool:
        return bool(self.used) and all(each.kind in (LIBRARY, STARTED) for each in self.used)


# ---- The letters of names, which are those of ASCII. What stands before an `@` would be read as a type of locks, and a comma or a quote is part of the
# form of traces, so each language has something instead of these.

OF_PYTHON = {"@": "%40", ",": "_", '"': "_"}
OF_RUST = {"@": "%40", ",": ";", '"': "_"}
OF_GO = {"@": "%40", "#": "%23", ",": ";", '"': "'"}  # (what follows `#` would be read as a lock's number)


def fitting(text: str, instead: dict[str, str]) -> str:
    return "".join([instead.get(letter, letter if "!" <= letter <= "~" else "_") for letter in text])


# ---- Names of Python and Java.

def cut(name: str) -> str:
    return name if len(name) <= MOST_NAME else "%s#%08x" % (name[:MOST_NAME - 1 - HASHED], crc32(name.encode()))


# ---- Names of Rust: `FILE:LINE:COLUMN`, with the type if that belongs to it, and with the folder of a package if that is needed.

LIBRARY_OF_RUST = ("/rustc/", "/rustlib/src/rust/library/")  # what the path of a file of that begins with, or has in it
# The part after which the path of a crate that isn't the program's own is the same on each machine, and whether Cargo has a folder of its own after it.
FOLDERS = (("/registry/src/", True), ("/git/checkouts/", True), ("/cargo/registry/", False), ("/vendor/", False))
MOST_TYPE = 20  # letters that are left for a type if the whole place is kept


def prepare_rust(processes: list[Process]) -> None:
    for told in (told for process in processes for told in process.told.values()):
        told.name = of_rust(told)
    packages.tell_apart(processes, in_package)


def of_rust(told: Told) -> str:
    """If the name is too long, the end of the place is kept, or the place and the beginning of the type."""
    kind = THREAD if told.kind == STARTED else ""
    most, place = MOST_NAME - len(kind), short(told.name)
    has_room = len(place.encode("utf-8", "surrogateescape")) + MOST_TYPE < most and bool(told.made)
    text = in_bytes(place + ("<%s>" % short_type(told.made) if told.made else ""))
    if len(text) > most:
        text = "%s~%08x" % (text[:most - 1 - HASHED], fnv(text)) if has_room else "%08x~%s" % (fnv(text), text[1 + HASHED - most:])
    return kind + text


def short(file: str) -> str:
    """A file as names have it: for a crate from elsewhere, the part that is the same on each machine."""
    if file.startswith(LIBRARY_OF_RUST[0]) or LIBRARY_OF_RUST[1] in file:
        return file.partition("/library/")[2] or file
    for folder, has_another in FOLDERS:
        _, found, path = file.partition(folder)
        if found and file.startswith("/"):
            return path.partition("/")[2] or path if has_another else path
    return file


def short_type(text: str) -> str:
    """A type's name: of the path of one of Rust's own types the last two parts, and no spaces, as they are between arguments."""
    import re
    own = ("std::", "core::", "alloc::")
    words = re.findall(r"[\w:]+|[^\w:\s]", text)
    return "".join("::".join(word.split("::")[-2:]) if word.startswith(own) else word for word in words)


def fnv(text: str) -> int:
    """The hash FNV-1a."""
    number = 0x811C9DC5
    for letter in text:
        number = (number ^ ord(letter)) * 0x01000193 % (1 << 32)
    return number


def in_bytes(text: str) -> str:
    return fitting(text.encode("utf-8", "surrogateescape").decode("latin-1"), OF_RUST)


def in_package(folder: str, name: str) -> str:
    kind = THREAD if name.startswith(THREAD) else ""
    most = MOST_NAME - len(kind)
    text = in_bytes(folder + "/" + name[len(kind):])
    return kind + (text if len(text) <= most else "%07x~%s" % (sum_of(text), text[HASHED - most:]))


def sum_of(text: str) -> int:
    total = 0
    for letter in text:
        total = (total * 33 + ord(letter)) % (1 << 28)
    return total


# ---- Names of Go: of a type and member with where it is made, of a global, or where it is made.

def of_go(told: Told) -> str:
    name = unshaped(told.name)
    if name and told.made:
        return "%s@%s" % (shortened(name), hash_of(told.made))
    return shortened(name or told.made)


def unshaped(name: str) -> str:
    """A name in which the arguments of a generic type are those of the source. The compiler's have a prefix, and up to Go 1.19 their number behind them."""
    first, *arguments = name.split("go.shape.")
    return first + "".join(re.sub(r"_%d(?=,$|][^]]*$)" % number, "", each) for number, each in enumerate(arguments))


def shortened(text: str) -> str:
    """A name that isn't too long: of a longer one the end, without the path of its package, and a hash of all of it. So has one in other letters than
    those of ASCII. Nothing may be known of a lock, not even who takes it."""
    whole = fitting(text, OF_GO)
    if len(whole) <= MOST_TEXT and text.isascii():
        return whole or "unknown"
    room = MOST_TEXT - HASHED - 1
    last = whole.partition("[")[0].rpartition("/")[2] + ("[..]" + whole.rpartition("]")[2] if "[" in whole else "")
    return "%s%%%s" % (last if len(last) <= room else last[-room:], hash_of(text))


def hash_of(text: str) -> str:
    import hashlib
    return hashlib.sha256(text.encode("utf-8", "surrogateescape")).hexdigest()[:HASHED]


def is_of_go(process: Process, told: Told) -> bool:
    """Whether a class is one of Go's standard library, by its type or variable, or by where it is made. If its sources aren't on this machine, a package
    of it is known by its path."""
    sources = os.path.join(process.library, "src", "") if process.library else ""
    folder, slash, last = told.name.lstrip("*").partition("[")[0].rpartition("/")
    package = folder + slash + last.partition(".")[0]
    if not told.name:
        return bool(sources) and told.place.startswith(sources)
    if package == "main":
        return False
    return os.path.isdir(sources + package) if os.path.isdir(sources) else "." not in package.partition("/")[0]


# ---- The table.

PLAIN = Form(lambda told: fitting(told.name, OF_PYTHON), False, lambda processes: None, lambda process, told: False)  # any other recorder's
FORMS = {"rust": Form(lambda told: told.name, True, prepare_rust, lambda process, told: False),
         "go": Form(of_go, True, lambda processes: None, is_of_go)}
