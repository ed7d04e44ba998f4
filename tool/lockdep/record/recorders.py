"""The recorders: one entry each, which says how a command is recognised as one for it, how it is started, and what makes its traces."""
from __future__ import annotations

import os
import sys

from ..base.processes import find_command, output_of
from ..binaries import loading
from . import go_command

FIRST_BYTES = 200  # of a script, which name its interpreter
RUST_MARK = b"lockdep_record for LOCKDEP_TRACES"  # is in a program that is built to be recorded
GO_MARK = b"lockdep recorder of Go for LOCKDEP_TRACES"
EMBED_MARKS = (b"ldr1 lockdep,2", b"ldr_acquire_at")  # is in a program with lockdep_record.h, as it is now and as it was
FOLDER_MARK = b"LOCKDEP_TRACES"


class Recorder:
    """A recorder by which a command is recorded."""

    name = "pthread"
    language = ""  # whose locks it sees, if it isn't that of pthreads
    sees = ""  # the same in words, for the help
    when = ""  # when it is the default
    is_in_process = False  # whether the program writes its records itself, so that nothing is preloaded
    sees_handlers = True  # whether it records what signal handlers do, as `--signals` says
    unordered = "no semaphores, nothing of the loader and no locks inside the C library"  # what its order of steps has not
    keeps_order = True  # whether it keeps the order of steps
    sees_starts = True  # whether it sees each thread start that the program starts
    has_log = False  # whether its programs write the form of recorders/log.md
    writes_log = False  # whether they write it into the folder that they are told
    others: str | None = None  # what notes the locks that its programs have besides, by its name in OTHERS of finishes.py
    finisher: str | None = None  # what makes the traces, below recorders/, if neither this package nor `finish` of the recorder of pthreads does
    script: str | None = None  # what records by itself, below recorders/, if that isn't done by the driver
    holder: str | None = "preloaded"  # what holds threads back for `lockdep provoke`, by its name in provoke/holders.py, if anything does

    def recognises(self, command: str) -> bool:
        """Whether a command is one for this recorder."""
        return False

    def environment(self, folder: str, raw: str, preload: str) -> dict[str, str]:
        """What the command needs to be recorded."""
        return {"PRELOAD": preload, "LOCKDEP_RECORD": raw}

    def starting(self, home: str) -> list[str]:
        """The words that start its script, without anything of the user's. (What `site` loads takes longer than all else up to the command.)"""
        return [sys.executable, "-I", "-S", os.path.join(home, "recorders", self.script or "")]

    def building(self, home: str, program: str, words: list[str]) -> tuple[dict[str, str], list[str]]:
        """What a command that builds programs needs besides, so that these are recorded, and its words."""
        return {}, words

    def only_builds(self, words: list[str]) -> bool:
        """Whether a command builds what is to be recorded later, and runs nothing of it."""
        return False

    def command(self, words: list[str]) -> list[str]:
        """A command as it is run by the recorder that was named."""
        return words


class Python(Recorder):
    name, language, script, holder, has_log = "python", "Python", "python/lockdep_record/__main__.py", "python", True
    unordered = "nothing that tasks of asyncio, and greenlets, do"
    sees, when = "for the locks of threading and asyncio", "the command is python3 or a script that names it"

    def recognises(self, command: str) -> bool:
        """Whether the command is Python, or a script whose first line names it."""
        name = command.rpartition("/")[2]
        if name.startswith("python") and name[len("python"):] in VERSIONS or name.startswith("python3.") and is_minor(name[len("python3."):]):
            return True
        first = beginning(command).partition(b"\n")[0]
        return first[:2] == b"#!" and b"python" in first

    def command(self, words: list[str]) -> list[str]:
        """A script that can't be run by itself, and options of Python, are run by Python."""
        is_python = words[0].endswith((".py", ".pyz")) or words[0][:1] == "-" or find_command(words[0])[0] is None
        return [sys.executable] + words if is_python else words


class Rust(Recorder):
    name, language, is_in_process, has_log, writes_log, holder = "rust", "Rust", True, True, True, None
    others, sees = "rust-locks", "for those of the crate lockdep_record"
    when = "it is a program built with that crate and --cfg lockdep, or cargo with that flag in RUSTFLAGS or its settings"
    sees_handlers, sees_starts, unordered = False, False, ""

    def recognises(self, command: str) -> bool:
        """Whether the command is a program that contains the recorder, or cargo with flags to build one."""
        if command.rpartition("/")[2] == "cargo" and builds_recorded():
            return True
        return has(content(command), (RUST_MARK,))

    def environment(self, folder: str, raw: str, preload: str) -> dict[str, str]:
        return {"PRELOAD": "", "LOCKDEP_TRACES": os.path.dirname(raw)}


class Go(Recorder):
    name, language, is_in_process, has_log, writes_log, others, holder = "go", "Go", True, True, True, "started", None
    keeps_order = False
    sees, when = "for sync.Mutex and sync.RWMutex", "it is the command go, or a program that this has built to be recorded"
    sees_handlers, unordered = False, ""

    def recognises(self, command: str) -> bool:
        """Whether the command is go, or a program that contains the recorder."""
        return go_command.is_go(command) or has(content(command), (GO_MARK,))

    def environment(self, folder: str, raw: str, preload: str) -> dict[str, str]:
        return {"PRELOAD": "", "LOCKDEP_TRACES": os.path.dirname(raw)}

    def building(self, home: str, program: str, words: list[str]) -> tuple[dict[str, str], list[str]]:
        """What go needs. A script may call it, a program that is built already doesn't."""
        go = program if go_command.is_go(program) else find_command("go")[0]
        return go_command.prepared(home, go, words) if go and not has(mapped(program), (GO_MARK,)) else ({}, words)

    def only_builds(self, words: list[str]) -> bool:
        return go_command.only_builds(words)


class Java(Recorder):
    name, language, script, holder, has_log = "java", "Java", "java/record", "java", True
    sees, when = "for monitors and locks of Java", "it is java"
    sees_handlers, unordered = False, ""

    def recognises(self, command: str) -> bool:
        return command.rpartition("/")[2] == "java"

    def command(self, words: list[str]) -> list[str]:
        """A class, and options of java, are run by java."""
        is_command = words[0][:1] != "-" and find_command(words[0])[0] is not None
        return words if is_command else ["java"] + words


class Embed(Recorder):
    name, language, is_in_process, others, holder, keeps_order = "embed", "lockdep_record.h", True, "pthreads", None, False
    sees = "for a program with lockdep_record.h that writes to the folder LOCKDEP_TRACES"
    when = "it is a program with that header and that name"
    sees_handlers = False

    def recognises(self, command: str) -> bool:
        """Whether the command is a program with the code of lockdep_record.h, perhaps in a library, that writes its traces to the folder that it is
        told."""
        file = find_command(command)[0]
        if not file or beginning(command)[:4] != b"\x7fELF":
            return False
        text = content(command)
        texts = [text] + [mapped(library) for library in libraries_of(file, text)]
        return any(has(each, EMBED_MARKS) for each in texts) and any(has(each, (FOLDER_MARK,)) for each in texts)

    def environment(self, folder: str, raw: str, preload: str) -> dict[str, str]:
        return {"PRELOAD": "", "LOCKDEP_TRACES": raw}


PTHREAD = Recorder()
RECORDERS = {recorder.name: recorder for recorder in (PTHREAD, Python(), Java(), Rust(), Go(), Embed())}
ORDER = ("python", "rust", "go", "java", "embed")  # in which it is tried whether one recognises a command


def listed(words: list[str]) -> str:
    """Words as a sentence lists them."""
    return ", ".join(words[:-1]) + " or " + words[-1]


NAMES = listed(list(RECORDERS))


def recorder_for(command: str) -> Recorder:
    """The recorder that a command is for: that of pthreads if no other one recognises it."""
    return next((RECORDERS[name] for name in ORDER if RECORDERS[name].recognises(command)), PTHREAD)


# ---- What is looked at.

VERSIONS = ("", "3")


def is_minor(text: str) -> bool:
    return len(text) in (1, 2) and text.strip("0123456789") == ""


def content(command: str) -> bytes:
    """The bytes of a command's file. One may be run that can't be read."""
    return mapped(find_command(command)[0])


def mapped(file: str | None) -> bytes:
    """The bytes of a file, which may be large: only what is looked at is read."""
    import mmap
    try:
        with open(file or "", "rb") as opened:
            return mmap.mmap(opened.fileno(), 0, access=mmap.ACCESS_READ)  # type: ignore[return-value]
    except (OSError, ValueError):  # it may be empty
        return b""


def has(text: bytes, marks: tuple[bytes, ...]) -> bool:
    return any(text.find(mark) >= 0 for mark in marks)


def beginning(command: str) -> bytes:
    return mapped(find_command(command)[0])[:FIRST_BYTES]


def libraries_of(file: str, text: bytes) -> list[str]:
    """The libraries that a program is linked with, unless these are only those of the C library."""
    loader = loading.loader(text)
    if not loader or all(name.startswith(loading.C_LIBRARY) for name in loading.needed(text)):
        return []
    return loading.listed(output_of([loader, "--list", file], is_quiet=True)[1])


# ---- Cargo.

FLAGS = ("RUSTFLAGS", "CARGO_ENCODED_RUSTFLAGS")


def builds_recorded() -> bool:
    """Whether cargo is told to build programs that are recorded. Its settings don't matter if the environment has flags."""
    if any("lockdep" in os.environ.get(name, "") for name in FLAGS + ("CARGO_BUILD_RUSTFLAGS",)):
        return True
    if any(name in os.environ for name in FLAGS):
        return False
    return any(asks_for_recorder(path) for path in cargo_settings())


def cargo_settings() -> list[str]:
    """The files that cargo takes its settings from: those of this folder and of all above it, and the user's."""
    folders, above = [], os.path.realpath(os.getcwd())
    while above not in folders:
        folders.append(above)
        above = os.path.dirname(above)
    folders = [os.path.join(folder, ".cargo") for folder in folders]
    folders.append(os.environ.get("CARGO_HOME") or os.path.join(os.environ.get("HOME", ""), ".cargo"))
    return [os.path.join(folder, name) for folder in folders for name in ("config.toml", "config")]


def asks_for_recorder(path: str) -> bool:
    """Whether settings have the flag that builds a recorded program, outside a comment."""
    try:
        with open(path, encoding="utf-8", errors="replace") as file:
            lines = [line.partition("#")[0] for line in file]
    except OSError:
        return False
    return any(sign in line for line in lines for sign in ('"lockdep"', "'lockdep'", "--cfg lockdep", "--cfg=lockdep"))
