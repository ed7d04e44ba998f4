"""The programs of a recording by the recorder of pthreads: which ran, which it wasn't loaded into, and which have other locks.

What a file shows is asked of `look`, once for all files."""
from __future__ import annotations

import os

from ..base.files import opened_text
from ..base.processes import find_command, output_of
from ..binaries import loading
from ..record import go_command, losses
from ..record.folder import modules_of
from ..record.recorders import GO_MARK, RUST_MARK, has, mapped
from ..record.summary import LOADED, STARTED, File, Summary

MOST_BYTES = 100000  # of the words of one command
HEAD = 65536  # bytes at the beginning of a program, in which the name of its loader is
RUST_TOOLS = frozenset("cargo rustc rustdoc rustup rustfmt clippy-driver sccache coreutils".split())  # (some systems have coreutils in Rust)

SYSTEM = ("/bin/", "/sbin/", "/lib/", "/lib32/", "/lib64/", "/libx32/", "/usr/bin/", "/usr/sbin/", "/usr/lib/", "/usr/lib32/", "/usr/lib64/", "/usr/libx32/",
          "/usr/libexec/")  # whose programs aren't a program's own
COMMON = ("pthread", "semaphore", "futex", "python-lock")  # kinds of locks that a program of any language may have, and a part of Python
OF_LIBRARIES = ("openmp", "glib")  # kinds of locks that are a library's own, whichever program loads it


class Files:
    """What `look` says of files: of one as a program that is started, and of one as a program or library with locks."""

    def __init__(self, look: str, paths: list[str], looked: bytes = b"", looked_at: list[str] = ()) -> None:
        """What `look` has written of some files already may be given."""
        self.as_program: dict[str, list[str]] = {}
        self.of_locks: dict[str, list[str]] = {}
        self.take(looked)
        known = set(looked_at) if looked else set()
        paths = [path for path in dict.fromkeys(paths) if path not in known and path and "\n" not in path and os.path.isfile(path)]
        same = {path: os.path.realpath(path) for path in paths}
        for path in paths:
            self.take_same(path, same[path] if same[path] in known else "")
        for some in batches([path for path in paths if same[path] not in known]):
            self.take(output_of([look, "--all"] + some, is_quiet=True)[1])

    def take_same(self, path: str, known: str) -> None:
        """Takes what is known of a file by another path of it."""
        for words in (self.as_program, self.of_locks):
            words.update({path: words[known]} if known in words else {})

    def take(self, output: bytes) -> None:
        for line in os.fsdecode(output).split("\n")[:-1]:
            word, _, path = line.partition("\t")
            if word.startswith("program "):
                self.as_program.setdefault(path, []).append(word[len("program "):])
            else:
                self.of_locks.setdefault(path, []).append(word)

    def program(self, path: str) -> list[str]:
        return self.as_program.get(path, [])

    def kinds(self, paths: list[str]) -> list[tuple[str, str]]:
        """The kinds of locks in some files, each with its file."""
        return [(kind, path) for path in paths for kind in self.of_locks.get(path, [])]


def batches(paths: list[str]) -> list[list[str]]:
    """The paths in groups that fit into a command."""
    groups: list[list[str]] = []
    size = MOST_BYTES
    for path in paths:
        size += len(os.fsencode(path)) + 1
        if size > MOST_BYTES:
            groups.append([])
            size = len(os.fsencode(path)) + 1
        groups[-1].append(path)
    return groups


def is_library(path: str) -> bool:
    """Whether the path has the ending of a library, perhaps with a version."""
    return path.endswith(".so") or ".so." in path


def is_of_system(path: str) -> bool:
    folders = path.split("/")[1:]
    if folders[:1] == ["usr"]:
        folders = folders[1:]
    return is_library(path) and folders[:1] in (["lib"], ["lib32"], ["lib64"], ["libx32"])


class Started:
    """A program that a recorded one started: how often, whether with the recorder, by which name, and the file that this is now."""
    __slots__ = ("starts", "is_alone", "path", "file")

    def __init__(self, file: File) -> None:
        self.starts, self.path, self.is_alone = file.times or 0, file.path, file.why == "alone"
        self.file = find_command(self.path)[0]


class Programs:
    """All programs and libraries of a recording, with what their files show."""

    def __init__(self, folder: str, raw: str, program: str, summary: Summary, look: str, is_passed: bool,
                 looked: bytes = b"") -> None:
        self.folder, self.raw, self.program, self.summary = folder, raw, program, summary
        self.is_passed = is_passed  # what isn't seen is left to whoever named the recorder
        self.started = [Started(file) for file in summary.files_of(STARTED)]
        self.modules = sorted(set(modules_of(folder)), key=os.fsencode)
        self.ran = [self.place(path) for path in dict.fromkeys(self.names_run())]
        self.run_files = list(dict.fromkeys(path for path in self.ran + [file.path for file in summary.files_of(LOADED)] if not path.endswith("/preload.so")))
        paths = [program] + self.modules + self.ran + self.run_files + [each.file or "" for each in self.started]
        self.files = Files(look, paths, looked, [file.path for file in summary.files_of(LOADED)])

    # ---- What ran.

    def names_run(self) -> list[str]:
        """The command, what was started, and what classes were seen of. What can't be found is named as it was started."""
        names = [os.path.realpath(self.program)] if os.path.isfile(self.program) else []
        names += [os.path.realpath(each.file) if each.file else each.path for each in self.started]
        return names + [module for module in self.modules if not is_library(module)]

    def place(self, path: str) -> str:
        """Where a program lies that isn't found by the name that it was started by, as after a change of the folder."""
        if os.path.isfile(path):
            return path
        ending = "/" + path.rpartition("/")[2]
        if not hasattr(self, "in_memory"):
            self.in_memory = files_in_memory(self.raw)
        return next((file for file in self.in_memory if file.endswith(ending) and os.path.isfile(file)), path)

    # ---- Programs in Rust.

    def note_rust(self) -> None:
        """Counts the programs in Rust that weren't recorded, so that what was seen of others isn't taken for all."""
        found = self.rust_programs()
        if not found and os.path.isfile(self.program) and is_rust_tool(self.program):
            found = [File(self.program, None, "rust-tool")]
        self.summary.add("rust-programs", found)

    def rust_programs(self) -> list[File]:
        """Those of which only pthread locks can have been seen. The tools that build them are none. A program that is gone may be one if such a
        tool ran, as a test of rustdoc's."""
        found, gone, has_tool = [], [], False
        for path in dict.fromkeys(self.ran):
            if is_rust_tool(path):
                has_tool = True
            elif not os.path.isfile(path):
                gone.append(path)
            elif "rust" in self.files.program(path):
                found.append(File(path, None, "rust-built" if has(mapped(path), (RUST_MARK,)) else "rust-plain"))
        return found + ([File(path, None, "rust-gone") for path in gone if "/" in path] if has_tool else [])

    # ---- Other locks.

    def note_others(self) -> None:
        """Counts, in place of all files that were loaded, the programs whose locks aren't those of pthreads, and those whose locks aren't all
        known."""
        self.summary.drop(LOADED)
        kinds = self.files.kinds(self.run_files)
        waiting = self.waiting_by_futex(kinds)
        without_locks = [path for path in waiting if not is_library(path) and ("pthread", path) not in kinds]
        found = other_programs(kinds) + [File(path, None, "futex") for path in without_locks]
        self.summary.add("passed-programs" if self.is_passed else "other-programs", found)
        self.summary.add("sanitizer-programs", sanitizer_programs(kinds))
        self.summary.add("futex-files", [File(path) for path in waiting if path not in without_locks])

    def waiting_by_futex(self, kinds: list[tuple[str, str]]) -> list[str]:
        """The files whose own code waits by futexes, but for those of which more is said: libraries of the system, programs in Rust, and other
        runtimes."""
        others = {path for kind, path in kinds if kind not in COMMON}
        found = [path for kind, path in kinds if kind == "futex"]
        return [path for path in found if path not in others and not is_of_system(path) and "rust" not in self.files.program(path)]

    def note_semaphores(self) -> None:
        """Counts the files that wait for semaphores, if these weren't looked at. Python and Java make their own locks of them, and those of a
        library of the system aren't the program's."""
        kinds = self.files.kinds(self.run_files)
        others = {path for kind, path in kinds if kind not in COMMON}
        found = [path for kind, path in kinds if kind == "semaphore"]
        self.summary.add("semaphore-files", [File(path) for path in found if not is_of_system(path) and path not in others])

    # ---- What the recorder wasn't loaded into.

    def note_unreached(self) -> None:
        """Counts, in place of all programs that were started, those that weren't reached."""
        self.summary.drop(STARTED)
        taken_over = lines_of(os.path.join(self.raw, "taken-over"))
        found: dict[tuple[str, str], int] = {}
        for each in self.started:
            reason = None if each.path in taken_over or is_valgrind(each.path) else self.why_unreached(each)
            if reason:
                found[each.path, reason] = found.get((each.path, reason), 0) + each.starts
        self.summary.add("unreached-runs", [File(path, starts, reason) for (path, reason), starts in found.items()], sum(found.values()))

    def why_unreached(self, started: Started) -> str | None:
        if started.is_alone:
            return "alone"
        words = self.files.program(started.file) if started.file else []
        return next((word for word in words if word in losses.NOT_LOADED), None)

    # ---- Why nothing was seen, or not all.

    def note_reasons(self) -> None:
        """Adds what the classes and the command's file suggest. If some locks were seen, only a language matters that has others."""
        known = self.summary.reasons()
        for reason in dict.fromkeys(self.interpreters_seen() + self.programs_seen() + self.files.program(self.program)):
            matters = not self.summary.operations() or reason in losses.OTHER_LANGUAGES + ("rust",)
            if matters and reason not in known:
                self.summary.add_unseen(reason)

    def interpreters_seen(self) -> list[str]:
        """The interpreters whose own locks are among the classes."""
        names = [module.rpartition("/")[2] for module in self.modules]
        found = ["libpython" for name in names if name.startswith(("python", "libpython", "pypy", "libpypy"))]
        return found + ["libjvm" for name in names if name == "libjvm.so"]

    def programs_seen(self) -> list[str]:
        """What is to be said of the programs that classes were seen of: the command may have started another one."""
        own = os.path.realpath(self.program)
        others = [module for module in self.modules if not is_library(module) and module != own]
        return [word for module in others for word in self.files.program(module) if word in ("go", "rust")]


def other_programs(kinds: list[tuple[str, str]]) -> list[File]:
    """The programs with locks that aren't those of pthreads. A library is named only if there is no program of the same kind, which loads it; but
    one with locks of OpenMP or GLib has its own, and is named unless it is one of the system's."""
    kinds = [(kind, path) for kind, path in kinds
             if kind not in COMMON and kind != "sanitizer" and not (kind in OF_LIBRARIES and is_of_system(path))]
    of_programs = {kind for kind, path in kinds if not is_library(path)}
    return [File(path, None, "go-built" if kind == "go" and has(mapped(path), (GO_MARK,)) else kind) for kind, path in kinds
            if kind == "embed" or kind in OF_LIBRARIES or not is_library(path) or kind not in of_programs]


def sanitizer_programs(kinds: list[tuple[str, str]]) -> list[File]:
    """The programs built with a sanitizer that hides the memory of C++ objects. Its own library is named only if there is none, as if it was
    preloaded."""
    paths = [path for kind, path in kinds if kind == "sanitizer"]
    programs = [path for path in paths if not is_library(path)]
    return [File(path, None, "sanitizer") for path in programs or paths]


def linked_files(program: str) -> list[str]:
    """A program and the libraries that it is linked with, but for those that take locks of pthreads in any program."""
    try:
        with open(program, "rb") as file:
            loader = loading.loader(file.read(HEAD))
    except OSError:
        return [program]
    libraries = loading.listed(output_of([loader, "--list", program], is_quiet=True)[1]) if loader else []
    return [program] + [path for path in libraries if not path.rpartition("/")[2].startswith(loading.C_LIBRARY)]


def note_pthreads(summary: Summary, program: str, look: str, is_passed: bool) -> None:
    """Counts the files of a program with lockdep_record.h that take locks of pthreads too."""
    if os.path.isfile(program):
        linked = linked_files(program)
        found = [path for kind, path in Files(look, linked).kinds(linked) if kind == "pthread"]
        summary.add("passed-pthreads" if is_passed else "other-pthreads", [File(path) for path in found])


def note_started(summary: Summary, look: str, started: list[tuple[str, bool]]) -> None:
    """Counts the programs that a recorded program in Go started and that weren't recorded: those that run Python or Java, and of those outside the
    system's folders the ones with locks."""
    programs = {os.path.realpath(path): is_told for path, is_told in sorted(started) if os.path.isfile(path) and not go_command.is_go(path)}
    files = Files(look, list(programs))
    others, pthreads = [], []
    for path, is_told in programs.items():
        words = files.program(path)
        language = next((word for word in words if word in losses.OTHER_LANGUAGES), None)
        if language == "go" and has(mapped(path), (GO_MARK,)):
            others += [] if is_told else [File(path, None, "go-untold")]
        elif language and (language != "go" or not path.startswith(SYSTEM)):
            others.append(File(path, None, language))
        elif not path.startswith(SYSTEM) and ("pthread", path) in files.kinds([path]):
            pthreads.append(File(path))
    summary.add("other-runs", others)
    summary.add("pthread-runs", pthreads)


def is_valgrind(path: str) -> bool:
    """Whether a program is a part of valgrind's: it is static, and does the loader's work for the program in it."""
    folder, _, name = path.rpartition("/")
    return (folder == "valgrind" or folder.endswith("/valgrind")) and name.endswith("-linux")


def is_rust_tool(path: str) -> bool:
    """Whether a program is a tool that builds Rust programs, or one of its build scripts: what runs for the sake of a program, and isn't it."""
    name = path.rpartition("/")[2]
    if "/rustlib/" in path or "/build-script-" in path or path.startswith("/usr/lib/cargo/bin/"):
        return True
    return name in RUST_TOOLS or name.startswith(("cargo-", "rust-"))


def lines_of(path: str) -> list[str]:
    try:
        with opened_text(path) as file:
            return file.read().split("\n")
    except OSError:
        return []


def files_in_memory(raw: str) -> list[str]:
    """The files that recorded processes had in memory, by their absolute names. The recording is nearly all holes, which are passed over."""
    found: set[bytes] = set()
    for name in os.listdir(raw):
        if name.endswith(".arena"):
            try:
                with open(os.path.join(raw, name), "rb") as file:
                    add_paths(file.fileno(), found)
            except OSError:
                continue
    return [os.fsdecode(path) for path in sorted(found)]


def add_paths(arena: int, found: set[bytes]) -> None:
    """Adds what looks like an absolute path in the parts of a file that aren't holes."""
    at, size = 0, os.fstat(arena).st_size
    while at < size:
        at = os.lseek(arena, at, os.SEEK_DATA)
        end = os.lseek(arena, at, os.SEEK_HOLE)
        for text in os.pread(arena, end - at, at).replace(b"\n", b"\0").split(b"\0"):
            if text[:1] == b"/":
                found.add(text)
        at = end
