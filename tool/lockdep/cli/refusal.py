"""Says what to do about a refusal by the program: a line with the record in question, and what the table tool/words has for the code. What isn't
certain isn't said. Texts have a character for each byte, since a terminal might interpret some."""
from __future__ import annotations

import os
import re
import signal

from ..base.nearest import nearest
from ..program.code_words import words_for
from .refused_line import Facts as LineFacts
from .refused_record import facts_of

OF_TRACE = re.compile(r"lockdep: (.*): record (\d+): ([TS]\d|H\d+) .*", re.S)
OF_FILE = re.compile(r"lockdep: (.*): P2 CannotOpen", re.S)
OF_ELSE = re.compile(r"lockdep: ([A-Z]\d) [A-Z].*", re.S)
LOOKED_AT = re.compile(r"T[1-5]|S\d")  # the codes that a record says more of
PATIENCE = 5  # for how many seconds of processor time a trace may be looked at
PATIENCE_WITH_ALL = 30  # the same of all traces
PIECE = 1 << 18  # bytes that are read at once, and the longest line that is looked at
MOST_PIECES = 320  # a million records whose names are as long as they may be
MOST_LINES = 1_000_000  # of a record: what a double quote that is never closed may take in
LONGEST_PATH = 60
VERBS = ("acq", "rel", "enter", "leave", "on", "off")
OTHER_VERBS = {"acquire": "acq", "lock": "acq", "take": "acq", "release": "rel", "unlock": "rel", "free": "rel"}

TYPE_CHECKING = False  # for a tool that checks types, it is true
if TYPE_CHECKING:
    from typing import Any, BinaryIO, Callable


def bytes_of(text: str) -> bytes:
    return text.encode("latin-1")


def visible(path: str) -> str:
    """The name of a folder as a pattern of a shell, which stands for the same one, unless it is too long."""
    return re.sub("[^ -~]", "?", path)[:LONGEST_PATH]


# ---- A fault of a trace.

def beginning(opened: BinaryIO, number: int) -> tuple[bytes, bool]:
    """As much of a trace as it takes to look at a record, and whether that is all of it. The records before it are well
    formed, and so they are short, and each one is a line."""
    pieces: list[bytes] = []
    lines = of_line = 0
    while len(pieces) < MOST_PIECES and lines < number + MOST_LINES and of_line < PIECE:
        piece = opened.read(PIECE)
        if not piece:
            return b"".join(pieces), True
        pieces.append(piece)
        lines += piece.count(b"\n")
        of_line = len(piece) - piece.rfind(b"\n") - 1 + (0 if b"\n" in piece else of_line)
    return b"".join(pieces), not opened.read(1)


def content(file: str, words: list[str], number: int) -> tuple[bytes, bool] | None:
    """What is in a trace up to a record, and whether that is all of it, if it can be read again as it was: none if it is
    standard input, a pipe, has NUL bytes, or is one of the kernel's, of which reading may wait, as of /proc/kmsg."""
    path = bytes_of(file)
    if (file == "stdin" and "stdin" not in words) or not os.path.isfile(path) or os.path.realpath(path).startswith((b"/proc/", b"/sys/")):
        return None
    try:
        with open(path, "rb") as opened:
            raw, is_whole = beginning(opened, number)
    except OSError:
        return None
    return None if b"\0" in raw else (raw, is_whole)


def look_at_trace(file: str, words: list[str], code: str, number: int) -> dict[str, Any]:
    """What the trace's own lines say, unless that takes too long."""
    def look() -> dict[str, Any]:
        read = content(file, words, number)
        return facts_of(*read, code, number) if read else {}
    facts = in_time(look, PATIENCE)
    if "unknown" in facts:
        note_verb(facts)
    return facts


def in_time(look: Callable[[], dict[str, Any]], seconds: int) -> dict[str, Any]:
    """What is found, or nothing if that takes more seconds of processor time."""
    def give_up(*_: object) -> None:
        raise TimeoutError
    before = signal.signal(signal.SIGPROF, give_up)
    signal.setitimer(signal.ITIMER_PROF, seconds)
    try:
        return look()
    except (TimeoutError, MemoryError):
        return {}
    finally:
        signal.setitimer(signal.ITIMER_PROF, 0)
        signal.signal(signal.SIGPROF, before)


def note_verb(facts: dict[str, Any]) -> None:
    """The verb that was meant."""
    verb = facts["unknown"].lower()
    meant = verb if verb in VERBS else OTHER_VERBS.get(verb) or nearest(facts["unknown"], list(VERBS))
    if meant:
        facts.update(nearest=meant, case="verb")


def asks_of_locks(words: list[str]) -> bool:
    """Whether single locks are asked about."""
    return words[:1] == ["explain"] and (has_flag("--locks", words) or has_flag("--confirmed-only", words))


def has_flag(flag: str, words: list[str]) -> bool:
    return flag in (words[:words.index("--")] if "--" in words else words)


def case_of_many(words: list[str]) -> str | None:
    """What there is room for depends on the command."""
    command = words[0] if words else ""
    if command == "chains":
        return command
    return "locks" if asks_of_locks(words) else "many" if has_flag("--many", words) else None


def has_tasks(folder: str) -> bool:
    """Whether a folder is that of a recording, or has traces of tasks: there are other files beside these."""
    try:
        names = os.listdir(bytes_of(folder))
    except OSError:
        return False
    return any(name == b"SUMMARY" or name.startswith(b"task-") and name.endswith(b".csv") for name in names)


def of_trace(file: str, number: int, code: str, words: list[str]) -> str:
    facts: dict[str, Any] = {}
    if code == "T1" and file.endswith(".csv.places"):
        facts["case"] = "places"
    elif LOOKED_AT.fullmatch(code):
        facts = look_at_trace(file, words, code, number)
    if os.path.isdir(bytes_of(file)):
        folder = file[:-1] if file.endswith("/") else file
        facts.update(case="folder", file="%s/%s" % (visible(folder), "task-*.csv" if has_tasks(file) else "*"))
    if code == "S1" and "lock" not in facts:  # without its record, nothing can be said about the lock
        facts["case"] = "unknown"
    if code == "T6":
        facts["case"] = case_of_many(words)
    return where(facts) + words_for(code, facts)


def where(facts: dict[str, Any]) -> str:
    if "first" not in facts:
        return ""
    if facts["last"] is None:
        return "it begins on line %d: " % facts["first"]
    if facts["first"] == facts["last"]:
        return "line %d is '%s': " % (facts["first"], facts["text"])
    return "it stands on the lines %d to %d: " % (facts["first"], facts["last"])


# ---- A file that can't be opened.

def ends_nowhere(path: bytes) -> bool:
    """Whether a path leads through a link at whose end there is nothing."""
    while not os.path.exists(path):
        if os.path.islink(path):
            return True
        path = os.path.dirname(path) or b"."
    return False


def hiding_folder(path: bytes) -> bytes | None:
    """The folder on the way to a path that can't be searched, so that nothing is known of what is in it, if there is one."""
    folder = os.path.dirname(path) or b"."
    while not os.path.isdir(folder) and folder != (os.path.dirname(folder) or b"."):
        folder = os.path.dirname(folder) or b"."
    return None if os.access(folder, os.X_OK) else folder


def of_file(file: str) -> str:
    path = bytes_of(file)
    facts: dict[str, Any] = {}
    if not os.path.exists(path):
        facts["case"] = "hyphen" if file.rpartition("/")[2] == "-" else "pattern" if "*" in file else None
    hidden = hiding_folder(path)
    if ends_nowhere(path):
        facts["case"] = "link"
    elif is_socket(path):
        facts["case"] = "socket"
    elif os.access(path, os.R_OK):
        facts["case"] = "unopened"
    elif os.path.exists(path):
        facts["case"] = "rights"
    elif hidden is not None:
        facts.update(case="hidden", folder=visible(hidden.decode("latin-1")))
    return words_for("P2", facts)


def is_socket(path: bytes) -> bool:
    import stat
    try:
        return stat.S_ISSOCK(os.stat(path).st_mode)
    except OSError:
        return False


# ---- Too many keys that lead to one another.

def of_tangle(program: str, words: list[str]) -> dict[str, Any]:
    """What was counted, and what to look at first, if the traces can be read again, and that doesn't take too long."""
    from ..ask.verdict import type_of_key
    from ..gather.places import MOST_TANGLED
    from .refused_tangle import facts_of_tangle
    is_of_locks, files = asks_of_locks(words), files_in(words)
    facts: dict[str, Any] = {}
    if files and all(os.path.isfile(bytes_of(file)) for file in files):
        names = [os.fsdecode(bytes_of(file)) for file in files]
        facts = in_time(lambda: facts_of_tangle(program, names, type_of_key if is_of_locks else str, MOST_TANGLED), PATIENCE_WITH_ALL)
    if facts:
        return dict(facts, case="counted", what="types of locks" if is_of_locks else "lock classes", file=visible(os.path.basename(facts["file"])))
    return {"case": "types" if is_of_locks else None}


def files_in(words: list[str]) -> list[str]:
    """The files that a command of the program names."""
    options = words[1:words.index("--")] if "--" in words else words[1:]
    files = [word for word, before in zip(options, ["", *options]) if not word.startswith("-") and before != "--workers"]
    return files + (words[words.index("--") + 1:] if "--" in words else [])


# ---- All refusals.

def advice(program: str, line: str, words: list[str]) -> str:
    """What is said under the program's line, or nothing."""
    trace, file, other = OF_TRACE.fullmatch(line), OF_FILE.fullmatch(line), OF_ELSE.fullmatch(line)
    if trace:
        return of_trace(trace.group(1), int(trace.group(2)), trace.group(3), words)
    if file:
        return of_file(file.group(1))
    if line == "lockdep: P1 BadCommandLine":
        facts = LineFacts(program)
        facts.look_at(words)
        return words_for("P1", facts)
    if not other:
        return ""
    code = other.group(1)
    if code == "M1":
        return words_for(code, of_tangle(program, words))
    return words_for(code, {"case": "pipe" if code == "P3" and os.environ.get("LOCKDEP_OUTPUT") == "pipe" else None})


def said(program: str, line: bytes, words: list[bytes]) -> bytes:
    """The same as a line, or none."""
    text = advice(program, line.decode("latin-1"), [word.decode("latin-1") for word in words])
    return bytes_of("lockdep: %s\n" % text) if text else b""


def main(words: list[str]) -> int:
    program, line, *rest = (os.fsencode(word) for word in words)
    os.write(1, said(os.fsdecode(program), line, rest))
    return 0
