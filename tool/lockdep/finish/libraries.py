"""The locks of C libraries that a program in Python or Java loads. The recorder of pthreads is preloaded, where it waits for such a library
(recorders/pthread/preload/libraries.c), and what it has recorded gets traces beside those of the program's own locks, in the same folder."""
from __future__ import annotations

import os

from ..base.files import opened_text
from ..base.processes import find_command, output_of, run
from ..base.saying import Refusal
from ..base.words import quoted
from ..record import losses
from ..record.building import is_preloadable, recorder_folder
from ..record.folder import INSIDE, LIVES, OBJECTS, STAGE, TASKS, WEAK, Folder, remove_tree
from ..record.recording import is_of_musl, with_asan_after
from ..record.summary import Count, File, Summary, put, read
from .finishing import MOST_KEYS, MOST_TRACES, trace_name
from .programs import Files

TYPE_CHECKING = False
if TYPE_CHECKING:
    from typing import Iterator

VARIABLE = "LOCKDEP_LIBRARIES"  # names the folder that the preloaded recorder writes to
OF_PROCESSES = (".arena", ".refused")  # end the names of files in it
RIGHTS = 0o1777  # a program may give up its rights before it loads a library
TASK = r"\btask-([0-9]{4,})\b"
BESIDE = (TASKS, LIVES, WEAK, "breaches")  # files whose lines name traces
OF_THREADS = "library-threads"
OTHER_LOCKS = ("openmp", "go", "python-lock")  # kinds of locks of libraries that aren't recorded
RENAMED = {"threads": OF_THREADS, "deep-binding": "bound-libraries"}  # codes that mean something else here
RECORDS = (["acq"], ["rel"])  # begin the records that name a lock
APART = ("processes", "at-exit")  # are no sums: the first is counted by the program's own recorder


# ---- The beginning.

def watched(home: str, folder: Folder, words: list[str], environment: dict[str, str]) -> dict[str, str]:
    """An environment in which the libraries of a command are looked at. It is as it was if that isn't possible, as without a C compiler: then they
    are named."""
    environment = without(environment)
    program = find_command(words[0])[0]
    try:
        library = preload(home, folder) if program and not is_of_musl(program) else None
        raw = folder_inside(folder) if library else ""
    except OSError:
        return environment
    if not library:
        return environment
    others = environment.get("LD_PRELOAD")
    return with_asan_after(dict(environment, LD_PRELOAD=library + (":" + others if others else ""), **{VARIABLE: raw}))


def folder_inside(folder: Folder) -> str:
    """Makes the folder that the preloaded recorder writes to."""
    raw = os.path.join(folder.raw, INSIDE, "raw")
    os.makedirs(raw, exist_ok=True)
    for each in (raw, os.path.dirname(raw)):
        os.chmod(each, RIGHTS)
    return raw


def without(environment: dict[str, str]) -> dict[str, str]:
    """An environment without the folder of a recording around this one."""
    return {name: value for name, value in environment.items() if name != VARIABLE}


def preload(home: str, folder: Folder) -> str | None:
    """What is preloaded, by a name that LD_PRELOAD takes; none if there is none."""
    try:
        out = recorder_folder(home, needs_compiler=False)
    except Refusal:
        return None
    if not is_preloadable(out):
        stage = os.path.join(os.path.realpath(folder.path), STAGE)
        if not is_preloadable(stage):
            return None
        remove_tree(stage)  # (it may be that of a recording that was killed)
        os.makedirs(stage)
        os.symlink(out, os.path.join(stage, "out"))
        out = os.path.join(stage, "out")
    return os.path.join(out, "preload.so")


# ---- The end.

def note_others(home: str, summary: Summary, paths: list[str], is_passed: bool) -> None:
    """Counts the libraries with locks that no recorder of this run sees. They count as left out unless the recorder was named. Those that wait by
    futexes themselves are a note, as with the recorder of pthreads."""
    if not paths:
        return
    try:
        look = os.path.join(recorder_folder(home, needs_compiler=False), "look")
    except Refusal:
        return
    files = Files(look, paths)
    found = [File(path, None, kind) for kind, path in files.kinds(paths) if kind in OTHER_LOCKS]
    summary.add("passed-libraries" if is_passed else "other-libraries", found)
    waiting = [path for kind, path in files.kinds(paths) if kind == "futex" and "rust" not in files.program(path)]
    summary.add("futex-files", [File(path) for path in waiting])


def add_traces(home: str, path: str, raw: str, summary: Summary) -> None:
    """Adds the traces of what was recorded of libraries to those that a folder has, and its counts to a summary. Of a program that wasn't recorded
    itself nothing is added, since that isn't judged."""
    made = os.path.join(raw, INSIDE)
    if not summary.number("processes") or not any(name.endswith(OF_PROCESSES) for name in names_in(os.path.join(made, "raw"))):
        return
    found = read(made, is_first=True) if make(home, made) else None
    if found is None or not have_room(path, made):
        summary.counts.append(Count("library-traces", 1, losses.words_of_loss("library-traces", "pthread")))
        return
    first = len(traces_in(path))
    rename(made, clashing(path, made))
    move(path, made, first)
    add_counts(summary, found, first)


def names_in(folder: str) -> list[str]:
    return os.listdir(folder) if os.path.isdir(folder) else []


def make(home: str, made: str) -> bool:
    """Makes the traces in a folder of their own."""
    built = recorder_folder(home)
    if os.environ.get("LOCKDEP_NAMES") != "places":
        output_of([os.path.join(built, "names"), made], is_quiet=True)  # (what can't be found has no type)
    return run([os.path.join(built, "finish"), made]) == 0


def traces_in(folder: str) -> list[str]:
    import re
    return sorted(name for name in names_in(folder) if re.match(TASK, name) and name.endswith(".csv"))


def have_room(path: str, made: str) -> bool:
    """Whether one run takes all traces together."""
    if len(traces_in(path)) + len(traces_in(made)) > MOST_TRACES:
        return False
    return all(len(keys_in(os.path.join(path, place)) | keys_in(os.path.join(made, place))) <= MOST_KEYS for place in ("", OBJECTS))


def keys_in(folder: str) -> set[str]:
    """The names of locks in the traces of a folder."""
    import csv
    return {fields[1] for trace in traces_in(folder) for fields in csv.reader(lines_of(os.path.join(folder, trace))) if fields[:1] == ["acq"]}


def lines_of(path: str) -> list[str]:
    with opened_text(path) as file:
        return file.read().splitlines()


# ---- Names that both have.

def clashing(path: str, made: str) -> dict[str, str]:
    """New names for the classes of libraries that are called as one of the program's own, or of its type."""
    own = classes_in(path)
    taken, found = own | classes_in(made), {}
    for name in sorted(classes_in(made)):
        if name in own or name.partition("@")[0] in own:
            found[name] = next(new for new in ("%s~%d" % (name, number) for number in range(2, MOST_KEYS)) if new not in taken)
            taken.add(found[name])
    return found


def classes_in(folder: str) -> set[str]:
    return {line.partition("\t")[0] for line in lines_of(os.path.join(folder, "classes"))}


def rename(made: str, names: dict[str, str]) -> None:
    """Gives classes other names, in their list and in all traces."""
    if not names:
        return
    classes = [line.split("\t", 1) for line in lines_of(os.path.join(made, "classes"))]
    put(os.path.join(made, "classes"), "".join("\t".join([names.get(words[0], words[0])] + words[1:]) + "\n" for words in classes))
    for folder in (made, os.path.join(made, OBJECTS)):
        for trace in traces_in(folder):
            put(os.path.join(folder, trace), "".join(line + "\n" for line in renamed(lines_of(os.path.join(folder, trace)), names)))


def renamed(lines: list[str], names: dict[str, str]) -> Iterator[str]:
    """Records with other names for their locks, each of which is that of a class, perhaps with a number and a process behind it."""
    import csv
    for line, fields in zip(lines, csv.reader(lines)):
        name = next((name for name in names if fields[1] == name or fields[1].startswith((name + "#", name + "@"))), "") if fields[:1] in RECORDS else ""
        yield ",".join([fields[0], quoted(names[name] + fields[1][len(name):])] + fields[2:]) if name else line


# ---- Putting them together.

def renumbered(text: str, first: int) -> str:
    """A text in which traces have the numbers that follow those of the program's own."""
    import re
    return re.sub(TASK, lambda match: trace_name(int(match.group(1)) + first), text)


def move(path: str, made: str, first: int) -> None:
    import re
    for place in ("", OBJECTS):
        for name in names_in(os.path.join(made, place)):
            if re.match(TASK, name):
                os.rename(os.path.join(made, place, name), os.path.join(path, place, renumbered(name, first)))
    for name in (name for name in BESIDE if os.path.isfile(os.path.join(made, name))):
        own = lines_of(os.path.join(path, name)) if os.path.isfile(os.path.join(path, name)) else []
        put(os.path.join(path, name), "".join(line + "\n" for line in own + [renumbered(line, first) for line in lines_of(os.path.join(made, name))]))
    # (the places of classes are told by the numbers of their lines, so these come before others)
    classes = lines_of(os.path.join(made, "classes")) + lines_of(os.path.join(path, "classes"))
    put(os.path.join(path, "classes"), "".join(line + "\n" for line in classes))
    for name in ("classes.places", "breaches.places"):
        if os.path.isfile(os.path.join(made, name)):
            os.rename(os.path.join(made, name), os.path.join(path, name))


def add_counts(summary: Summary, found: Summary, first: int) -> None:
    """Adds the counts of libraries. If one of their locks was seen, something of the program was, even if it takes no others."""
    if not summary.number("threads"):
        set_number(summary, "threads", found.number("threads"))
    if found.operations():
        summary.counts = [count for count in summary.counts if count.code != "library-only" and not is_of_nothing(count)]
    if found.number("waiting"):  # (of the program's own threads it isn't known whether they waited at an exit, so they count as such)
        summary.counts.append(Count("at-exit", found.number("at-exit") + summary.number("waiting")))
    for count in found.counts:
        if not count.number or count.code in APART:
            continue
        code = RENAMED.get(count.code, count.code)
        words = count.words if code == count.code else losses.words_of_loss(code, "pthread")
        notes = [renumbered(note, first) for note in count.notes]
        same = next((each for each in summary.counts if each.code == code and each.number is not None and each.words == words), None)
        if same is None:
            summary.counts.append(Count(code, count.number, words, notes, count.files))
        else:
            same.number = (same.number or 0) + count.number
            same.notes += notes


def set_number(summary: Summary, code: str, number: int) -> None:
    count = summary.find(code)
    if count:
        count.number = number


def is_of_nothing(count: Count) -> bool:
    """Whether it says that the program took no lock of its own."""
    return count.number is None and count.code.startswith("unseen ") and count.code.endswith("-nothing")
