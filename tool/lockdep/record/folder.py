"""The folder of a recording: what is in it, and protecting other files.

What a recording made is listed in RECORDED, which is also the file that is locked while one is under way. `raw` has what the processes wrote; it is
there until the traces are made, and is then packed into raw.tar.gz, or dropped."""
from __future__ import annotations

import errno
import fcntl
import os

from ..base.files import text_in
from ..base.saying import Refusal, typed
from ..base.words import bytes_of, lines_of
from . import run_settings

DEFAULT_FOLDERS = ("lockdep-traces", "traces")  # where a recording is looked for; the second is what an earlier `record` took, and that of kernels takes
DEFAULT_FOLDER = DEFAULT_FOLDERS[0]
TASKS = "tasks"  # the file with the names of threads
OBJECTS = "objects"  # the folder with the traces of single locks
LIVES = "lives"  # the file that says which thread started and joined which
WEAK = "weak"  # the file that says which acquisitions wait for a time only
HISTORY = "history"  # the folder with what the threads of each process did, in the order in which it came, if that was made
OF_HISTORY = (".csv", ".csv.places", ".left-out")  # ends the names of the files of a process there
SIGNALS = "signals"  # the folder with the traces of signal handlers: a folder of it for each, named by a number
OF_SIGNALS = ("sources.json", "never.json")  # in it: the handlers that took a lock, and those that never ran
NUMBERS = "threads"  # in it: of each trace of the recording a number of its thread; a thread and the runs of handlers in it have one
FIRST_LINE = "a recording by lockdep made these:"
LOCK = 9  # the open file whose lock says that a recording is under way; `run` closes it in the command
PAGE = "report.html"  # isn't written by what records, which leaves another's alone
INSIDE = "libraries"  # in the recording of a Python or Java program: a folder with a recording of its own, of C libraries
STAGE = ".lockdep-recorder"  # links to the recorder, if LD_PRELOAD can't name where it is
PROVOKED, OF_PROVOKE = "provoked.json", "provoke"  # what `lockdep provoke` made happen, and the folder with what its runs left
MADE = ("classes", "SUMMARY", "summary.json", PAGE, "raw.tar.gz", "objects", "classes.places", "breaches", "breaches.places", PROVOKED, OF_PROVOKE,
        TASKS, LIVES, WEAK, SIGNALS, HISTORY)
MARKS = ("settings", "python", "java")  # one of these is in `raw` if it has a recording
ELSEWHERE = "choose another folder by -o"


def is_made(name: str) -> bool:
    """Whether a file of this name may be one that a recording made."""
    folder, _, inner = name.rpartition("/")
    if folder == SIGNALS:
        return inner in OF_SIGNALS + (NUMBERS,) or is_number(inner)
    if folder == HISTORY:
        number, dot, end = inner.partition(".")
        return number.startswith("process-") and is_number(number[len("process-"):]) and dot + end in OF_HISTORY
    is_of_signal = is_in_signals(folder) and folder.count("/") == 1
    if folder in ("", "objects") or is_of_signal:
        return is_trace(inner[:-len(".places")] if inner.endswith(".places") else inner) or name in MADE or is_of_signal and inner == WEAK
    return False


def is_trace(name: str) -> bool:
    return name.startswith("task-") and name.endswith(".csv") and is_number(name[len("task-"):-len(".csv")])


def is_number(text: str) -> bool:
    return text.strip("0123456789") == "" != text


def is_in_signals(folder: str) -> bool:
    """Whether a folder has the traces of one signal handler of a recording: FOLDER/signals/N."""
    return is_number(os.path.basename(folder)) and os.path.basename(os.path.dirname(folder)) == SIGNALS


def fault(error: OSError, path: str) -> str:
    """What an error means that came while something was written into a folder."""
    if error.errno in (errno.ENOSPC, errno.EDQUOT):
        return "no space left in " + path
    if error.errno == errno.EFBIG:
        return "the limit of a file's size, `ulimit -f`, is too low for " + path
    return "nothing can be written in %s: %s" % (path, error.strerror or error)


def checked(path: str) -> str:
    """The path of a folder, which no tool takes for an option or for an assignment of awk's."""
    if "\n" in path:
        raise Refusal("a folder's name can't have a line break, since reports name its files")
    return "./" + path if path[:1] != "/" and (path[:1] == "-" or "=" in path) else path


class Folder:
    """The folder of a recording."""

    def __init__(self, path: str) -> None:
        self.path, self.list = path, os.path.join(path, "RECORDED")
        self.has_run_settings = False  # whether this recording has put them here
        try:
            self.raw = os.path.join(os.path.realpath(path), "raw")
        except FileNotFoundError:
            raise Refusal("the current folder has been removed, so %s can't be found; change to another folder" % path)

    # ---- The list.

    def lock(self) -> None:
        """Locks the folder until this process, and what it becomes, has ended."""
        try:
            self.file = os.open(self.list, os.O_RDWR | os.O_APPEND | os.O_CREAT, 0o666)
        except OSError:
            raise Refusal("%s can't be written; %s" % (self.list, ELSEWHERE))
        lines = self.listed()
        if lines and lines[0] != FIRST_LINE:
            raise Refusal("%s is not the list of a recording; move it away, or %s" % (self.list, ELSEWHERE))
        try:
            fcntl.flock(self.file, fcntl.LOCK_EX | fcntl.LOCK_NB)
        except OSError as error:
            if error.errno != errno.EWOULDBLOCK:
                raise Refusal("the folder can't be locked: %s" % error.strerror)
            raise Refusal("another recording into %s is under way" % self.path)
        if not lines:
            self.write_list([])

    def keep_lock(self) -> None:
        """Has the lock go on in what this process becomes."""
        if self.file != LOCK:
            os.dup2(self.file, LOCK)
            os.close(self.file)
            self.file = LOCK
        os.set_inheritable(LOCK, True)

    def listed(self) -> list[str]:
        return text_in(self.list).split("\n")[:-1]

    def write_list(self, names: list[str]) -> None:
        with open(self.list, "r+b", buffering=0) as file:
            raw = os.fsencode("".join(line + "\n" for line in [FIRST_LINE] + names))
            file.truncate(0)
            while raw:
                raw = raw[file.write(raw):]

    def list_made(self) -> None:
        """Lists what this recording made. Nothing of these names was there before."""
        self.write_list(self.names())

    # ---- What is there.

    def names(self) -> list[str]:
        """What is there under a name that recordings use."""
        try:
            found = os.listdir(self.path)
        except OSError:
            return []
        for folder in ("objects", SIGNALS, HISTORY):
            found += self.inside(folder) if folder in found else []
        for folder in [name for name in found if is_in_signals(name)]:
            found += self.inside(folder)
        return sorted(name for name in found if is_made(name))

    def inside(self, folder: str) -> list[str]:
        """What is in a folder of this one, by names that begin with the folder's."""
        path = os.path.join(self.path, folder)
        return ["%s/%s" % (folder, name) for name in os.listdir(path)] if os.path.isdir(path) else []

    def mark(self) -> str | None:
        """The mark of a recording whose traces weren't made, or can be made again."""
        return next((mark for mark in MARKS if os.path.isfile(os.path.join(self.raw, mark))), None)

    def unmade(self) -> str:
        """That the traces of a recording weren't made, and what makes them. It may be typed elsewhere than this tool lies."""
        path = typed(self.path)
        return ("%s has a recording whose traces weren't made: `lockdep record --finish %s` makes them, and `lockdep confirm %s` shows the "
                "findings then" % (self.path, path, path))

    def look_for_others(self) -> None:
        """Refuses to record over what no recording made, or what isn't made into traces yet."""
        if self.mark():
            raise Refusal("%s; `rm -r %s` drops it" % (self.unmade(), typed(os.path.join(self.path, "raw"))))
        listed = self.listed()
        in_the_way = [name for name in self.names() if name not in listed and name != PAGE]
        if os.path.lexists(os.path.join(self.path, "raw")) and "raw" not in listed:
            in_the_way.append("raw")
        if in_the_way:
            raise Refusal("%s/%s is in the way and was made by no recording; move it away, or %s" % (self.path, in_the_way[0], ELSEWHERE))

    # ---- Beginning.

    def prepare(self) -> None:
        """Makes the folder ready for a recording. What is in the way is left alone, and if the recording can't begin, nothing is left beside
        it."""
        was_there = [path for path in (self.path, self.list, self.raw) if os.path.lexists(path)]
        try:
            os.makedirs(self.path, exist_ok=True)
        except OSError:
            raise Refusal("%s can't be made; %s" % (self.path, ELSEWHERE))
        try:
            if self.list not in was_there:
                self.look_for_others()
            self.lock()
            self.look_for_others()
            self.remove_earlier()
            os.mkdir(self.raw)
            os.chmod(self.raw, 0o1777)  # a program may give up its rights before its threads begin
        except OSError as error:
            self.drop_made(was_there)
            raise Refusal(fault(error, self.path))
        except Refusal:
            self.drop_made(was_there)
            raise
        self.was_there = was_there

    def put(self, name: str, text: str) -> None:
        """Writes a file in `raw` before the recording begins."""
        self.write_first(os.path.join(self.raw, name), bytes_of(text))

    def put_run_settings(self, raw: bytes) -> None:
        """Writes what `lockdep run` was asked for, if that begins the recording, for its last part."""
        self.has_run_settings = bool(raw)
        if raw:
            self.write_first(run_settings.path_in(self.path), raw)

    def write_first(self, path: str, raw: bytes) -> None:
        """Writes a file before the recording begins. A full disk lets files be made, and nothing be put into them."""
        try:
            with open(path, "wb") as file:
                file.write(raw)
        except OSError as error:
            self.drop_made(self.was_there)
            raise Refusal(fault(error, self.path))

    def drop_made(self, was_there: list[str]) -> None:
        """Takes away what was made for a recording that can't begin."""
        if self.raw not in was_there:
            remove_tree(self.raw)
        if self.has_run_settings:  # (another recording that is under way may have one)
            run_settings.drop(self.path)
        if self.list not in was_there and os.path.lexists(self.list):
            os.unlink(self.list)
        if self.path not in was_there:
            try:
                os.rmdir(self.path)
            except OSError:
                pass

    def remove_earlier(self) -> None:
        """Removes what the list says that an earlier recording made, and only what a recording can have made; also what a killed run left."""
        run_settings.drop(self.path)
        listed = [name for name in self.listed()[1:] if is_made(name)]
        folders = [name for name in listed if name in ("objects", SIGNALS, HISTORY) or is_in_signals(name)]
        for name in listed:
            if name not in folders and name != OF_PROVOKE:
                remove(os.path.join(self.path, name))
        if OF_PROVOKE in listed:
            remove_tree(os.path.join(self.path, OF_PROVOKE))
        for name in sorted(folders, reverse=True):  # (what is inside another one comes before it)
            remove_folder(os.path.join(self.path, name))
        self.write_list([])


def remove(path: str) -> None:
    try:
        os.unlink(path)
    except FileNotFoundError:
        pass


def remove_folder(path: str) -> None:
    """Removes a folder, unless something is in it."""
    try:
        os.rmdir(path)
    except OSError:
        pass


def remove_tree(path: str) -> None:
    """Removes a folder with all that is in it, as far as that is possible."""
    for folder, folders, files in os.walk(path, topdown=False):
        for name in files + folders:
            inner = os.path.join(folder, name)
            try:
                (os.rmdir if os.path.isdir(inner) and not os.path.islink(inner) else os.unlink)(inner)
            except OSError:
                pass
    try:
        os.rmdir(path)
    except OSError:
        pass


def modules_of(folder: str) -> list[str]:
    """The second column of the classes: the file of each."""
    return [(line.split("\t") + [""])[1] for line in lines_of(text_in(os.path.join(folder, "classes")))]
