"""The folder that `lockdep gather` writes: GATHERED with the counts, the condensed trace, `orders` with the recordings of each order, `recordings` with
their numbers, names and paths, and `places` with where orders of findings are. It may come from anywhere, so each file has to be as it would be written."""
from __future__ import annotations

import contextlib
import errno
import glob
import os
import re
import shutil
import stat
import tempfile
import zlib
from typing import NamedTuple

from ..base.files import contents
from ..base.saying import Refusal
from ..base.words import bytes_of, counted, reason_of, text_of, visible
from ..record.complete import GATHERED, is_gathered, why_unread
from .kept_places import lines_in_file, text_of_lines
from .names import WHOLE
from .orders import Number, Seen, Table, check_lines, count_in, number_of_words, table_in, text_of_table, words_of_number

TYPE_CHECKING = False
if TYPE_CHECKING:
    from typing import Callable, TypeVar
    Parsed = TypeVar("Parsed")

MOST_EVENTS = 1_000_000  # of a trace
MARK, TRACE, ORDERS, RECORDINGS, PLACES = GATHERED, "gathered.csv", "orders", "recordings", "places"
FILES = (TRACE, ORDERS, RECORDINGS, PLACES)  # besides the mark, which has the sum of each
FIRST_LINE, FORMAT_2 = b"gathered by lockdep, format 3\n", b"gathered by lockdep, format 2\n"  # the latter has no nights, builds and places
FIRST_OF_ANY = re.compile(rb"gathered by lockdep, format ([0-9]{1,9})\n")
HEADER = b"lockdep,1\n"  # of a condensed trace
COUNTS = RECORDED, LEFT, TRACES, FOLDED_LOCKS = b"recordings", b"left-out", b"traces", b"folded"
SUM, LOT = b"crc32 ", b"lot "  # begin what the mark calls the sum of a file, and a night with a build
FOLDED = b"folded-for "  # begins what is said of why locks were folded
LEFT_OUT = "left out: "  # begins the state of a recording in the list
ENTRIES_OF_RECORD = 3  # at most, of a record of the trace: an order by classes, by types, and as one by waits that give up
MOST_LISTED = 400_000  # recordings of a folder
MOST_OF_MARK = 100_000  # lines of the mark: one for each night and build, and the counts
AT_FDCWD, RENAME_EXCHANGE = -100, 2  # of the system
OLD = ".old"  # begins the name of what a folder was


class Listed(NamedTuple):
    """A recording in the list: the name is as it was given, the path leads from everywhere, and the sum is that of what the recording says, if it is
    gathered."""

    number: Number
    state: str
    sum: str
    name: str
    path: str
    lot: str = ""


class Gathered:
    """What was gathered in a folder, or what is to be in it. The trace, which the checker reads, is a file of the folder. The places, which take the longest,
    may be left unread where they aren't needed."""

    def __init__(self, folder: str, files: dict[str, bytes] | None = None, has_places: bool = True) -> None:
        self.folder, self.trace = folder, os.path.join(folder, TRACE)
        mark = files[MARK] if files else mark_in(folder)
        names = FILES if mark.startswith(FIRST_LINE) else FILES[:-1]
        self.files = files or dict({PLACES: b""}, **{name: contents_in(folder, name) for name in names}, **{MARK: mark})
        said = self.parsed(MARK, self.read_mark)
        self.check_sums(said, names)
        self.of_lots = {lot: said.pop(LOT + bytes_of(lot)).count for lot in self.lots}
        self.lists = said
        self.parsed(TRACE, lambda raw: check_lines(raw, MOST_EVENTS + 1))  # (of which one is the header: a condensed trace has no others)
        if self.files[ORDERS].replace(b"\n" + WHOLE, b"").count(b"\n") > ENTRIES_OF_RECORD * self.files[TRACE].count(b"\n"):
            raise self.damaged(ORDERS, "has more lines than the records of `%s` can have" % TRACE)
        self.table = self.parsed(ORDERS, lambda raw: table_in(raw, self.lots), lambda table: text_of_table(table, self.lots))
        self.recordings = self.parsed(RECORDINGS, lambda raw: recordings_in(raw, self.lots), lambda listed: text_of_recordings(listed, self.lots))
        self.places = self.parsed(PLACES, lines_in_file, text_of_lines) if has_places else {}

    def check_sums(self, said: Table, names: tuple[str, ...]) -> None:
        """Holds each file against its sum, and takes the sums from the mark."""
        for name in names:
            seen = said.pop(SUM + name.encode(), None)
            if seen is None:
                raise self.damaged(MARK, "has no sum of `%s`" % name)
            if not self.files[name] and name == TRACE:
                raise self.damaged(name, "is empty")
            if zlib.crc32(self.files[name]) != seen.count:
                raise self.damaged(name)
        for other in sorted(name for name in said if name.startswith(SUM)):
            raise self.damaged(MARK, "has a sum of `%s`, which format %d hasn't" % (visible(text_of(other[len(SUM):])), format_of(self.files[MARK])))
        if not self.files[TRACE].startswith(HEADER):
            raise self.damaged(TRACE, "is no condensed trace")

    def read_mark(self, raw: bytes) -> Table:
        lines = raw[len(FIRST_LINE):]
        check_lines(lines, MOST_OF_MARK)
        self.lots = sorted(text_of(line.partition(b"\t")[0][len(LOT):]) for line in lines.split(b"\n") if line.startswith(LOT))
        said = table_in(lines, self.lots)
        self.counts = {name: said.pop(name) for name in COUNTS}
        if text_of_table({**said, **self.counts}, self.lots) != lines:
            raise ValueError("it has lines that nobody wrote")
        return said

    def parsed(self, name: str, parse: Callable[[bytes], Parsed], written: Callable[[Parsed], bytes] | None = None) -> Parsed:
        """What a file says, if it is as it would be written."""
        try:
            found = parse(self.files[name])
        except (ValueError, KeyError, TypeError, IndexError):
            raise self.damaged(name)
        if written and written(found) != self.files[name]:
            raise self.damaged(name)
        return found

    def damaged(self, name: str, what: str = "isn't as `gather` wrote it") -> Refusal:
        return Refusal("%s is damaged: its file `%s` %s" % (visible(self.folder), name, what))

    def count(self, name: bytes) -> int:
        return self.counts[name].count


def format_of(mark: bytes) -> int:
    return 3 if mark.startswith(FIRST_LINE) else 2


def contents_in(folder: str, name: str) -> bytes:
    """A file of a gathered folder."""
    path = os.path.join(folder, name)
    reason = why_unread(path, os.path.join(os.path.realpath(folder), ""))
    raw = None if reason else contents(path)
    if raw is None:
        raise Refusal("%s has no file `%s` that can be read: %s" % (visible(folder), name, reason or "it isn't there any more"))
    return raw


def mark_in(folder: str) -> bytes:
    """The mark of a folder; empty if nothing was gathered in it. What was there isn't lost by one that can't be read, or by a `gather` that was killed."""
    if os.path.lexists(os.path.join(folder, MARK)):
        mark = contents_in(folder, MARK)
        if not mark.startswith((FIRST_LINE, FORMAT_2)):
            other = FIRST_OF_ANY.match(mark)
            why = "is of format %s; this tool reads 2 and 3" % text_of(other.group(1)) if other else "isn't as `gather` wrote it" if mark else "is empty"
            raise Refusal("%s can't be read: its file `%s` %s" % (visible(folder), MARK, why))
        return mark
    path = os.path.abspath(folder)
    for old in glob.glob(glob.escape(os.path.join(os.path.dirname(path), beside(path, OLD))) + "*"):
        raise Refusal("%s isn't there, and %s may be what it was, since a `gather` was killed: give that its name, or remove it" % (
            visible(folder), visible(old)))
    return b""


def mark_of(said: Table, files: dict[str, bytes], lots: list[str]) -> bytes:
    """The file that says what was gathered, how many recordings there are of each night and build, and the sum of each other file."""
    recorded = dict(said[RECORDED].lots)
    of_lots = {LOT + bytes_of(lot): Seen((("", recorded.get(lot, 0)),)) for lot in lots}
    sums = {SUM + name.encode(): Seen((("", zlib.crc32(files[name])),)) for name in FILES}
    return FIRST_LINE + text_of_table({**said, **of_lots, **sums}, lots)


def text_of_recordings(recordings: list[Listed], lots: list[str]) -> bytes:
    """A line for each. That of a recording of a night or a build ends with the place of these among all."""
    places = {lot: "\t%d" % place for place, lot in enumerate(lots, 1)}
    return b"".join(bytes_of("\t".join((words_of_number(listed.number),) + listed[1:5]) + places.get(listed.lot, "") + "\n") for listed in recordings)


def recordings_in(raw: bytes, lots: list[str]) -> list[Listed]:
    check_lines(raw, MOST_LISTED)
    all_lots = [""] + lots
    return [Listed(number_of_words(line[0]), *line[1:5], *[all_lots[count_in(place)] for place in line[5:]])
            for line in (line.split("\t") for line in text_of(raw).split("\n")[:-1])]


# ---- Where it goes.

def check_output(folder: str) -> None:
    """Refuses a folder that may not be replaced."""
    if "\n" in folder:
        raise Refusal("a folder's name can't have a line break, since reports name its files")
    if os.path.islink(folder) or os.path.lexists(folder) and not os.path.isdir(folder):
        raise Refusal("%s is in the way and is %s; choose another one by -o" % (visible(folder), "a link" if os.path.islink(folder) else "no folder"))
    if is_inside(os.getcwd(), os.path.realpath(folder)):
        raise Refusal("%s has the current folder, so it can't be replaced; choose another folder by -o" % visible(folder))
    check_replaced(folder, folder)
    above = os.path.dirname(os.path.abspath(folder))
    reason = why_unwritable(above)
    if reason:
        raise Refusal("nothing can be made in %s: %s" % (visible(above), os.strerror(reason)))


def is_inside(path: str, folder: str) -> bool:
    """Whether a path leads to a folder or into it, the real path of which is given."""
    return (os.path.realpath(path).rstrip(os.sep) + os.sep).startswith(folder.rstrip(os.sep) + os.sep)


def check_replaced(folder: str, path: str) -> None:
    """Refuses a folder, which is at this path by now, that has something else than what `gather` makes."""
    if os.path.isdir(path) and not os.access(path, os.R_OK | os.X_OK):
        raise Refusal("%s can't be read: %s" % (visible(folder), os.strerror(errno.EACCES)))
    there = os.listdir(path) if os.path.isdir(path) else []
    if there and not is_gathered(path):
        is_own = {TRACE, ORDERS, RECORDINGS} <= set(there)  # (all that is of format 2)
        raise Refusal("%s %s; choose another folder by -o" % (visible(folder), "has no `%s` that can be read" % MARK if is_own else
                                                               "is in the way and wasn't made by `gather`"))
    others = sorted(set(there) - {MARK, *FILES})
    if others:
        raise Refusal("%s can't be replaced, since `gather` didn't make %s in it: %s" % (
            visible(folder), counted(len(others), "file"), ", ".join(map(visible, others[:3]))))


def why_unwritable(folder: str) -> int:
    """Why nothing can be made in a folder, as an error of the system; 0 if something can be."""
    if not os.path.isdir(folder):
        return errno.ENOTDIR if os.path.lexists(folder) else errno.ENOENT
    if os.access(folder, os.W_OK | os.X_OK):
        return 0
    return errno.EROFS if os.statvfs(folder).f_flag & os.ST_RDONLY else errno.EACCES


def write(folder: str, files: dict[str, bytes], before: bytes | None = None) -> None:
    """Makes the folder with these files, or replaces an earlier one by it, so that it is there completely or not at all. If the files say more than the
    earlier one, it has to be still the one with this mark; that is empty if there was none."""
    path, made = os.path.abspath(folder), None
    try:
        made = tempfile.mkdtemp(prefix=beside(path), dir=os.path.dirname(path))
        for name, raw in files.items():
            with open(os.path.join(made, name), "wb") as file:
                file.write(raw)
                file.flush()
                os.fsync(file.fileno())  # (so what has the folder's name has its bytes, too, whenever the power is cut)
        mask = os.umask(0)
        os.umask(mask)
        os.chmod(made, 0o777 & ~mask)
        replace(made, path, before)
    except OSError as error:
        raise Refusal("%s can't be written: %s" % (visible(folder), reason_of(error)))
    finally:
        with contextlib.suppress(OSError, TypeError):
            os.chmod(made, stat.S_IRWXU)  # (it may be the earlier one by now, which nobody may have been to write to)
        shutil.rmtree(made or "", ignore_errors=True)


def beside(path: str, what: str = "") -> str:
    """How the name begins of what is made beside a folder while that is replaced."""
    return "%s.%s." % (what, os.path.basename(path)[:40])


def replace(made: str, path: str, before: bytes | None) -> None:
    """Puts a new folder in the place of an earlier one, which gets its own place. Of several that are put there at once the last one stays, unless they say
    more than an earlier one."""
    while True:
        check_unchanged(path, path, before)
        try:
            if not os.path.isdir(path):
                return os.rename(made, path)
            exchange(made, path)
        except OSError as error:
            if error.errno not in (errno.ENOENT, errno.ENOTEMPTY, errno.EEXIST):
                raise
            continue
        try:
            check_replaced(path, made)
            return check_unchanged(path, made, before)
        except Refusal:
            exchange(made, path)
            raise


def exchange(one: str, other: str) -> None:
    """Gives each of two folders the other one's name: at once, where the system can."""
    with contextlib.suppress(ImportError, OSError, AttributeError):
        import ctypes
        if not ctypes.CDLL(None).renameat2(AT_FDCWD, bytes_of(one), AT_FDCWD, bytes_of(other), RENAME_EXCHANGE):
            return
    exchange_in_turn(one, other)


def exchange_in_turn(one: str, other: str) -> None:
    """The same by one name after the other. Who is killed meanwhile leaves what the folder was, which `mark_in` finds."""
    between = tempfile.mkdtemp(prefix=beside(other, OLD), dir=os.path.dirname(other))
    try:
        os.rename(other, between)
        os.rename(one, other)
        os.rename(between, one)
    finally:
        if os.path.isdir(between) and os.listdir(between) and not os.path.lexists(other):
            os.rename(between, other)
        shutil.rmtree(between, ignore_errors=True)


def check_unchanged(folder: str, path: str, before: bytes | None) -> None:
    """Refuses to lose what others have gathered in a folder since it was read, which is at this path by now."""
    if before is not None and mark_in(path) != before:
        raise Refusal("%s has been changed meanwhile, so nothing was added to it; try again" % visible(folder))

