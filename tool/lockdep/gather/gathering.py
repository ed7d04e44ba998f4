"""`lockdep gather`: what recordings of many machines say together, and which of them each order comes from."""
from __future__ import annotations

import contextlib
import fcntl
import os
import re
import sys
import tempfile
import time

from ..base.command_line import Words
from ..base.files import MOST_OF_FILE, STANDARD_OUTPUT, contents, need_output, text_from, text_named, write_in_place
from ..base.room import temporary_files
from ..base.saying import Refusal
from ..base.words import bytes_of, counted, text_of, visible
from ..program.checker import program_path
from ..record.complete import is_gathered
from ..say.found import moment
from .engines import Local, OnDask, Progress, Tree, Work, need_dask, need_safe
from .facts import Facts, Lacking, Program, TooMuch, merged
from .findings import Back, findings_in, places_text
from .gathered import COUNTS, FILES, HEADER, LEFT, LEFT_OUT, MARK, MOST_LISTED, MOST_OF_MARK, ORDERS, PLACES, RECORDED, RECORDINGS, TRACE
from .gathered import Gathered, Listed, beside, check_output, is_inside, mark_in, mark_of, text_of_recordings, write
from .kept_places import text_of_file
from .nights import Kept, checked_build, checked_night, lot_of
from .orders import Seen, Table, lots_in, merge_tables, text_of_table
from .recordings import Task, facts_of_same, is_broken
from .told import Told, known_entries, say
from .twice import without_parts

TYPE_CHECKING = False
if TYPE_CHECKING:
    from typing import Iterator

FORMS = {"--html": "page", "--sarif": "sarif", "--junit": "junit", "--json": "json"}
DEFAULT_GROUP = 200
MOST_PROCESSES = 64  # by default
LIST = "a list of recordings"
# ---- What is asked for.

def listed_names(line: Words) -> list[str]:
    """The recordings that are named, each once, in the order of their bytes."""
    names = [name for name in line.rest if not name.startswith("@")]
    if "" in names:
        raise Refusal("a recording's name can't be empty")
    for list_name in line.values.get("--list", []) + [name[1:] for name in line.rest if name.startswith("@")]:
        names += names_in_list(list_name)
    return each_once(sorted({name.rstrip("/") or name for name in names}, key=bytes_of))


def each_once(names: list[str]) -> list[str]:
    """The names without those that lead to a recording of another one of them."""
    first: dict[str, str] = {}
    for name in names:
        known = first.setdefault(os.path.realpath(name), name)
        if known != name:
            say("%s is the same as %s, and counts once" % (visible(name), visible(known)))
    return list(first.values())


def check_names(folder: str, names: list[str]) -> None:
    """Refuses recordings that would be lost when the folder is made anew."""
    path = os.path.realpath(folder)
    for name in names:
        if is_inside(name, path):
            if os.path.realpath(name) == path:
                raise Refusal("{0} is one of the recordings: to go on with {0}, add to it by --add -o {0}, without naming it".format(visible(folder)))
            raise Refusal("%s has the recording %s; choose another folder by -o" % (visible(folder), visible(name)))


def check_source(line: Words) -> None:
    for folder in line.values.get("--source", []):
        if not os.path.isdir(folder):
            raise Refusal("%s, whose source is to be shown, is no folder" % visible(folder))


def names_in_list(name: str) -> list[str]:
    if name == STANDARD_OUTPUT:
        text = text_from(sys.stdin.buffer, name, LIST, MOST_OF_FILE) if sys.stdin else ""
    else:
        text = text_named(name, LIST, MOST_OF_FILE)
    if "\0" in text or text.count("\n") > MOST_LISTED:
        raise Refusal("%s, %s, has %s" % (visible(name), LIST, "a zero byte" if "\0" in text else "more than %s" % counted(MOST_LISTED, "line")))
    return [line for line in text.replace("\r\n", "\n").split("\n") if line]


def forms_in(line: Words, folder: str) -> dict[str, str]:
    """The files of the forms that are asked for."""
    forms = {form: line.last(option) for option, form in FORMS.items() if line.has(option)}
    for form, name in forms.items():
        if list(forms.values()).count(name) > 1:
            raise Refusal("two options name the same file, %s" % visible(name))
        if name != STANDARD_OUTPUT and os.path.isdir(name):
            raise Refusal("%s can't be written: it is a folder" % visible(name))
        if os.path.dirname(os.path.realpath(name)) == os.path.realpath(folder) and name != STANDARD_OUTPUT:
            raise Refusal("%s is in the folder that is made anew" % visible(name))
    return forms


# ---- Gathering.

class Asked:
    """What is gathered: the recordings by number and name, what is known of all of them, and what the folder has that they are added to, if there is one."""

    def __init__(self, line: Words, folder: str) -> None:
        self.line, self.folder, self.path, self.is_added = line, folder, program_path(), line.has("--add")
        self.accepted = line.values.get("--accept-left-out", [])
        night = checked_night(line.last("--night"), "--night") or (time.strftime("%Y-%m-%d", moment()) if self.is_added else "")
        self.lot = lot_of(night, checked_build(line.last("--build"), "--build"))
        self.kept = Kept(checked_night(line.last("--since"), "--since"), line.values.get("--forget-build", []))
        self.task = Task(Program(self.path), self.accepted, self.lot, self.kept)
        self.before = mark_in(folder) if self.is_added else None
        self.same = facts_of_same(self.task, folder) if self.before else Facts()
        self.entries = known_entries(line)
        self.names: dict[int, str] = {}
        self.refused: dict[str, str] = {}  # of these, with the reason

    def number(self, names: list[str]) -> None:
        """Numbers the recordings, behind those that are there. Those of gathered folders that are among them, or are added to, count once."""
        names, said, self.refused = without_parts(names, self.task, self.folder if self.before else "")
        gathered_ones = [name for name in names if self.lot and is_gathered(name)]
        for words in said + ["%s: its recordings have their own nights and builds, and not %s" % (name, self.lot.strip()) for name in gathered_ones]:
            say(words)
        self.names = dict(enumerate(names, 1 + max([listed.number[0] for listed in self.same.listed], default=0)))

    def facts(self) -> Facts:
        """What all of them say. If that is more than the checker takes, none of them is left out for it, since many small ones could push out a large one."""
        try:
            return self.facts_together()
        except TooMuch as much:
            name = self.names.get(much.largest[0], "") if much.largest else ""
            largest = "; the largest is %s" % visible(name) if name else ""
            raise Refusal("%s: gather them by program, or record one subsystem at a time%s" % (much.line, largest))

    def facts_together(self) -> Facts:
        size = int(self.line.last("--group", str(DEFAULT_GROUP)))
        numbered = [(number, os.path.abspath(name)) for number, name in self.names.items() if name not in self.refused]
        groups = [numbered[at:at + size] for at in range(0, len(numbered), size)]
        common = {"program": self.path, "accepted": self.accepted, "lot": self.lot, "since": self.kept.since, "forgotten": self.kept.forgotten}
        new = Tree(Work(common, groups), self.engine(len(groups)), Progress(len(numbered))).run() if groups else Facts()
        new.bad += [((number,), self.refused[name], False) for number, name in self.names.items() if name in self.refused]
        self.say_bad(new)
        of_parts = {listed.number[0] for listed in new.listed}
        states = {number: LEFT_OUT + visible(reason) for number, reason, _ in new.bad}
        there = states.keys() | new.sums.keys()  # (but for folders of which all is forgotten)
        new.listed += [Listed((number,), states.get((number,), ""), str(new.sums.get((number,), "")), on_a_line(name), on_a_line(os.path.abspath(name)),
                              "" if number in of_parts else self.lot) for number, name in self.names.items() if (number,) in there]
        new.counts = merge_tables([new.counts, {LEFT: Seen(((self.lot, len(new.bad)),) if new.bad else ())}])
        facts = merged(self.task.program, [self.same, new]) if self.before else new
        if not facts.counts.get(RECORDED, Seen()).count:
            raise Refusal("no recording is left to gather")
        return facts

    def engine(self, groups: int) -> Local | OnDask:
        if self.line.has("--scheduler"):
            return OnDask(self.line.last("--scheduler"))
        processors = min(len(os.sched_getaffinity(0)), MOST_PROCESSES)
        return Local(min(groups, int(self.line.last("--processes", str(processors)))))

    def say_bad(self, facts: Facts) -> None:
        """Names the recordings that can't be gathered. They are left out only if that is asked for."""
        facts.bad = [(number, reason_for(self.names[number[0]], reason), may_differ) for number, reason, may_differ in sorted(facts.bad)]
        for number, reason, _ in facts.bad:
            say("%s%s%s" % (self.names[number[0]], " " if OF_NAME.match(reason) else ": ", reason))
        if facts.bad and not self.line.has("--skip-bad"):
            raise Refusal("%s of %d can't be gathered, so nothing is; --skip-bad leaves them out" % (counted(len(facts.bad), "recording"), len(self.names)))


@contextlib.contextmanager
def alone(folder: str) -> Iterator[None]:
    """Has others wait that add to a folder, too: for a file beside it, which is there before it is, and goes at the end. Where none can be locked, `replace`
    refuses to lose what others have added."""
    path = os.path.abspath(folder)
    name, lock = os.path.join(os.path.dirname(path), beside(path) + "lock"), None
    with contextlib.suppress(OSError):
        lock = locked(name, folder)
    try:
        yield
    finally:
        if lock is not None:
            with contextlib.suppress(OSError):
                os.unlink(name)
            os.close(lock)


def locked(name: str, folder: str) -> int:
    """The file of this name, locked."""
    is_said = False
    while True:
        lock = os.open(name, os.O_RDWR | os.O_CREAT | os.O_NOFOLLOW | os.O_NONBLOCK, 0o666)
        try:
            fcntl.flock(lock, fcntl.LOCK_EX | fcntl.LOCK_NB)
        except BlockingIOError:
            if not is_said:
                say("another `gather` adds to %s: this one waits until that has ended" % visible(folder))
            is_said = True
            fcntl.flock(lock, fcntl.LOCK_EX)
        if os.path.exists(name) and os.path.samestat(os.fstat(lock), os.stat(name)):
            return lock
        os.close(lock)  # (the one before had ended, and has taken it away)


def on_a_line(path: str) -> str:
    """A path as the list of recordings has it. One that has no room there is that of a recording that is left out."""
    return visible(path) if is_broken(path) else path


OF_NAME = re.compile("(is|isn't|has|can't|contradicts) ")  # begins a reason that goes on behind the name


def reason_for(name: str, reason: str) -> str:
    """Why a recording can't be gathered, with its name as it was given, and not before the reason."""
    said = reason.replace(visible(os.path.abspath(name)), visible(name))
    return next((said[len(visible(name) + joint):] for joint in (": ", " ") if said.startswith(visible(name) + joint)), said)


def check_room(listed: int, lines: int) -> None:
    """Refuses what would be more than is read of a folder."""
    for there, most, what in ((listed, MOST_LISTED, "recordings"), (lines, MOST_OF_MARK, "nights and builds")):
        if there > most:
            raise Refusal("a folder can't have more than {:,} {}, and these are more: forget earlier nights by --since".format(most, what))


def files_of(facts: Facts) -> dict[str, bytes]:
    """The files of the folder, as yet with the places alone that were kept before."""
    said = {**facts.lists, **{name: facts.counts.get(name, Seen()) for name in COUNTS}}
    lots = lots_in(facts.orders, said)
    check_room(len(facts.listed), len(said) + len(FILES) + len(lots))
    made = {TRACE: (facts.texts or [HEADER])[0], ORDERS: text_of_table(facts.orders, lots), RECORDINGS: text_of_recordings(sorted(facts.listed), lots),
            PLACES: text_of_file(facts.places)}
    return with_mark(made, said, lots)


def with_mark(made: dict[str, bytes], said: Table, lots: list[str]) -> dict[str, bytes]:
    return {**made, MARK: mark_of(said, made, lots)}


def gather_all(asked: Asked, forms: dict[str, str]) -> int:
    """Gathers, writes the folder, and says what was found. Another one may have replaced the folder meanwhile, so it isn't read again."""
    files = files_of(asked.facts())
    with tempfile.TemporaryDirectory(prefix="lockdep-") as room:
        write_in_place(bytes_of(os.path.join(room, TRACE)), files[TRACE])
        gathered = Gathered(room, files)
        back = Back(gathered, asked.task.program)
        try:
            findings = findings_in(gathered, back)
        except Refusal:
            write(asked.folder, files, asked.before)
            raise
        told = Told(asked.line, asked.entries, gathered, back, findings)
        files[PLACES] = places_text(back, told.sources, asked.is_added)
        write(asked.folder, with_mark({name: files[name] for name in FILES}, {**gathered.lists, **gathered.counts}, gathered.lots), asked.before)
        return told.tell(asked.folder, forms)


COUNTED = re.compile(rb"^recordings\t([0-9]{1,18})\t", re.MULTILINE)  # in the mark of a folder


def say_replaced(asked: Asked) -> None:
    """Says that the folder had recordings that aren't gathered now."""
    if asked.is_added or not is_gathered(asked.folder):
        return
    raw, mark = (contents(os.path.join(asked.folder, name)) or b"" for name in (RECORDINGS, MARK))
    fields = [line.split("\t") for line in text_of(raw).split("\n")]
    paths, count = {each[4] for each in fields if len(each) > 4 and "@" not in each[0]}, COUNTED.search(mark)
    if count and paths - {os.path.abspath(name) for name in asked.names.values()}:
        many = int(count.group(1))
        verb, them = ("is", "it") if many == 1 else ("are", "them")
        say("%s had %s, which %s replaced; --add keeps %s" % (asked.folder, counted(many, "recording"), verb, them))


def gather(line: Words) -> int:
    if line.has("--scheduler"):
        need_dask()
        if not line.has("--insecure"):
            need_safe(line.last("--scheduler"))
    if not line.has("-o"):
        raise Refusal("where to? lockdep gather -o FOLDER RECORDING..")
    folder = line.last("-o").rstrip("/") or "/"
    check_output(folder)
    forms, names = forms_in(line, folder), listed_names(line)
    if not names and not (line.has("--add") and is_gathered(folder)):
        raise Refusal("which recordings? lockdep gather -o FOLDER RECORDING..")
    check_names(folder, names)
    check_source(line)
    need_output()
    try:
        with temporary_files(), alone(folder) if line.has("--add") else contextlib.nullcontext():
            asked = Asked(line, folder)
            asked.number(names)
            say_replaced(asked)
            return gather_all(asked, forms)
    except Lacking as lacking:
        raise Refusal("the recordings can't be gathered here: %s" % lacking)
