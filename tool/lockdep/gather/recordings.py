"""One recording of those that are gathered: whether it can be judged, and what its traces say, as one condensed trace."""
from __future__ import annotations

import errno
import hashlib
import os
import zlib

from ..ask.breaches import breaches_in
from ..ask.signals import Signals
from ..base import saying
from ..base.files import MOST_OF_FILE, contents, is_file, pieces_of
from ..base.home import HOME
from ..base.saying import Refusal
from ..base.words import bytes_of, counted, reason_of, text_of, visible
from ..places.places import why_too_many
from ..program.checker import REFUSED, Answer
from ..program.code_words import with_words
from ..program.condensed import LockOrder, facts_in
from ..record.complete import check_folder
from ..record.complete import is_gathered
from ..record.folder import OBJECTS
from ..record.folder import SIGNALS, WEAK, is_number
from ..record.kernels import INCOMPLETE, is_of_kernel
from ..record.summary import DAMAGE, Summary, TooLong, from_json, parse
from ..record.trace_names import traces_in
from ..say.report import has_breaches, is_hung
from ..say.seen import status_of_summary
from .agreement import gathered_in
from .facts import TOO_LONG_NAME, TOO_MUCH, Facts, Lacking, Program
from .gathered import FOLDED, FOLDED_LOCKS, FORMAT_2, MARK, RECORDED, TRACE, TRACES
from .kept_places import lines_in, text_of_lines
from .names import NoRoom, in_recording, is_lock, is_rest, keys_in, name_of_key, rest_of
from .nights import Kept, forget
from .orders import MOST_NESTED, Seen, Table, entries_of, merge_tables, orders_of_locks, seen_once
from .timed import renamed, timed_table
from .whole import UNCOUNTED, whole_entries

UNGATHERED, NEVER_RAN, WEAK_ACQUISITIONS, BY_CLASSES = "ungathered-signals", "never-ran-signals", "weak", "by-classes"
ACCEPTED = "accepted "  # begins what is said of recordings with a loss that is accepted
FORMS_OF_SUMMARY = (("SUMMARY", parse), ("summary.json", from_json))
SURROUNDINGS = (errno.ENOSPC, errno.EDQUOT, errno.EFBIG, errno.EMFILE, errno.ENFILE, errno.ENOMEM, errno.EAGAIN, errno.EROFS)  # what is no recording's fault
MOST_REASONS, MOST_OF_REASON, MOST_OF_WHY = 16, 200, 8000  # why a recording is left out: so many reasons, each of so many letters, and all of them
NOTHING_SEEN = "no lock of the program's own was seen in it"


def shortened(text: str, most: int) -> str:
    """A text that is no longer than this, with a sign of what was cut off."""
    return text if len(text) <= most else text[:most] + ".."


class Bad(Exception):
    """A recording that can't be gathered, and why; and whether it may be another one where another machine looks."""

    def __init__(self, why: str, may_differ: bool = False) -> None:
        super().__init__(why)
        self.why, self.may_differ = shortened(why, MOST_OF_WHY), may_differ


class Task:
    """What a task needs to know besides its recordings."""

    def __init__(self, program: Program, accepted: list[str], lot: str = "", kept: Kept | None = None) -> None:
        self.program, self.accepted, self.lot, self.kept = program, accepted, lot, kept or Kept()


def facts_of(task: Task, number: int, path: str) -> Facts:
    """What a recording says, by its number among all. Whatever is in its files, it is that one that can't be gathered."""
    try:
        if not is_utf8(path):
            raise Bad("its path isn't UTF-8, which the checker needs")
        if is_broken(path):
            raise Bad("its path has a line break or a tab")
        if not os.path.lexists(path):
            raise Bad("it isn't there", may_differ=True)
        if not os.path.isdir(path):
            check_traces([path])
            return facts_of_traces(task, number, [path])
        return facts_of_gathered(task, number, path) if is_gathered(path) else facts_of_folder(task, number, path)
    except (Bad, Lacking):
        raise
    except Refusal as refusal:
        raise Bad(refusal.line or "it can't be read")
    except NoRoom as name:
        raise Bad("the name %s is too long to be told apart by recording: what stands before its # may have 59 bytes" % name.args[0].decode())
    except OSError as error:
        if error.errno in SURROUNDINGS or isinstance(error, FileNotFoundError) and error.filename is None:  # (the latter by a lack of temporary files)
            raise Lacking(reason_of(error))
        raise Bad("it can't be read: %s" % reason_of(error), may_differ=True)
    except MemoryError:
        raise Bad("to read it takes too much memory")
    except Exception as error:
        raise Bad("it can't be read: %s" % type(error).__name__)


def is_utf8(path: str) -> bool:
    return path.encode("utf-8", "replace") == bytes_of(path)


def is_broken(path: str) -> bool:
    """Whether a path doesn't fit into a line with tabs, as lists of what was gathered have it."""
    return "\n" in path or "\t" in path


def facts_of_traces(task: Task, number: int, traces: list[str], said: list[str] = [], folder: str = "") -> Facts:
    """What some traces say, which are all those of the recording. Something may be said of its folder besides."""
    answer, is_by_classes = task.program.condensed_of(traces)
    facts = facts_of_answer(task, answer, number)
    facts.counts[TRACES] = Seen(((task.lot, len(traces)),))
    facts.lists.update({name.encode(): seen_once(number, task.lot) for name in said + [BY_CLASSES] * is_by_classes})
    if WEAK_ACQUISITIONS in said and BY_CLASSES.encode() not in facts.lists:
        facts.orders.update(timed_table(task.program, number, task.lot, folder, traces, answer.output))
    return facts


def check_traces(names: list[str]) -> None:
    """Refuses what would have to be waited for, as a pipe or a device, and what takes too much memory."""
    for name in names:
        if not is_file(name) and os.path.exists(name):
            raise Bad("%s: it is neither a folder nor a plain file" % visible(name))
        if os.path.exists(name) and not is_file(name, MOST_OF_FILE):
            raise Bad("%s: it has more than %s" % (visible(name), counted(MOST_OF_FILE, "byte")))


def facts_of_answer(task: Task, answer: Answer, number: int) -> Facts:
    """What a recording's condensed trace says."""
    if answer.status >= REFUSED:
        raise Bad(why_bad(answer))
    orders, marks = facts_in(answer.output)
    trace, names = in_recording(answer.output, number)
    facts = Facts([trace])
    facts.locks = scores_in(orders, names)
    folded = sum(made == rest_of(made) and not is_rest(name) for name, made in names.items())
    seen, wholes = seen_once(number, task.lot), whole_entries(orders, marks)
    facts.orders = {entry: seen for entry in [*entries_of(orders, marks), *wholes] if entry != UNCOUNTED}
    facts.lists = {**({FOLDED + TOO_LONG_NAME: Seen()} if folded else {}), **({UNCOUNTED: seen} if UNCOUNTED in wholes else {})}
    facts.counts = {RECORDED: Seen(((task.lot, 1),)), FOLDED_LOCKS: Seen((("", folded),))}
    facts.sums = {(number,): zlib.crc32(answer.output)}
    return facts


def why_bad(answer: Answer) -> str:
    """Why the checker doesn't take a recording; what is too much for it has no option here that helps."""
    much = next((code for code in TOO_MUCH if code in answer.said), b"")
    return "%s: it has %s" % (text_of(much), TOO_MUCH[much]) if much else with_words(answer.reason)


def facts_of_folder(task: Task, number: int, folder: str) -> Facts:
    """What the folder of a recording says: by its single locks, if it has their traces and the checker takes them."""
    check_folder(folder)
    if why_too_many(folder):
        raise Bad(why_too_many(folder))
    summaries = summaries_of(folder)
    accepted = sorted({code for summary in summaries for code in judge(folder, summary, task.accepted)})
    traces = traces_of(folder)
    if not traces:
        raise Bad("it has no traces")
    check_threads(traces, summaries)
    facts = facts_of_traces(task, number, traces, said_of(folder, summaries[0]) + [ACCEPTED + code for code in accepted], folder)
    check_events(traces, summaries)
    return facts


def traces_of(folder: str) -> list[str]:
    """The traces of a recording: those of single locks, if it has them. Those of classes say the same without the numbers."""
    return traces_in(os.path.join(folder, OBJECTS)) or traces_in(folder)


def summaries_of(folder: str) -> list[Summary]:
    """The summary as text and, if that says something else, as JSON. The worse one counts."""
    found: list[Summary] = []
    for name, parsed in FORMS_OF_SUMMARY:
        raw = contents(os.path.join(folder, name))
        try:
            found += [Summary(parsed(text_of(raw)), HOME)] if raw is not None else []
        except TooLong as error:
            raise Bad("its file %s is too long: %s" % (name, error))
        except DAMAGE:
            raise Bad("its file %s is damaged" % name)
    if not found:
        raise Bad("its summary can't be read")
    counts = [{(count.code, count.number) for count in summary.counts} for summary in found]
    return found if counts[0] != counts[-1] else found[:1]


def check_threads(traces: list[str], summaries: list[Summary]) -> None:
    """Refuses traces that are fewer than those that the recorder wrote."""
    for summary in summaries:
        threads = summary.number("threads") - summary.number("threads-alike")
        if len(traces) < threads:
            raise Bad("it is cut: %s, and its summary says %s" % (counted(len(traces), "trace"), counted(threads, "thread")))


def check_events(traces: list[str], summaries: list[Summary]) -> None:
    """Refuses traces that have less than what the recorder wrote."""
    events = sum(map(events_of, traces))
    for summary in summaries:
        if events < summary.number("events"):
            raise Bad("it is cut: its traces have %s, and its summary says %s" % (counted(events, "event"), counted(summary.number("events"), "event")))


def events_of(trace: str) -> int:
    return sum(piece.count(b"\n") for piece in pieces_of(trace)) - 1


def judge(folder: str, summary: Summary, accepted: list[str]) -> list[str]:
    """Looks whether a recording is whole, as `lockdep record --summary` does. The result is what was left out and is accepted, by code."""
    if is_of_kernel(folder):
        if summary.after(INCOMPLETE):
            raise Bad("it is incomplete: %s" % some_of(summary.after(INCOMPLETE), "; "))
        return []
    saying.kept = []
    try:
        status = status_of_summary(folder, summary, accepted)
    finally:
        saying.kept = None
    if status:
        lost = [count.lost() for count in summary.counts if count.lost() and count.code not in accepted]
        raise Bad("left out: %s" % some_of(lost) if lost else NOTHING_SEEN)
    return [count.code for count in summary.counts if count.lost()]


def some_of(several: list[str], joint: str = ", ") -> str:
    """The first of several reasons, each of some length, and how many more there are."""
    words = joint.join(shortened(each, MOST_OF_REASON) for each in several[:MOST_REASONS])
    return words + (" and {:,} more".format(len(several) - MOST_REASONS) if len(several) > MOST_REASONS else "")


def said_of(folder: str, summary: Summary) -> list[str]:
    """What is to be said of a recording besides what its traces say."""
    signals = os.path.join(folder, SIGNALS)
    has_signals = os.path.isdir(signals) and any(is_number(name) for name in os.listdir(signals))
    said = {BY_CLASSES: not traces_in(os.path.join(folder, OBJECTS)), UNGATHERED: has_signals, WEAK_ACQUISITIONS: os.path.exists(os.path.join(folder, WEAK)),
            NEVER_RAN: os.path.isdir(signals) and bool(Signals(folder).never), "breaches": has_breaches(summary) and bool(breaches_in(folder)), "blocked": is_hung(summary)}
    return [name for name, is_so in said.items() if is_so]


def facts_of_gathered(task: Task, number: int, folder: str) -> Facts:
    """What was gathered before: its condensed trace, its table and its counts. Its own recordings are parts of this one."""
    part, above = kept_part(folder, task), (number,)
    if any(len(listed.number) == MOST_NESTED for listed in part.listed):
        raise Bad("it has %s in one another: add to a folder by --add" % counted(MOST_NESTED, "gathered folder"))
    answer = Answer(part.texts[0], 0, b"")
    facts = facts_of_answer(task, answer, number)
    facts.counts = merge_tables([part.counts, {FOLDED_LOCKS: facts.counts[FOLDED_LOCKS]}])
    facts.orders = below(renamed(part.orders, in_recording(answer.output, number)[1]), above)
    facts.lists = {**facts.lists, **below(part.lists, above)}
    facts.listed = [listed._replace(number=above + listed.number) for listed in part.listed]
    facts.places = lines_in(text_of_lines(part.places), above)
    facts.sums = {above: sum_of(part)} if facts.listed else {}  # (all of it is forgotten)
    return facts


def sum_of(part: Facts) -> int:
    """The sum of all that a gathered folder says."""
    return zlib.crc32(part.digest.encode())


def below(table: Table, above: tuple[int, ...]) -> Table:
    return {entry: seen.below(above) for entry, seen in table.items()}


def kept_part(folder: str, task: Task, has_places: bool = True) -> Facts:
    """What a gathered folder says, by its own numbers, without what is to be forgotten."""
    inner = gathered_in(folder, task.program, has_places)
    part = Facts([inner.files[TRACE]])
    part.orders, part.lists, part.counts, part.listed, part.places = inner.table, dict(inner.lists), dict(inner.counts), inner.recordings, inner.places
    part.lots, part.digest = inner.lots, hashlib.sha256(b"".join(inner.files[name] for name in sorted(inner.files))).hexdigest()
    if inner.files[MARK].startswith(FORMAT_2):
        part.lists[UNCOUNTED] = Seen(part.counts[RECORDED].lots)
    forget(part, task.kept)
    part.texts = part.texts if task.kept.is_all else [task.program.condensed_texts(part.texts).output]
    return part


def facts_of_same(task: Task, folder: str) -> Facts:
    """What a gathered folder says to which recordings are added, with the numbers and the names that it has."""
    try:
        part = kept_part(folder, task)
    except (OSError, LookupError, ValueError) as error:
        raise Refusal("%s can't be read: %s" % (visible(folder), visible(str(error))))
    part.locks = scores_in(facts_in(part.texts[0])[0], {name: name for name in map(name_of_key, keys_in(part.texts[0])) if is_lock(name)})
    return part


def scores_in(orders: list[LockOrder], names: dict[bytes, bytes]) -> dict[bytes, int]:
    """In how many of these each lock is that is told apart, by its name in what is gathered."""
    scores = orders_of_locks(orders)
    return {made: scores.get(name, 0) for name, made in names.items() if made != rest_of(made)}
