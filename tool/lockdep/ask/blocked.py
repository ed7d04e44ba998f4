"""Threads that waited for a lock when their process ended, without having called `exit`: who waits for what, who holds it, and
what that thread waits for."""
from __future__ import annotations

import os
from dataclasses import dataclass, field

from ..base.words import name_in, plain_key, stands_for_several
from ..places.sources import Sources
from ..program.findings import Event, Held
from ..program.verdicts import Reason
from ..record.folder import SIGNALS
from ..record.notes import WAITING
from ..record.summary import Summary
from ..record.threads import called, number_of_thread
from .timed import marked_in

TYPE_CHECKING = False
if TYPE_CHECKING:
    from typing import Protocol

    class Recorded(Protocol):
        """What was asked about a recording."""
        folder: str
        traces: list[str]

        def ends(self) -> dict[str, list[Held]]:
            """What each trace holds at its end."""

TRY = "t"  # what the mode of a try begins with
WRITER = "w"


@dataclass
class Thread:
    """A thread at the end: what it waits for, if it does, what it holds, what it is called if it has a name, and the run of a signal's handler in it
    that waits, if it doesn't itself."""

    name: str
    waits: Held | None
    held: list[Held] = field(default_factory=list)
    called: str = ""
    interrupted_by: Thread | None = None


@dataclass
class Blocked:
    """A thread that waits for a lock, and who holds that: the thread after it, and so on."""

    thread: Thread
    holders: list[tuple[Thread, Held]] = field(default_factory=list)
    is_cycle: bool = False

    type = "blocked"

    @property
    def name(self) -> str:
        return "blocked %s" % self.thread.name

    def lines(self) -> list[tuple[str, Event]]:
        """What stands before the place of each record."""
        return [("%s: record %d" % (event.file, event.record), event) for event in self.events]

    @property
    def keys(self) -> list[str]:
        own = [self.thread.waits.key] if self.thread.waits else []
        return own + [held.key for _, held in self.holders]

    @property
    def orders(self) -> frozenset[tuple[str, str]]:
        """The orders of a cycle, by the names of single locks: each thread holds what the one before it waits for. Empty if it is none, or if a handler is
        part of it."""
        threads = [self.thread] + [thread for thread, _ in self.holders if thread is not self.thread]
        if not self.is_cycle or any(thread.interrupted_by or not thread.waits for thread in threads):
            return frozenset()
        locks = [name_in(thread.waits.key) for thread in threads]
        return frozenset(zip(locks, locks[1:] + locks[:1]))

    @property
    def waits(self) -> list[Event]:
        """The records at which it waits, and those who hold what is waited for."""
        return [thread.waits.event for thread in [self.thread] + [thread for thread, _ in self.holders] if thread.waits]

    @property
    def events(self) -> list[Event]:
        return list(dict.fromkeys(self.waits + [held.event for _, held in self.holders] + [held.event for held in self.thread.held]))

    @property
    def sentence(self) -> str:
        """Such as `task-0001 waits for m, which task-0002 holds since record 2, and waits for n`."""
        said = "%s waits for %s" % (self.thread.called or self.thread.name, plain_key(self.thread.waits.key))
        for thread, held in self.holders:
            if thread is self.thread and len(self.holders) == 1:
                return said + ", which it holds itself since record %d: it stands still" % held.event.record
            said += ", which %s holds since record %d" % (thread.called or thread.name, held.event.record)
            said += " while it waits for %s" % plain_key(thread.waits.key) if thread.waits else ""
            said += ", interrupted by %s" % thread.interrupted_by.name if thread.interrupted_by else ""
        return said + (": these threads stand still" if self.is_cycle else "")


def is_hung(summary: Summary) -> bool:
    """Whether a thread waited for a lock when its process ended in another way than by `exit`. The recorder of pthreads alone tells how a process ended."""
    if has_semaphores():
        return False
    at_exit = summary.find("at-exit")
    return at_exit is not None and summary.number(WAITING) > (at_exit.number or 0)


def has_semaphores() -> bool:
    """Whether semaphores are recorded, by which a thread may wait for work."""
    return "sem" in os.environ.get("LOCKDEP_ALSO", "").split(",")


def thread_at_end(name: str, held: list[Held], is_waiting: bool) -> Thread:
    """A thread that holds these locks after its last record. If it waits, that is for the last one that it takes, other than by a try."""
    taken = [lock for lock in held if not lock.mode.startswith(TRY)] if is_waiting else []
    waits = taken[-1] if taken else None
    return Thread(name, waits, [lock for lock in held if lock is not waits])


def holder_of(lock: Held, threads: list[Thread], but: Thread) -> tuple[Thread, Held] | None:
    """Who holds a lock, as far as its name says which one it is."""
    if stands_for_several(name_in(lock.key)):
        return None
    return next(((thread, held) for thread in threads if thread is not but for held in thread.held if held.key == lock.key), None)


def own_hold(thread: Thread) -> Held | None:
    """What a thread holds itself of what it waits for, so that nobody can give it that."""
    waits = thread.waits
    return next((held for held in thread.held if waits and held.key == waits.key and not stands_for_several(name_in(held.key)) and
                 WRITER in (held.mode.lstrip(TRY), waits.mode)), None)


def blocked_of(thread: Thread, threads: list[Thread]) -> Blocked:
    """Follows a thread to who holds what it waits for, or to the handler that it waits for, and on, until nobody is known or a thread comes again."""
    own = own_hold(thread)
    if own:
        return Blocked(thread, [(thread, own)], True)
    blocked, passed, at = Blocked(thread), [thread], thread
    while at.waits:
        holder = holder_of(at.waits, threads, at)
        if not holder:
            break
        blocked.holders.append(holder)
        at = holder[0].interrupted_by or holder[0]
        if at in passed:
            blocked.is_cycle = at is thread
            break
        passed.append(at)
    return blocked


def each_once(blocked: list[Blocked]) -> list[Blocked]:
    """Threads that wait for each other are said once, with the first of them."""
    said: list[Thread] = []
    kept = []
    for thread in blocked:
        if not (thread.is_cycle and thread.thread in said):
            kept.append(thread)
        said += [holder for holder, _ in thread.holders] if thread.is_cycle else []
    return kept


def blocked_threads(asked: Recorded, summary: Summary) -> list[Blocked]:
    """The threads that were blocked at the end of a recording. One that holds a lock may wait for something else than a lock, and be named nowhere."""
    return waiting_at_end(asked, summary) if is_hung(summary) else []


def standing_at_end(asked: Recorded, summary: Summary) -> list[Blocked]:
    """The threads that waited for one another when their process ended, by `exit` or not, but for waits that would have given up at a time."""
    if has_semaphores() or not summary.number(WAITING):
        return []
    timed = marked_in(asked.folder, Reason.TIMED)
    return [blocked for blocked in waiting_at_end(asked, summary) if blocked.orders and not any(
        event.record in timed.get(os.path.basename(event.file), ()) for event in blocked.waits)]


def waiting_at_end(asked: Recorded, summary: Summary) -> list[Blocked]:
    """The threads that waited for a lock at the end of a recording."""
    traces = {os.path.basename(trace)[:-len(".csv")]: trace for trace in asked.traces}
    waiting, ends = summary.at_end(), asked.ends()
    names = list(waiting) + [name for name in traces if name not in waiting]
    threads = [thread_at_end(name, ends.get(traces.get(name, ""), []), waiting.get(name, False)) for name in names]
    for thread in threads:
        thread.called = called(thread.name, traces.get(thread.name, ""))
    if os.path.lexists(os.path.join(asked.folder, SIGNALS)):
        name_handlers([thread for thread in threads if thread.waits], asked.folder, traces)
        note_interrupted(threads, traces)
    return each_once([blocked_of(thread, threads) for thread in threads if thread.waits])


def name_handlers(threads: list[Thread], folder: str, traces: dict[str, str]) -> None:
    """Says of a thread if it is a run of a signal's handler."""
    from .signals import Signals
    from ..record.handlers import words_of_handler
    signals = Signals(folder)
    for thread in threads:
        handler = signals.run_in(traces[thread.name])
        thread.called = "%s (%s)" % (thread.name, words_of_handler(handler, signals.symbols)) if handler else thread.called


def note_interrupted(threads: list[Thread], traces: dict[str, str]) -> None:
    """Notes which threads go on only when a run of a handler in them has ended."""
    waiting = {number_of_thread(traces[thread.name]): thread for thread in threads if thread.waits}
    for thread in threads:
        number = number_of_thread(traces.get(thread.name, ""))
        thread.interrupted_by = waiting.get(number) if number and not thread.waits else None


def sources_wanted(blocked: list, sources: Sources) -> None:
    """Gathers what is said of blocked threads, or of breaches."""
    sources.want_events(event for thread in blocked for event in thread.events)
    sources.want_names(name_in(key) for thread in blocked for key in thread.keys)
