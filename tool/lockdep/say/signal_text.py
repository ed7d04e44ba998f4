"""Findings with a signal handler as text: where the handler takes the lock, where other code takes it with the signal unblocked, what follows from that,
and what mends it."""
from __future__ import annotations

from typing import Callable

from ..ask.signals import is_order_of_handler
from ..base.words import LIBRARY, is_of_library, name_in, plain_key
from ..binaries.cplusplus import without_parameters
from ..binaries.symbols import Frame, place_words
from ..places.sources import Sources
from ..program.findings import Event, Finding, Order
from ..record.handlers import THREADS, Handler
from ..record.handlers import words_of_handler
from .lines import Line
from .steps import MODES, task_words

# Locks inside the C library: what takes them, and what happens if a signal comes in during that and its handler takes them too.
CALLS = {"malloc": "malloc, free or the like", "stdout": "stdio on stdout", "stderr": "stdio on stderr", "stream": "stdio on a stream", "syslog": "syslog",
         "timezone": "localtime, mktime or the like", "random": "random or rand", "environment": "setenv or the like",
         "users": "getpwnam or the like", "resolver": "getaddrinfo or the like"}
MIXED_UP = ", or what is written gets mixed up"
DAMAGED = {"malloc": ", or the heap is damaged", "stdout": MIXED_UP, "stderr": MIXED_UP, "stream": MIXED_UP}
NARROW = "between taking it and noting the {0}, or between clearing the {0} and releasing it"
EDEADLK = "a thread that holds %s for writing gets EDEADLK of glibc when it asks for it again, unless the signal comes in " + NARROW.format("writer") + \
    ": a handler that ignores that releases the writer's lock"
QUEUED = "a reader of %s waits behind a waiting writer, so the handler waits if another thread waits to write"
ONE_THREAD = "  one thread is enough: it holds {0} when {1} comes in, and the handler takes {2} and then waits for {0}"
ONLY_A_FLAG = "let the handler only set a flag or write to a pipe"
# Of Python, where a signal that the main thread has blocked may come to another thread: its handler runs in the main thread all the same.
IN_MAIN_THREAD = "the main thread runs the handler of %s between two bytecode instructions, whichever thread gets the signal"
ONLY_A_VARIABLE = "let the handler only set a variable or put something into a queue.SimpleQueue, or try %s with acquire(blocking=False)"


def calls_of(key: str) -> str:
    """What takes a lock inside the C library, such as `malloc, free or the like`."""
    name = name_in(key)[len(LIBRARY):]
    return CALLS.get(name, name)


# ---- Places.


def words_at(event: Event, frames: list[Frame]) -> str:
    """Where a record comes from, or if that isn't known which one it is."""
    return place_words(frames) or "%s: record %d" % (event.file, event.record)


def place_at(event: Event, sources: Sources) -> str:
    return words_at(event, sources.frames(event))


def place_in_handler(handler: Handler, event: Event, sources: Sources) -> str:
    """Where a handler takes a lock. What called the handler is what it interrupted, and says nothing."""
    frames, own = sources.frames(event), bare(handler.frame(sources.symbols).function)
    functions = [bare(frame.function) for frame in frames]
    return words_at(event, frames[:functions.index(own) + 1] if own and own in functions else frames)


def bare(function: str) -> str:
    """A function's own name, which debug information and symbols qualify in different ways."""
    return without_parameters(function).rpartition("::")[2]


def lock_at(event: Event, key: str, sources: Sources) -> str:
    """The lock that a record takes, as the trace names it."""
    return plain_key(sources.key_at(event) or key)


# ---- Lines.


def used_line(finding: Finding, handler: Handler, sources: Sources) -> Line:
    """Where the handler takes the lock."""
    key, event, who = finding.keys[0], finding.used.event, words_of_handler(handler, sources.symbols)
    what = "calls " + calls_of(key) if is_of_library(key) else "takes %s%s" % (
        lock_at(event, key, sources) if event else plain_key(key), MODES.get(finding.used.takes or "", ""))
    return Line("  %s%s %s%s" % (who, "," if ", " in who else "", what, ": " + place_in_handler(handler, event, sources) if event else ""))


def enabled_line(finding: Finding, sources: Sources) -> Line:
    """Where other code takes the lock with the signal unblocked, or unblocks it with the lock held."""
    key, use, signal = finding.keys[-1], finding.enabled, finding.state
    verb = "called" if is_of_library(key) else "taken"
    if not use.event:
        return Line("  %s is %s with %s unblocked" % (plain_key(key), verb, signal))
    if use.turns_on and use.since and use.takes is None:
        lock = lock_at(use.since, key, sources)
        return Line("  %s is unblocked with %s held: %s; %s was taken: %s" % (
            signal, lock, place_at(use.event, sources), lock, place_at(use.since, sources)))
    return Line("  %s with %s unblocked: %s%s" % (verb, signal, place_at(use.event, sources), taken_words(finding, use.event, use.takes, sources)))


def taken_words(finding: Finding, event: Event, takes: str | None, sources: Sources) -> str:
    """Which lock other code takes, unless that is the one that the handler takes, and how."""
    key = finding.keys[-1]
    if is_of_library(key):
        return ""
    lock, mode = lock_at(event, key, sources), MODES.get(takes or "", "")
    is_same = finding.type == "double" and finding.used.event and lock == lock_at(finding.used.event, key, sources)
    return " takes it%s" % mode if is_same and mode else "" if is_same else " takes %s%s" % (lock, mode)


def order_line(order: Order, sources: Sources) -> Line:
    """The first occurrence of an order."""
    head = "  %s %s %s" % order.dependency
    if not order.event:
        return Line(head)
    text = "%s: %s takes %s%s" % (head, place_at(order.event, sources), lock_at(order.event, order.end, sources), MODES.get(order.takes or "", ""))
    if order.since:
        text += ", with %s held since %s" % (lock_at(order.since, order.start, sources), place_at(order.since, sources))
    return Line(text)


def occurrence_lines(finding: Finding, handler: Handler, sources: Sources) -> list[Line]:
    """Where a finding comes from."""
    return [used_line(finding, handler, sources)] + [order_line(order, sources) for order in finding.orders] + [enabled_line(finding, sources)]


def end_lines(finding: Finding) -> list[Line]:
    """How it ends in a deadlock."""
    signal, key, is_in_main = finding.state, finding.keys[0], finding.handler is not None and finding.handler.is_in_one_thread
    if finding.type == "double" and is_of_library(key):
        return [Line("  if %s comes in during such a call, the handler waits for ever%s" % (signal, DAMAGED.get(name_in(key)[len(LIBRARY):], "")))]
    if finding.type == "double":
        who, awaited = ("the main thread", "what") if is_in_main else ("a thread", "the thread that")
        return [Line("  if %s comes in while %s holds %s there, the handler waits for %s it interrupted" % (signal, who, plain_key(key), awaited))]
    threads = ["thread 1 holds %s" % plain_key(finding.keys[-1])] + task_words(finding, plain_key)
    lines = [Line("  " + ", ".join(threads)), Line("  %s comes in at thread 1, and its handler waits for %s" % (signal, plain_key(key)))]
    return lines + ([Line(ONE_THREAD.format(plain_key(finding.keys[-1]), signal, plain_key(key)))] if is_order_of_handler(finding) else [])


def remarks_of_signal(finding: Finding, handler: Handler) -> list[str]:
    """To whom the signal comes, whether it has to come in a narrow moment, and what mends the finding."""
    signal = finding.state
    to = "single threads alone: only these, and threads that run the same function, count" if handler.sent_to == THREADS else \
        "the process: any thread that has it unblocked may get it"
    to += ", where a timer is armed that sends it" if handler.is_by_timers else ""
    remarks = [IN_MAIN_THREAD % signal if handler.is_in_one_thread else "%s was sent to %s" % (signal, to)]
    if handler.opened_by:
        remarks.append("%s counts as unblocked where %s may come in, whose handler unblocks it: to block it alone isn't enough there" % (
            signal, " or ".join(handler.opened_by)))
    if finding.is_narrow:
        remarks.append("in a narrow moment: %s knows its owner, so the handler waits only if %s comes in %s" % (
            plain_key(finding.keys[0]), signal, NARROW.format("owner")))
    if finding.type == "double":
        remarks += remarks_of_rwlock(finding, handler)
    return remarks + ["to mend it: " + mending_words(finding)]


def remarks_of_rwlock(finding: Finding, handler: Handler) -> list[str]:
    """What follows if the lock is a read-write lock, by how the interrupted thread has it."""
    key, mode = finding.keys[0], finding.enabled.takes or finding.enabled.held
    if mode == "w" and (finding.is_about(handler.is_rwlock) or finding.used.takes in ("r", "rr")):
        return [EDEADLK % plain_key(key)]
    return [QUEUED % plain_key(key)] if mode == "r" and finding.is_about(handler.is_queued) else []


def mending_words(finding: Finding, called: Callable[[str], str] = plain_key) -> str:
    """What can be done: about the code that the handler interrupts, about the order, and in any case about the handler."""
    first, last = called(finding.keys[0]), called(finding.keys[-1])
    is_in_main = finding.handler is not None and finding.handler.is_in_one_thread
    ways = [] if is_in_main or is_of_library(finding.keys[-1]) else [blocking_words(finding, last)]
    by_signals = [] if is_in_main else ["block %s around %s" % (order.signal, called(order.start)) for order in finding.orders if order.signal]
    if len(finding.orders) == 1 and (ways or is_in_main) and first != last and not finding.orders[0].signal:
        ways.append("don't take %s under %s" % (last, first))
    ways += by_signals
    of_handler = ONLY_A_VARIABLE % first if is_in_main else ONLY_A_FLAG
    return ", ".join(ways + ["or " + of_handler]) if ways else of_handler


def blocking_words(finding: Finding, lock: str) -> str:
    is_opened = finding.enabled.event is not None and finding.enabled.takes is None
    return ("keep %s blocked until %s is released" if is_opened else "block %s around %s") % (finding.state, lock)
