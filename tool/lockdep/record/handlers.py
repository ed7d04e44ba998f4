"""Signal handlers, as a recording has them: those that took a lock, and those that never ran."""
from __future__ import annotations

import json
import os
import re
from dataclasses import dataclass, replace

from ..base.files import is_file, text_in
from ..base.saying import Refusal
from ..base.words import class_of_lock, is_hidden, name_in, visible
from ..binaries.symbols import Address, Frame, Symbols
from .folder import OF_SIGNALS, SIGNALS

SIGNAL = re.compile("SIG[A-Z0-9]+([+-][0-9]+)?")
OFFSET = re.compile("0x[0-9a-fA-F]{1,16}")
PROCESS, THREADS = "process", "threads"  # to what a signal was sent


@dataclass(frozen=True)
class Handler:
    """A handler of a signal: its symbol, if it has one, and where it begins; and of one that took a lock the number of its set of traces, how often it
    ran, how many locks it took, to what the signal was sent, the locks that know their owner, for which it waits only in a narrow moment, the read-write
    locks, those of them that it only takes as a reader who queues behind waiting writers, the locks that are neither these nor mutexes, and the other
    signals whose handlers unblock its signal."""

    signal: str
    name: str = ""
    module: str = ""
    offset: int | None = None
    file: str = ""
    line: int = 0
    number: int = 0
    runs: int = 0
    takes: int = 0
    sent_to: str = PROCESS
    narrow: tuple[str, ...] = ()
    rwlocks: tuple[str, ...] = ()
    queued: tuple[str, ...] = ()
    others: tuple[str, ...] = ()
    opened_by: tuple[str, ...] = ()
    is_late: bool = False  # whether each thread that got it had taken its last lock by then
    is_alone: bool = False  # whether each process that has it has one thread, which can't wait for another one
    is_in_one_thread: bool = False  # whether it runs in one thread of a process alone, as all handlers of Python
    is_by_timers: bool = False  # whether timers alone sent the signal

    @property
    def address(self) -> str:
        """Where it is in its file, such as `server+40`; empty if that isn't known."""
        return "%s+%x" % (os.path.basename(self.module), self.offset) if self.module and self.offset is not None else ""

    @property
    def state(self) -> str:
        """What lines of findings have in the place of a state of interrupts. It has no space and nothing invisible, and nothing that another build
        changes, unless the handler has no symbol."""
        return "%s:%s" % (self.signal, "".join("_" if letter.isspace() or is_hidden(letter) else letter for letter in self.name or self.address))

    @property
    def place(self) -> Address | None:
        """Its first instruction. What is looked up is the one before a place in code, since a call returns to that."""
        return Address(self.module, self.offset + 1) if self.module and self.offset is not None else None

    def is_narrow(self, key: str) -> bool:
        """Whether a lock makes it wait only if it comes in while that lock is taken and doesn't know its owner."""
        return is_among(key, self.narrow)

    def is_rwlock(self, key: str) -> bool:
        return is_among(key, self.rwlocks)

    def is_queued(self, key: str) -> bool:
        """Whether it takes a lock as a reader who waits behind a waiting writer. In its set it takes that as a writer."""
        return is_among(key, self.queued)

    def is_other(self, key: str) -> bool:
        return is_among(key, self.others)

    def want(self, symbols: Symbols) -> None:
        """Gathers where it is, unless the recording says that."""
        if self.place and not (self.file and self.line):
            symbols.want(self.place)

    def frame(self, symbols: Symbols) -> Frame:
        """Where it is, as far as that is known."""
        if self.file and self.line:
            return Frame(self.name, self.file, self.line, self.address)
        found = symbols.frames(self.place)[-1:] if self.place else []
        if not found:
            return Frame(self.name, "", 0, self.address)
        is_mangled = self.name.startswith("_Z") and found[0].function
        return replace(found[0], function=self.name if self.name and not is_mangled else found[0].function, address=self.address)


def is_among(key: str, names: tuple[str, ...]) -> bool:
    """Whether the lock of a key, or its class, is among these."""
    name = name_in(key)
    return name in names or class_of_lock(name) in names


def text_of_member(said: dict, name: str) -> str:
    """A text that may be missing, or null."""
    value = said.get(name)
    if value is not None and not isinstance(value, str):
        raise ValueError("%s is no text" % name)
    return value or ""


def number_of_member(said: dict, name: str) -> int:
    value = said.get(name)
    if value is not None and (not isinstance(value, int) or value < 0):
        raise ValueError("%s is no number" % name)
    return value or 0


def offset_of(said: dict) -> int | None:
    offset = text_of_member(said, "offset")
    if offset and not OFFSET.fullmatch(offset):
        raise ValueError("the offset %s" % offset)
    return int(offset, 16) if offset else None


def list_of(said: object) -> list:
    if not isinstance(said, list):
        raise ValueError("no list")
    return said


def names_of(said: dict, name: str) -> tuple[str, ...]:
    return tuple(map(str, said.get(name) or []))


def handler_of(said: dict) -> Handler:
    signal, sent_to = text_of_member(said, "signal"), text_of_member(said, "sent_to") or PROCESS
    if not SIGNAL.fullmatch(signal):
        raise ValueError("the signal %s" % signal)
    if sent_to not in (PROCESS, THREADS):
        raise ValueError("sent to %s" % sent_to)
    return Handler(signal, text_of_member(said, "handler"), text_of_member(said, "module"), offset_of(said), text_of_member(said, "file"),
                   number_of_member(said, "line"), number_of_member(said, "number"), number_of_member(said, "runs"), number_of_member(said, "takes"), sent_to,
                   names_of(said, "narrow"), names_of(said, "rwlocks"), names_of(said, "queued"), names_of(said, "others"), names_of(said, "opened_by"),
                   said.get("late") is True, said.get("alone") is True, said.get("one_thread") is True, said.get("timers") is True)


def handlers_in(folder: str, name: str) -> list[Handler]:
    """The handlers of a file, in its order; none if the recording hasn't it."""
    path = os.path.join(folder, SIGNALS, name)
    if not os.path.lexists(path):
        return []
    try:
        if not is_file(path):
            raise ValueError("no plain file")
        handlers = [handler_of(said) for said in list_of(json.loads(text_in(path)))]
        numbers = [handler.number for handler in handlers]
        if name == OF_SIGNALS[0] and (0 in numbers or len(set(numbers)) < len(numbers)):
            raise ValueError("the numbers %s" % numbers)
        return handlers
    except (ValueError, TypeError, AttributeError, RecursionError) as error:
        raise Refusal("%s can't be read: %s" % (visible(path), visible(str(error)) if isinstance(error, ValueError) else "it isn't as it was written"))


def words_of_handler(handler: Handler, symbols: Symbols) -> str:
    """Such as `on_usr1, the handler for SIGUSR1`, or `the handler for SIGTERM at server+40`."""
    frame = handler.frame(symbols)
    if frame.function:
        return "%s, the handler for %s" % (visible(frame.function), handler.signal)
    return "the handler for %s%s" % (handler.signal, " at %s" % visible(frame.words) if frame.words else "")
