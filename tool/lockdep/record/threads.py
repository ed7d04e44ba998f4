"""The names of threads. A recording may have them in `tasks`: for each trace a line with its file, the number of its process, and the name. If it has
signal handlers, it also says in `signals/threads` which traces are of one thread: its own code, and the runs of handlers in it."""
from __future__ import annotations

import functools
import os
import re
from typing import Iterable

from ..base.files import text_in
from ..base.words import lines_of, visible
from .folder import NUMBERS, OBJECTS, SIGNALS, TASKS, is_in_signals

TASK = re.compile(r"task-0*(\d+)")
MAIN = "main"  # the first thread of a process in a history, if it takes no locks


@functools.lru_cache(maxsize=None)
def names_in(folder: str) -> dict[str, str]:
    """The names of a folder's threads, by the files of their traces."""
    return {words[0]: visible(words[2]) for words in lines_in(folder, TASKS) if len(words) > 2 and words[2]}


def lines_in(folder: str, name: str) -> list[list[str]]:
    """The lines of a file of the recording whose traces are in a folder, each up to the second space in words; none if it isn't there."""
    if os.path.basename(folder) == OBJECTS:
        folder = os.path.dirname(folder)
    return [line.split(" ", 2) for line in lines_of(text_in(os.path.join(folder, name)))]


@functools.lru_cache(maxsize=None)
def numbers_in(folder: str) -> dict[str, str]:
    """The numbers of a folder's threads, by the files of their traces; none if it has no signal handlers."""
    return {words[0]: words[1] for words in lines_in(folder, os.path.join(SIGNALS, NUMBERS)) if len(words) == 2}


def number_of_thread(trace: str) -> str | None:
    """The number of the thread of a trace, if it is known."""
    folder, file = os.path.split(trace)
    return numbers_in(folder).get(file)


def name_of_thread(trace: str) -> str | None:
    """The name of the thread of a trace, if it is known."""
    folder, file = os.path.split(trace)
    return names_in(folder).get(file)


@functools.lru_cache(maxsize=None)
def processes_in(folder: str) -> dict[str, str]:
    """The numbers of the processes of a folder's threads, by the files of their traces."""
    return {words[0]: visible(words[1]) for words in lines_in(folder, TASKS) if len(words) > 1}


def process_of(trace: str) -> str:
    """The number of the process of a trace's thread; empty if it isn't known."""
    folder, file = os.path.split(trace)
    return processes_in(folder).get(file, "")


def folder_of(trace: str) -> str:
    """The folder of the recording that a trace is of."""
    folder = os.path.dirname(trace)
    return os.path.dirname(folder) if os.path.basename(folder) == OBJECTS else os.path.dirname(os.path.dirname(folder)) if is_in_signals(folder) else folder


def of_recording(trace: str, traces: Iterable[str]) -> str:
    """Of which recording a thread is, behind what it is called, if threads of several recordings are told of; or of which process, if of several."""
    own, process = folder_of(trace), process_of(trace)
    others = {folder_of(other) for other in traces} - {own}
    if not others:
        return " of process " + process if process and {process_of(other) for other in traces} - {process, ""} else ""
    is_told = all(os.path.basename(other) != os.path.basename(own) for other in others)
    return " of " + visible((os.path.basename(own) if is_told else own) or own or ".")


def thread_called(task: str) -> str:
    """What a task is called: as a thread, by the number of its trace, if a recorder gave it one."""
    number = TASK.fullmatch(task)
    return "thread " + number.group(1) if number else "task " + task


def thread_of(task: str) -> str:
    """What a task of a history is called."""
    return "the main thread" if task == MAIN else thread_called(task)


def called(name: str, trace: str) -> str:
    """What a thread is called in a sentence: as its trace, with its name if that is known."""
    own = name_of_thread(trace)
    return "%s (%s)" % (name, own) if own else name
