"""The run that `lockdep provoke` records before it holds threads back in others."""
from __future__ import annotations

import os
import signal
import time
from dataclasses import dataclass

from ..base.command_line import Words
from ..base.processes import start
from ..base.saying import Refusal, write_error
from ..record.folder import checked
from ..record.recorders import Recorder
from ..record.recording import pass_on
from .ending import ENDING
from .holders import Holder
from .load import Load, send
from .standing import LOOK
from .system import ENDED, WAIT4, WAITID, call_of, descendants, listed, state_of, tasks_of, text_of_file, waits_for_lock

STILL = 10.0  # seconds for which a program that stands still is waited for
STILL_LOOK = 0.5  # seconds from one look for that to the next, at least


@dataclass(frozen=True)
class Recorded:
    """The run that was recorded: its seconds, and its status, if they are known."""

    seconds: float = 0.0
    status: int | None = None


def recorded(home: str, folder: str, recorder: Recorder, holder: Holder, line: Words) -> Recorded:
    """Records the command, with another one beside it if that is asked for. A signal ends the recorded run: the terminal's Ctrl-C comes to it too, and
    others are passed on."""
    before = made_at(folder)
    pass_on(recorder, line.last("--signals"), "")
    recording = start(recording_words(home, folder, recorder, line))
    for number in ENDING:
        if signal.getsignal(number) is not signal.SIG_IGN:
            signal.signal(number, lambda number, frame: send(recording, number) if number != signal.SIGINT else None)
    run = end_of_recording(recording, folder, line.last("--while"), holder)
    if made_at(folder) in (0, before):
        raise Refusal("nothing was recorded: the recorder ended with status %d" % run.status)
    return run


def recording_words(home: str, folder: str, recorder: Recorder, line: Words) -> list[str]:
    """What records the command."""
    is_named, recorders = line.has("--recorder"), os.path.join(home, "recorders")
    if recorder.script:
        return [*recorder.starting(home), "-o", checked(folder), "--either" if is_named else "--command", *line.rest]
    return [os.path.join(recorders, "pthread", "record"), *(["--recorder", recorder.name] if is_named else []), "-o", folder, "--", *line.rest]


def made_at(folder: str) -> int:
    """When the recording in a folder was made, in nanoseconds; 0 if there is none."""
    try:
        return os.stat(os.path.join(folder, "SUMMARY")).st_mtime_ns
    except OSError:
        return 0


def end_of_recording(recorder: int, folder: str, beside: str, holder: Holder) -> Recorded:
    """Waits until the recorder has ended. A program that doesn't end by SIGTERM, or in which all threads wait for one another, stands still: it is killed,
    which leaves its recording. How long it was left to stand, or to end, doesn't count."""
    began = time.monotonic()
    load, raw, still = Load(beside, 2), os.path.join(folder, "raw"), Stillness()
    recorded: list[int] = []
    ended, status, stood = 0, 0, 0.0
    while not ended:
        load.step(bool(beside) and any(holder.takes_locks(os.path.join(raw, name)) for name in listed(raw)), recorder)
        if load.asked_at and not recorded:
            recorded = descendants(recorder)
        if load.is_overdue():
            kill(set(recorded) & set(descendants(recorder)))
        elif still.is_sure(recorder):
            write_error("lockdep: the recorded run stood still for %d seconds, and was ended; its recording is used" % STILL)
            kill(set(descendants(recorder)))
            stood = time.monotonic() - STILL
        time.sleep(LOOK)
        ended, status = os.waitpid(recorder, os.WNOHANG)
    load.end()
    return Recorded((load.asked_at or stood or time.monotonic()) - began, 128 + os.WTERMSIG(status) if os.WIFSIGNALED(status) else os.WEXITSTATUS(status))


def kill(processes: set[int]) -> None:
    for process in processes:
        send(process, signal.SIGKILL)


class Stillness:
    """Looks now and then whether all threads of what was started wait without an end for one another."""

    def __init__(self) -> None:
        self.looked = time.monotonic()
        self.looks = 0  # with nothing changed (and not a time, in which the machine may have stood)
        self.seen: list[list[str]] = []

    def is_sure(self, above: int) -> bool:
        """Whether they have done so for a time, with nothing changed. `above` is the process that has started them."""
        now = time.monotonic()
        if now - self.looked < STILL_LOOK:
            return False
        self.looked = now
        calls = calls_of(recorded_below(above))
        self.looks = self.looks + 1 if calls == self.seen and are_endless(calls) else 0
        self.seen = calls
        return self.looks >= STILL / STILL_LOOK


def recorded_below(recorder: int) -> list[int]:
    """What a recorder has started, without what it has forked for its own use."""
    own = text_of_file("/proc/%d/cmdline" % recorder)
    return [process for process in descendants(recorder) if text_of_file("/proc/%d/cmdline" % process) != own]


def calls_of(processes: list[int]) -> list[list[str]]:
    """The system calls in which the threads of these processes are."""
    return [call_of(process, thread) for process in processes if state_of(process, process) not in ENDED for thread in tasks_of(process)]


def are_endless(calls: list[list[str]]) -> bool:
    """Whether each thread waits for a lock or the like, or for a child's end, without a limit of time, and at least one for a lock."""
    return any(map(waits_for_lock, calls)) and all(waits_for_lock(call) or call[:1] in ([WAIT4], [WAITID]) for call in calls)
