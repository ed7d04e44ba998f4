"""What the system says of processes and their threads."""
from __future__ import annotations

import os

FUTEX, WAIT4, WAITID, PAUSE, SUSPEND, READ = "202", "61", "247", "34", "130", "0"  # system calls on x86-64
LAST_PROCESS = 2**31 - 1  # the last number that `wait4` takes for one process's
ONE_PROCESS = "0x1"  # what `waitid` is given for one process
OF_PIPE = "pipe:"  # begins what the system says an open pipe is
TO_WRITE = os.O_WRONLY | os.O_RDWR
NO_LIMIT = "0x0"  # of the time of a wait
ENDED = ("", "Z", "X")  # states of processes and threads
STOPPED = ("T", "t")
DUMPING = "CoreDumping:\t1"  # a line of what the system says of a thread


def state_of(process: int, thread: int) -> str:
    """The letter that the kernel has for the state of a thread; empty if it isn't there."""
    try:
        with open("/proc/%d/task/%d/stat" % (process, thread), "rb") as file:
            return file.read().rpartition(b")")[2].split()[0].decode()
    except (OSError, IndexError):
        return ""


def is_there(process: int) -> bool:
    """Whether a process has a thread that hasn't ended. (Its first one may have.)"""
    return any(state_of(process, thread) not in ENDED for thread in tasks_of(process))


def is_dumping(process: int) -> bool:
    """Whether a process writes a core dump."""
    return any(DUMPING in text_of_file("/proc/%d/task/%d/status" % (process, thread)) for thread in tasks_of(process))


def text_of_file(path: str) -> str:
    """What the system says of a process or thread; empty if it is gone, or mustn't be looked at."""
    try:
        with open(path, encoding="utf-8", errors="surrogateescape") as file:
            return file.read()
    except OSError:
        return ""


def listed(folder: str) -> list[str]:
    try:
        return os.listdir(folder)
    except OSError:
        return []


def tasks_of(process: int) -> list[int]:
    """The threads of a process."""
    return sorted(int(name) for name in listed("/proc/%d/task" % process))


def parent_of(process: int) -> int:
    try:
        with open("/proc/%d/stat" % process, "rb") as file:
            return int(file.read().rpartition(b")")[2].split()[1])
    except (OSError, IndexError, ValueError):
        return 0


def children_of(process: int) -> list[int]:
    return [int(name) for name in os.listdir("/proc") if name.isdigit() and parent_of(int(name)) == process]


def descendants(process: int) -> list[int]:
    """What a process has started, and what that has, as long as these are there."""
    parents = {int(name): parent_of(int(name)) for name in os.listdir("/proc") if name.isdigit()}
    found, new = [], [process]
    while new:
        new = [child for child, parent in parents.items() if parent in new]
        found += new
    return found


def call_of(process: int, thread: int) -> list[str]:
    """The system call in which a thread is, as the system has it: its number and what it was given. Empty if it is in none, or isn't known."""
    words = text_of_file("/proc/%d/task/%d/syscall" % (process, thread)).split()
    return words if words and words[0].isdigit() else []


def sleeps_of(process: int) -> dict[int, str]:
    """How often each thread of a process has gone to sleep, as the system has it."""
    lines = {task: text_of_file("/proc/%d/task/%d/status" % (process, task)).splitlines() for task in tasks_of(process)}
    return {task: next((line for line in said if line.startswith("voluntary")), "") for task, said in lines.items()}


def waits_at(process: int, thread: int) -> int:
    """The address at which a thread waits in a system call for a lock or the like; 0 if it is in none."""
    call = call_of(process, thread)
    return int(call[1], 16) if call[:1] == [FUTEX] else 0


def waits_for_lock(call: list[str]) -> bool:
    """Whether a thread waits in a system call without a limit of time for a lock or the like."""
    return call[:1] == [FUTEX] and call[4:5] == [NO_LIMIT]


def is_endless(process: int, thread: int, standing: set[int], is_watched: bool = True) -> bool:
    """Whether a thread waits without a limit of time for other threads, for signals, or for the end of a process or bytes of a pipe that come only from
    processes that stand. A signal may be that of a timer: whether one is armed is known only of a process that is watched."""
    call = call_of(process, thread)
    return waits_for_lock(call) or (is_watched and call[:1] in ([PAUSE], [SUSPEND])) or (call[:1] in ([WAIT4], [WAITID]) and children_awaited(process, call) <= standing) or \
        (call[:1] == [READ] and reads_only_from(standing, process, int(call[1], 16)))


def signals_of_timers(process: int) -> set[int]:
    """The signals of the timers of a process by `timer_create`, armed or not, as far as the system tells of them."""
    lines = text_of_file("/proc/%d/timers" % process).splitlines()
    return {int(line.split()[1].partition("/")[0]) for line in lines if line.startswith("signal:")}


def has_limit_of_processor_time(process: int) -> bool:
    lines = text_of_file("/proc/%d/limits" % process).splitlines()
    return any(line.startswith("Max cpu time") and line.split()[3] != "unlimited" for line in lines)


def children_awaited(process: int, call: list[str]) -> set[int]:
    """The children whose ends a process waits for: one, or all that it has."""
    number = int(call[2] if call[0] == WAITID else call[1], 16)
    is_one = call[1] == ONE_PROCESS if call[0] == WAITID else 0 < number <= LAST_PROCESS
    return {number} if is_one else set(children_of(process))


def reads_only_from(standing: set[int], process: int, file: int) -> bool:
    """Whether a process reads from a pipe into which only others that stand can write."""
    pipe = opened_as(process, str(file))
    return pipe.startswith(OF_PIPE) and all(other in standing or not writes_into(other, pipe) for other in numbers_of_all())


def numbers_of_all() -> list[int]:
    return [int(name) for name in listed("/proc") if name.isdigit()]


def opened_as(process: int, file: str) -> str:
    """What the system says a process has open as a file's number."""
    return link_of("/proc/%d/fd/%s" % (process, file))


def link_of(path: str) -> str:
    """What a link of the system's leads to; empty if that can't be looked at."""
    try:
        return os.readlink(path)
    except OSError:
        return ""


def writes_into(process: int, pipe: str) -> bool:
    """Whether a process has a pipe open to write, or can't be looked at."""
    files = listed("/proc/%d/fd" % process) if os.access("/proc/%d/fd" % process, os.R_OK) else None
    if files is None:
        return state_of(process, process) not in ENDED
    return any(flags_of(process, file) & TO_WRITE for file in files if opened_as(process, file) == pipe)


def flags_of(process: int, file: str) -> int:
    """The flags with which a process has a file open."""
    lines = text_of_file("/proc/%d/fdinfo/%s" % (process, file)).splitlines()
    return next((int(line.split()[1], 8) for line in lines if line.startswith("flags:")), 0)
