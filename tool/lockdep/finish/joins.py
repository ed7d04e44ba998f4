"""Threads that are waited for, in what a process has written. Each is a lock, which is written only if it can be part of a cycle: if the thread is
joined with a lock held, or by a thread of which that is true, and if it takes a lock itself, or joins a thread that does."""
from __future__ import annotations

STARTED = "started"  # the kind of the class of a thread
THREAD = "thread:"  # begins the name of such a class

TYPE_CHECKING = False  # for a tool that checks types, it is true
if TYPE_CHECKING:
    from typing import Collection, Hashable, Iterable, Protocol

    class Task(Protocol):
        """What a thread did. It may be a lock itself, by its key; `waits` says that it waited at the end, for the last that it took."""
        life: Hashable
        waits: bool
        has_ended: bool

        def steps(self) -> Iterable[tuple[Hashable, bool]]:
            """The key of each lock that it took or released, and whether it was released."""

        def is_last_timed(self) -> bool:
            """Whether it waited last for what gives up at a time."""


class Joins:
    """The threads of a process that are written: of all its threads the keys, and its tasks."""

    def __init__(self, threads: set[Hashable], tasks: Collection[Task]) -> None:
        self.threads, self.tasks = threads, tasks
        self.reached: set[Hashable] = set()
        self.useful: set[Hashable] = set()
        while self.threads and any([self.go_through(task) for task in self.tasks]):
            continue

    def go_through(self, task: Task) -> bool:
        """What a task's records say of itself and of those that it joins. Returns whether that is news."""
        known = len(self.reached) + len(self.useful)
        held = 1 if task.life in self.reached else 0
        for key, is_release in task.steps():
            is_join = key in self.threads
            if task.life and (not is_join or key in self.useful):
                self.useful.add(task.life)
            if is_join and not is_release and held > 0:
                self.reached.add(key)
            held += 0 if is_join else -1 if is_release else 1
        return len(self.reached) + len(self.useful) > known

    def is_kept(self, key: Hashable) -> bool:
        return key in self.reached and key in self.useful

    def is_waiting(self, task: Task | None) -> bool:
        """Whether a task waits at the end for what doesn't come: for the end of a thread it may only have to wait for a while, unless that thread
        waits itself."""
        passed: set[int] = set()
        while task is not None and task.waits and not task.is_last_timed() and id(task) not in passed:
            passed.add(id(task))
            key = last_key(task)
            if key not in self.threads:
                return True
            task = self.going_on(key)
        return task is not None and id(task) in passed

    def going_on(self, key: Hashable) -> Task | None:
        """The task of a thread that hasn't ended."""
        return next((task for task in self.tasks if task.life == key and not task.has_ended), None)


def last_key(task: Task) -> Hashable:
    """The lock that a task took or released last."""
    key: Hashable = None
    for key, _ in task.steps():
        continue
    return key
