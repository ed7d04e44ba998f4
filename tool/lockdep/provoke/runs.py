"""One run of the program with its threads held back where a plan says."""
from __future__ import annotations

import os
import resource
import signal
import subprocess
import time
from dataclasses import dataclass, field

from .ending import undisturbed
from .holders import Holder
from .load import Load, send
from .standing import LOOK, Doubt, Standing, Waiting, Watch, builds_of, is_ended_by, status_words, waiting
from .system import ENDED, children_of, is_dumping, is_there, state_of
from .table import Table
from .ways import Way

GRACE = 0.5  # seconds that a process has to end which has a handler for SIGABRT
MOST_GENERATIONS = 100  # of processes that are left, each by the one before
PR_SET_CHILD_SUBREAPER = 36


@dataclass
class Outcome:
    """How a run ended: with the command's status, or standing still, for how many seconds, what could end that, how many other threads could go on, and of
    which builds the process is, or at the limit of its time, and which threads waited then. Also for how many seconds threads stood that went on."""

    status: int | None = None
    process: int = 0
    standing: list[Standing] | None = None
    doubts: list[Doubt] = field(default_factory=list)
    going: int = 0
    stood: float = 0.0
    builds: tuple[str, ...] = ()
    waiting: list[Waiting] | None = None
    went_on: float = 0.0

    @property
    def is_too_long(self) -> bool:
        return self.waiting is not None


class Run:
    """A run of the command with its threads held back."""

    def __init__(self, command: list[str], holder: Holder, plan: str, table: Table, way: Way, given: str, output: int, load: str,
                 dumps: bool) -> None:
        self.command = holder.command(command)
        self.environment = dict(holder.environment(command), LOCKDEP_PROVOKE_PLAN=plan, LOCKDEP_PROVOKE_TABLE=table.path, LOCKDEP_PROVOKE_PAUSE=str(way.pause))
        self.table, self.load, self.holder, self.given, self.output, self.dumps = table, Load(load, output), holder, given, output, dumps
        self.child: subprocess.Popen | None = None

    def start(self) -> None:
        with open(self.given or os.devnull, "rb") as stdin, undisturbed() as before:
            self.child = subprocess.Popen(self.command, stdin=stdin, stdout=self.output, stderr=self.output, env=self.environment, start_new_session=True,
                                          preexec_fn=lambda: self.prepare(before))

    def prepare(self, before: set[int]) -> None:
        """What the started process does before it becomes the command, with those signals held back that were so before."""
        most = resource.getrlimit(resource.RLIMIT_CORE)[1]
        resource.setrlimit(resource.RLIMIT_CORE, (most if self.dumps else 0, most))
        signal.pthread_sigmask(signal.SIG_SETMASK, before)

    def outcome(self, limit: float, sure: float) -> Outcome:
        """Starts the command, and waits until it and what it has left in the background have ended, or stand still for so many seconds, and for a limit at
        most: behind that only as long as they stand."""
        self.start()
        assert self.child
        watch, end = Watch(self.table, self.holder.numbers, sure), time.monotonic() + limit
        while time.monotonic() < end or watch.still:
            if watch.look():
                return Outcome(process=watch.cycle[0].process, standing=watch.standing, doubts=watch.doubts, going=watch.going,
                               stood=watch.stood, builds=builds_of(watch.cycle[0], watch.standing))
            if self.child.poll() is not None and not self.is_something_left():
                return self.ended(watch, self.child.returncode)
            self.load.step(bool(self.table.threads()), self.child.pid, bool(watch.cycle))
            time.sleep(LOOK)
        is_running = self.child.returncode is None
        return Outcome(status=self.child.returncode, waiting=waiting(self.table, self.holder.numbers) if is_running else None, went_on=watch.longest)

    def ended(self, watch: Watch, status: int) -> Outcome:
        """The program has ended: perhaps as it stood still, as by a thread that ends it then, or after its threads had gone on, as the table says."""
        watch.look()
        if not watch.has_stood():
            return Outcome(status=status, went_on=watch.longest)
        return Outcome(status=status, standing=watch.standing, doubts=[Doubt("then the program ended with " + status_words(status), False)], stood=watch.stood)

    def is_something_left(self) -> bool:
        """Whether the command, which has ended, has left processes in the background, which have come to this one."""
        return any(state_of(process, process) not in ENDED for process in children_of(os.getpid()))

    def end(self, process: int) -> None:
        """Ends what stands still, and all that the run has left."""
        try:
            self.load.end()
            if process:
                end_by_abort(process)
        finally:
            with undisturbed():
                self.kill()

    def kill(self) -> None:
        if self.child is None:
            return
        send(-self.child.pid, signal.SIGKILL)
        send(self.child.pid, signal.SIGKILL)
        self.child.wait()
        for _ in range(MOST_GENERATIONS):
            left = children_of(os.getpid())
            for other in left:
                send(other, signal.SIGKILL)
                reap(other)
            if not left:
                return


def end_by_abort(process: int) -> None:
    """Sends SIGABRT to a process, and waits until that has ended: as long as it has to end by that, or writes a core dump, and otherwise for a short time,
    as where a handler does something else, which may have put itself out of force and wait for a lock."""
    has_to, end = is_ended_by(process, signal.SIGABRT), time.monotonic() + GRACE
    send(process, signal.SIGABRT)
    while is_there(process) and (has_to and is_ended_by(process, signal.SIGABRT) or is_dumping(process) or time.monotonic() < end):
        time.sleep(LOOK)


def adopt_orphans() -> None:
    """Has processes come to this one when what started them has ended, so that a daemon of a run is ended with it."""
    import ctypes
    ctypes.CDLL(None).prctl(PR_SET_CHILD_SUBREAPER, 1, 0, 0, 0)


def reap(process: int) -> None:
    try:
        os.waitpid(process, 0)
    except OSError:
        pass
