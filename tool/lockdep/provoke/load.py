"""The command of `provoke --while`: what puts a server under load, beside each run."""
from __future__ import annotations

import os
import signal
import subprocess
import time

from .ending import undisturbed

PATIENCE = 30.0  # seconds that a program has to end by SIGTERM


class Load:
    """A command of the shell that runs beside the program, from its first lock on. When it has ended, the program is asked to end."""

    def __init__(self, command: str, output: int) -> None:
        self.command, self.output = command, output
        self.child: subprocess.Popen | None = None
        self.asked_at = 0.0  # when the program was asked to end

    def step(self, takes_locks: bool, program: int, is_standing: bool = False) -> None:
        """Begins the command once the program takes locks, and tells the program to end once the command has ended, unless that stands still by now."""
        if not self.command:
            return
        if self.child is None:
            if takes_locks:
                self.start()
        elif not self.asked_at and not is_standing and self.child.poll() is not None:
            self.asked_at = time.monotonic()
            send(program, signal.SIGTERM)

    def start(self) -> None:
        with undisturbed() as before:
            self.child = subprocess.Popen(["sh", "-c", self.command], stdin=subprocess.DEVNULL, stdout=self.output, stderr=self.output,
                                          start_new_session=True, preexec_fn=lambda: signal.pthread_sigmask(signal.SIG_SETMASK, before))

    def is_overdue(self) -> bool:
        """Whether the program was asked to end some time ago."""
        return bool(self.asked_at) and time.monotonic() - self.asked_at > PATIENCE

    def end(self) -> None:
        """Ends the command, and what it has started."""
        if self.child is not None:
            send(-self.child.pid, signal.SIGKILL)
            self.child.wait()


def send(process: int, number: int) -> None:
    """Sends a signal to a process, or to a group of them, which may be gone."""
    try:
        os.kill(process, number)
    except OSError:
        pass
