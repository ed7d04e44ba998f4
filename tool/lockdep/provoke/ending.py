"""Signals that end this command, and what they mustn't come between: who starts a process has to know it, so that it can be ended."""
from __future__ import annotations

import signal
from contextlib import contextmanager

TYPE_CHECKING = False  # for a tool that checks types, it is true
if TYPE_CHECKING:
    from typing import Iterator

ENDING = (signal.SIGINT, signal.SIGTERM, signal.SIGHUP)


@contextmanager
def undisturbed() -> Iterator[set[int]]:
    """Such signals come only behind this. The value is those that were held back before, as what is started here has to have it."""
    before = signal.pthread_sigmask(signal.SIG_BLOCK, ENDING)
    try:
        yield before
    finally:
        signal.pthread_sigmask(signal.SIG_SETMASK, before)
