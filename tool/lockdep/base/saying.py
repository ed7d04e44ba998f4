"""Messages, and what can't be done."""
from __future__ import annotations

import os

from .words import bytes_of, visible

RUN = "LOCKDEP_RUN_HOME"  # is in the environment if `lockdep run` was called
PLAIN = frozenset("ABCDEFGHIJKLMNOPQRSTUVWXYZabcdefghijklmnopqrstuvwxyz0123456789_./+,:@%-")  # what needs no quotes


class Refusal(Exception):
    """What can't be done: a line for standard error, or None if one is already there, and the status that this ends with."""

    def __init__(self, line: str | None, status: int = 2) -> None:
        super().__init__(line)
        self.line, self.status = line, status


kept: list[str] | None = None  # the lines that are kept instead of being written, if any are


def write_error(text: str) -> None:
    """Writes a line to standard error, in which nothing is hidden."""
    if kept is not None:
        kept.append(text)
        return
    raw = bytes_of(visible(text) + "\n")
    try:
        while raw:
            raw = raw[os.write(2, raw):]
    except OSError:
        pass


def say(text: str) -> None:
    """Says something about a recording."""
    write_error("record: " + text)


def said_by() -> str:
    """The command that was typed."""
    return "lockdep" if RUN in os.environ else "record"


def say_refusal(text: str) -> None:
    """Says what can't be done, in the name of what was typed."""
    write_error("%s: %s" % (said_by(), text))


def typed(word: str) -> str:
    """A word as one types it."""
    if word and PLAIN.issuperset(word):
        return word
    return "'" + word.replace("'", "'\\''") + "'"
