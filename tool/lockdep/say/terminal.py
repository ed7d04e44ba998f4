"""Writing text for people: lines that are too long are broken only if they go to a terminal."""
from __future__ import annotations

import os
from typing import IO

from ..base.words import CALLED_FROM, visible
from .lines import INDENT

WIDTH = 120  # lines longer than this are broken where they have a space, also on a terminal that doesn't say how wide it is
LEAST_WIDTH = 40  # on a narrower terminal lines are as long as this
ALWAYS, NEVER = "always", "never"  # when a stream gets colours
STRONG = "\x1b[1m%s\x1b[0m"  # words that stand out, as terminals have them


def width_of(stream: IO[str] | None) -> int:
    """How long lines may be; 0 if they may be of any length, since they don't go to a terminal."""
    try:
        if stream is None or not stream.isatty():
            return 0
        columns = os.get_terminal_size(stream.fileno()).columns
    except (OSError, ValueError):  # (it is closed)
        return 0
    return min(WIDTH, max(LEAST_WIDTH, columns)) if columns else WIDTH


def break_of(text: str, room: int) -> int:
    """Where a line that is too long is broken: at the last space within the room, else at the first one after it; -1 if it isn't
    to be broken."""
    if len(text) <= room:
        return -1
    found = text.rfind(" ", 1, room + 1)
    return found if found > 0 else text.find(" ", room + 1)


def broken(text: str, indent: int, width: int) -> list[str]:
    """The lines of a text at an indentation. What is too long goes on in lines that are indented further."""
    lines, place = [], indent
    while True:
        end = break_of(text, max(1, width - place))
        lines.append(" " * place + (text if end < 0 else text[:end]))
        if end < 0:
            return lines
        text, place = text[end + 1:], indent + INDENT


def note_lines(text: str, indent: int, width: int) -> list[str]:
    """The lines of a note. A chain of callers that is too long has a line for each."""
    if CALLED_FROM not in text or len(text) + indent <= width:
        return broken(text, indent, width)
    callers = text.split(CALLED_FROM)
    return [" " * indent + callers[0]] + [" " * (indent + INDENT - 1) + CALLED_FROM + caller for caller in callers[1:]]


def is_coloured(stream: IO[str] | None, when: str = "") -> bool:
    """Whether a stream gets colours: always, never, or else if it is a terminal that has some, and nobody set NO_COLOR."""
    if when in (ALWAYS, NEVER):
        return when == ALWAYS
    return bool(width_of(stream)) and not os.environ.get("NO_COLOR") and os.environ.get("TERM", "dumb") != "dumb"


class Writer:
    """Writes lines, and notes under them. The first line of a text may have strong words, which stand out on a terminal with colours."""

    def __init__(self, stream: IO[str], width: int | None = None, has_colours: bool | None = None) -> None:
        self.stream = stream
        self.width = width if width is not None else width_of(stream)
        self.has_colours = is_coloured(stream) if has_colours is None else has_colours

    def line(self, text: str, notes: list[str] | tuple[str, ...] = (), strong: str = "") -> None:
        bare = visible(text.lstrip(" "))
        indent = len(text) - len(text.lstrip(" "))
        lines = broken(bare, indent, self.width) if self.width else [" " * indent + bare]
        if self.has_colours and strong and strong == text:
            lines = [STRONG % line for line in lines]
        elif self.has_colours and strong:
            lines[0] = lines[0].replace(visible(strong), STRONG % visible(strong), 1)
        for note in map(visible, notes):
            place = indent + INDENT
            lines += note_lines(note, place, self.width) if self.width else [" " * place + note]
        self.stream.write("".join(line + "\n" for line in lines))


def text_stream(number: int) -> IO[str]:
    """A descriptor as a stream for text, in which bytes that aren't UTF-8 stay as they are."""
    return open(number, "w", encoding="utf-8", errors="surrogateescape", newline="\n", closefd=False)
