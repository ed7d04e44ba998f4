"""Which threads were started alike and ran at the same time. A recording may have a file `lives`, each line of which says that a thread starts or joins
another one, in the order of time; a number says which were started by the same function."""
from __future__ import annotations

import functools
import os

from ..base.files import contents
from ..base.words import text_of
from ..record.folder import LIVES, OBJECTS, is_in_signals

STARTS = "starts"


class Lives:
    """The threads of a recording: where in the order of starts and joins each begins and ends, and its number. A thread is called as its trace, if it has
    one of its own."""

    def __init__(self, folder: str) -> None:
        self.begins: dict[str, int] = {}
        self.ends: dict[str, int] = {}
        self.numbers: dict[str, str] = {}
        self.named: set[str] = set()  # that started or joined another one, or were
        self.are_known = False  # whether each thread that was started has a number
        text = contents(os.path.join(folder, LIVES))
        if text is None:
            return
        lines = list(map(str.split, text_of(text).split("\n")[:-1]))
        self.are_known = all(len(words) == 4 for words in lines if words[1:2] == [STARTS])
        for moment, words in enumerate(lines):
            self.take(moment, words)

    def take(self, moment: int, words: list[str]) -> None:
        """Takes a line: WHO starts WHOM NUMBER, or WHO joins WHOM."""
        self.named |= {words[0], words[2]} if len(words) in (3, 4) else set()
        if words[1:2] == [STARTS] and len(words) == 4:
            self.begins[words[2]], self.numbers[words[2]] = moment, words[3]
        elif len(words) == 3 and words[1] != STARTS:
            self.ends[words[2]] = moment

    def has_like(self, thread: str) -> bool:
        """Whether another thread that the same function began ran at the same time."""
        number = self.numbers.get(thread)
        others = [other for other, its in self.numbers.items() if its == number and other != thread] if number else []
        return any(self.overlap(thread, other) for other in others)

    def tells_of(self, thread: str) -> bool:
        """Whether it is known how a thread began: it is named, or no thread was started at all."""
        return not self.named or thread in self.named

    def overlap(self, one: str, other: str) -> bool:
        """Whether neither of two threads was joined before the other one was started."""
        last = len(self.begins) + len(self.ends)
        return self.begins[one] < self.ends.get(other, last) and self.begins[other] < self.ends.get(one, last)


@functools.lru_cache(maxsize=None)
def lives_in(folder: str) -> Lives:
    return Lives(folder)


def folder_of(trace: str) -> str:
    """The folder of a trace's recording."""
    folder = os.path.dirname(trace)
    above = os.path.dirname(folder)
    if is_in_signals(folder):
        return os.path.dirname(above)
    return above if os.path.basename(folder) == OBJECTS else folder


def thread_of(trace: str) -> str:
    return os.path.splitext(os.path.basename(trace))[0]
