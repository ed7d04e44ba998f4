"""Which threads were started alike and ran at the same time, by the file of starts and joins."""
from __future__ import annotations

import os

from cases import OfARecording
from lockdep.ask.lives import Lives

NAMES = {"M": "other-9", "X": "other-7", "1": "task-0001", "2": "task-0002", "3": "task-0003"}


class OfLives(OfARecording):
    """Lines of `lives` in short: M is the thread that the program began with, X another one without a trace, and 1 that of the first trace. `1/5` was
    started by the function with the number 5."""

    def lives(self, text: str) -> Lives:
        lines = [[NAMES.get(part, part) for word in line.split() for part in word.split("/")] for line in text.split(", ")]
        self.write("lives", "".join(" ".join(line) + "\n" for line in lines))
        return Lives(self.folder)


class LikeThreads(OfLives):
    def test_threads_that_one_function_began_and_that_ran_at_the_same_time(self) -> None:
        for text, is_like in (
                ("M starts 1/5, M starts 2/5", True),
                ("M starts 1/5, M starts 2/5, M joins 1, M joins 2", True),
                ("M starts 2/5, M starts 1/5, M joins 1", True),
                ("M starts 1/5, 1 starts 2/5, M joins 1", True),
                ("M starts 1/5, M starts X/5, M joins X, M joins 1", True),
                ("M starts 1/5, M joins 1, M starts 2/5, M joins 2", False),
                ("M starts 2/5, M joins 2, M starts 1/5", False),
                ("M starts 1/5, M joins 1, M starts X/5", False),
                ("M starts 1/5, M starts 2/6", False),
                ("M starts 1/5", False),
                ("M starts 2/5, M starts 3/5", False),
                ("1 starts 2/5, 1 starts 3/5", False)):
            self.assertIs(self.lives(text).has_like("task-0001"), is_like, text)

    def test_whether_the_numbers_of_all_are_known(self) -> None:
        for text, are_known in (("M starts 1/5, M joins 1", True), ("M starts 1, M starts 2/5", False), ("M starts 1", False), ("M joins 1", True)):
            self.assertIs(self.lives(text).are_known, are_known, text)

    def test_without_the_file_nothing_is_known(self) -> None:
        self.assertIs(Lives(self.folder).are_known, False)

    def test_an_empty_file_says_that_no_thread_was_started(self) -> None:
        self.write("lives", "")
        lives = Lives(self.folder)
        self.assertEqual((lives.are_known, lives.tells_of("task-0001"), lives.has_like("task-0001")), (True, True, False))

    def test_of_whom_it_tells(self) -> None:
        lives = self.lives("1 starts 2/5")
        self.assertEqual([lives.tells_of("task-000%d" % number) for number in (1, 2, 3)], [True, True, False])

    def test_a_line_that_isnt_right_says_nothing(self) -> None:
        lives = self.lives("M starts 1/5, M ends, M joins, M joins 1 2 3, starts 2")
        self.assertEqual((lives.begins, lives.ends, lives.are_known), ({"task-0001": 0}, {}, True))
        os.unlink(self.path("lives"))
