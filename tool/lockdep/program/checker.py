"""The proved program, which is asked for something. No shell is run."""
from __future__ import annotations

import os

from ..base.home import HOME
from ..base.saying import Refusal
from ..base.words import bytes_of, reason_of, text_of, visible

SAID_BY = "lockdep: "  # begins its line on standard error
BY_LOCKS = ["explain", "--locks", "--json", "--many", "--"]
BY_CLASSES = ["explain", "--json", "--many", "--"]
REFUSED = 2  # the least status with which the program refuses


known_version = ""  # what `run` has asked the program for already


def program() -> str:
    """The checker: the one that the variable LOCKDEP names, or the script of this tool."""
    return os.environ.get("LOCKDEP") or os.path.join(HOME, "lockdep")


class Answer:
    """What the checker wrote, its status, and what it said on standard error."""

    def __init__(self, output: bytes, status: int, said: bytes) -> None:
        self.output, self.status, self.said = output, status, said

    @property
    def reason(self) -> str:
        """Why it refused, in its own words."""
        first = text_of(self.said).split("\n")[0]
        return first[len(SAID_BY):] if first.startswith(SAID_BY) else first or "it ended with status %d" % self.status


def ask(words: list[str], with_errors: bool = False, path: str = "") -> Answer:
    """Runs the checker, or its program if that is named. With errors, its standard error is kept and not shown."""
    import subprocess
    try:
        done = subprocess.run([path or program()] + [bytes_of(word) for word in words], stdin=subprocess.DEVNULL,
                              stdout=subprocess.PIPE, stderr=subprocess.PIPE if with_errors else None)
    except OSError as error:
        raise Refusal("%s can't be run: %s" % (visible(program()), reason_of(error)), 3)
    if done.returncode < 0:
        raise Refusal("the checker was ended by signal %d" % -done.returncode)
    return Answer(done.stdout, done.returncode, done.stderr or b"")


def answer_of(words: list[str]) -> Answer:
    """The same, for words that must not be refused: the checker's own lines are on standard error if they are."""
    answer = ask(words)
    if answer.status >= REFUSED:
        raise Refusal(None, answer.status)
    return answer


def text_answer(words: list[str]) -> str:
    return text_of(answer_of(words).output)


def program_path() -> str:
    """The checker's own program, which is started often."""
    named = program()
    return text_answer(["--program"]).strip() if os.path.basename(named) == "lockdep" and is_script(named) else named


def is_script(path: str) -> bool:
    with open(path, "rb") as file:
        return file.read(2) == b"#!"


def version() -> str:
    return known_version or text_answer(["--version"]).strip()
