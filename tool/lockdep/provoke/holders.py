"""What holds the threads of a program back in the runs of `lockdep provoke`: one entry for each recorder whose programs can be."""
from __future__ import annotations

import os
import re

from ..base.files import contents
from ..base.processes import output_of
from ..base.saying import Refusal
from ..record.building import is_preloadable, recorder_folder
from ..record.recording import with_asan_after
from .table import Modules, Texts

LIBRARY = "provoke.so"
ARENA = ".arena"  # of a file that a recorded process has from its first lock on
ACQUISITION = b"\nA "  # of a line that a recorded process of Python or Java has written then
PLAIN = re.compile(r"-javaagent:[\w/.+-]*")


class Holder:
    """What holds threads back: here of programs whose language has words for its places."""

    numbers: type[Modules] = Texts  # what the numbers of callers and locks mean

    def __init__(self, home: str) -> None:
        self.home = home

    def command(self, words: list[str]) -> list[str]:
        """How a command is run."""
        return words

    def environment(self, words: list[str]) -> dict[str, str]:
        """What a run of a command needs besides the names of its plan and of its table."""
        raise NotImplementedError

    def takes_locks(self, path: str) -> bool:
        """Whether a file of what recorded processes wrote says that one of them has taken a lock."""
        return ACQUISITION in (contents(path) or b"")


class Preloaded(Holder):
    """A library that is preloaded, for locks of pthreads."""

    numbers = Modules

    def __init__(self, home: str) -> None:
        super().__init__(home)
        self.library = os.path.join(recorder_folder(home), LIBRARY)
        if not is_preloadable(self.library):
            raise Refusal("%s can't be preloaded, since its path has a space, colon or dollar, which LD_PRELOAD takes for something else" % self.library)

    def environment(self, words: list[str]) -> dict[str, str]:
        others = os.environ.get("LD_PRELOAD", "")
        return with_asan_after(dict(os.environ, LD_PRELOAD=self.library + (":" + others if others else "")))

    def takes_locks(self, path: str) -> bool:
        return path.endswith(ARENA)


class OfPython(Holder):
    """The recorder of Python programs, which replaces their locks."""

    def environment(self, words: list[str]) -> dict[str, str]:
        hook = os.path.join(self.home, "recorders", "python", "lockdep_record", "hook")
        others = os.environ.get("PYTHONPATH", "")
        return dict(os.environ, PYTHONPATH=hook + (":" + others if others else ""))


class OfJava(Holder):
    """The agent of the recorder of Java programs."""

    def __init__(self, home: str) -> None:
        super().__init__(home)
        status, output = output_of([os.path.join(home, "recorders", "java", "build"), "--print"])
        if status:
            raise Refusal("", status)
        self.options = ["-javaagent:" + os.fsdecode(output).rstrip("\n")]
        if not PLAIN.fullmatch(self.options[0]):
            self.options.insert(0, "-Xshare:off")  # or the JVM would warn about what the agent does for such a path

    def command(self, words: list[str]) -> list[str]:
        return [words[0], *self.options, *words[1:]] if is_java(words) else words

    def environment(self, words: list[str]) -> dict[str, str]:
        if is_java(words):
            return dict(os.environ)
        options = [option if " " not in option else '"%s"' % option for option in self.options]
        return dict(os.environ, JAVA_TOOL_OPTIONS=" ".join(filter(None, [os.environ.get("JAVA_TOOL_OPTIONS"), *options])))


def is_java(words: list[str]) -> bool:
    return os.path.basename(words[0]) == "java"


HOLDERS: dict[str, type[Holder]] = {"preloaded": Preloaded, "python": OfPython, "java": OfJava}
