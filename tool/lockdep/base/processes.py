"""Starting other programs and reading what they write. (`subprocess` takes longer to import than what is started here takes to run.)"""
from __future__ import annotations

import os

try:
    import _signal as signal  # what `signal` puts around it takes longer to import than the driver
except ImportError:
    import signal

TYPE_CHECKING = False  # for a tool that checks types, it is true
if TYPE_CHECKING:
    from typing import Mapping

PIECE = 65536
NOT_STARTED = 127


def start(words: list[str], output: int | None = None, errors: int | None = None, folder: str | None = None) -> int:
    """Starts a program, with its output and its messages where they should go. The result is its process."""
    child = os.fork()
    if child:
        return child
    try:
        if folder is not None:
            os.chdir(folder)
        if output is not None:
            os.dup2(output, 1)
        if errors is not None:
            os.dup2(errors, 2)
        become(words, os.environ)
    finally:
        os._exit(NOT_STARTED)


IGNORED_HERE: list[int] = []  # signals that Python ignores, and that what started this process didn't


def become(words: list[str], environment: Mapping[str, str]) -> None:
    """Becomes another program, which gets the signals as this one got them."""
    for number in IGNORED_HERE:
        signal.signal(number, signal.SIG_DFL)
    os.execvpe(words[0], words, environment)


def status_of(child: int) -> int:
    _, status = os.waitpid(child, 0)
    return 128 + os.WTERMSIG(status) if os.WIFSIGNALED(status) else os.WEXITSTATUS(status)


def run(words: list[str]) -> int:
    """Runs a program and returns its status."""
    return status_of(start(words))


def output_of(words: list[str], is_quiet: bool = False, folder: str | None = None) -> tuple[int, bytes]:
    """Runs a program, and returns its status and what it wrote. Its messages are dropped if it is to be quiet."""
    own, given = os.pipe()
    errors = os.open(os.devnull, os.O_WRONLY) if is_quiet else None
    child = start(words, given, errors, folder)
    os.close(given)
    if errors is not None:
        os.close(errors)
    pieces = [b""]
    while len(pieces) == 1 or pieces[-1]:
        pieces.append(os.read(own, PIECE))
    os.close(own)
    return status_of(child), b"".join(pieces)


def find_command(name: str) -> tuple[str | None, int]:
    """The file that a command is, looked for as the system does; or none, and the status 127 if there is no such command, or 126 if it
    can't be run."""
    if "/" in name:
        return (name, 0) if is_runnable(name) else (None, 126 if os.path.exists(name) else 127)
    status = 127
    for folder in os.environ.get("PATH", "/bin:/usr/bin").split(":") if name else []:
        path = (folder or ".") + "/" + name
        if is_runnable(path):
            return path, 0
        if os.path.exists(path):
            status = 126
    return None, status


def is_runnable(path: str) -> bool:
    return os.path.isfile(path) and os.access(path, os.X_OK)
