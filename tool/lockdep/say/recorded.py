"""A recording when its command has ended: its traces are made, perhaps again, and what was seen is said."""
from __future__ import annotations

import os

from ..base.processes import become
from ..base.saying import RUN, Refusal, say_refusal, typed, write_error
from ..record.folder import STAGE, Folder, checked, fault, remove_tree
from ..record.recorders import RECORDERS
from ..record.recording import NOTHING_TO_MAKE, read_settings

TYPE_CHECKING = False  # for a tool that checks types, it is true
if TYPE_CHECKING:
    from typing import Callable, Sequence
    from ..record.summary import Summary


def end(home: str, path: str, ended: int, status: int, is_left: bool, accepted: Sequence[str] = (), is_packed: bool = True) -> int:
    """What follows when the command has ended: its traces are made, and what was seen is said. The recording itself is packed, unless something is left
    that writes into it, or whoever calls this packs it. The result is the status of the whole recording: this one if all is well, which for `record` is
    the one that the command has ended with."""
    from ..finish import traces
    from .seen import say_accepted, say_what_was_seen
    folder = Folder(path)
    remove_tree(os.path.join(path, STAGE))
    if not os.path.isfile(os.path.join(folder.raw, "settings")):
        write_error("record: the recording is gone: %s/raw was removed while the command ran" % path)
        return status or 2
    summary = traces.make(home, folder, read_settings(folder.raw, ""), ended)
    if is_left:
        write_error("record: %s/raw is kept: `lockdep record --finish %s` makes the traces again when they have ended" % (path, typed(path)))
    elif is_packed:
        traces.pack(folder)
    seen = say_what_was_seen(path, summary, ended, accepted=accepted)
    say_accepted(summary, accepted)
    if summary.number("unreached-runs") and RUN not in os.environ:  # (`lockdep run` judges what was reached)
        seen = 2
    return status or seen


class Ended:
    """A recording whose command has ended: the status of `record`, what it says, line by line, and the summary, if there is one."""

    def __init__(self, status: int, messages: list[str], summary: Summary | None) -> None:
        self.status, self.messages, self.summary = status, messages, summary


def end_quietly(home: str, path: str, ended: int, is_left: bool, accepted: Sequence[str] = ()) -> Ended:
    """The same for what goes on to judge the recording, and packs it then: nothing is said, but returned. The command's status isn't lost in that of the
    recording."""
    return quietly(home, path, lambda: end(home, path, ended, 0, is_left, accepted, is_packed=False))


def pack(path: str) -> None:
    """Packs the recording itself, if it is there."""
    from ..finish import traces
    folder = Folder(path)
    if folder.mark():
        traces.pack(folder)


def summary_quietly(home: str, path: str, accepted: Sequence[str] = ()) -> Ended:
    """What was recorded, and what was left out but for what is accepted, in the words of `record --summary`."""
    return quietly(home, path, lambda: summary_again(home, path, accepted))


def own_summary_quietly(home: str, path: str) -> Ended:
    """What was recorded and what was left out, in the words of a recorder that makes its traces itself."""
    from .seen import say_what_was_seen_of_own
    return quietly(home, path, lambda: say_what_was_seen_of_own(path, summary_of(home, path)))


def quietly(home: str, path: str, doing: Callable[[], int]) -> Ended:
    """Does something to a recording, and keeps what it says."""
    from ..base import saying
    from ..record import summary
    messages: list[str] = []
    saying.kept = messages
    try:
        status = doing()
    except Refusal as refusal:
        say_refusal(str(refusal))
        status = refusal.status
    finally:
        saying.kept = None
    return Ended(status, messages, summary.read(path, home))


def finish_again(home: str, path: str, frames: str) -> int:
    """Makes the traces of a recording whose `record` was killed, or those of another one again."""
    from ..finish import traces
    from .seen import say_what_was_seen
    folder = Folder(checked(path))
    if not os.path.isdir(folder.path):
        raise Refusal(NOTHING_TO_MAKE % folder.path)
    folder.lock()
    is_unpacked = not folder.mark()
    if is_unpacked:
        traces.unpack(folder)
    become_script(home, folder)
    settings = read_settings(folder.raw, frames)
    if not traces.can_be_made_again(home, folder, settings):
        if is_unpacked:
            remove_tree(folder.raw)
        raise Refusal("the recording in %s can't be read, as one by another version; its traces stay as they are" % folder.path)
    running = traces.writers(folder.raw)
    try:
        folder.remove_earlier()
    except OSError as error:
        raise Refusal(fault(error, folder.path))
    summary = traces.make(home, folder, settings, None)
    for process in running:
        write_error("record: still running, and recorded only up to here: " + process)
    if running:
        write_error("record: %s/raw is kept: the same command makes the traces again when they have ended" % folder.path)
    else:
        traces.pack(folder)
    return say_what_was_seen(folder.path, summary)


def become_script(home: str, folder: Folder) -> None:
    """Becomes what makes the traces, if they are those of a recorder that does all by itself."""
    recorder = RECORDERS.get(folder.mark() or "")
    if recorder and recorder.script:
        become(recorder.starting(home) + ["--finish", folder.path], os.environ)


def summary_again(home: str, path: str, accepted: Sequence[str]) -> int:
    """Says again what was recorded. What is accepted as left out doesn't count."""
    from .seen import status_of_summary
    path = checked(path)
    return status_of_summary(path, summary_of(home, path), accepted)


def summary_of(home: str, path: str) -> Summary:
    """The summary of a recording whose traces were made."""
    from ..record import summary
    found = summary.read(path, home)
    if found is None:
        folder = Folder(path)
        raise Refusal(folder.unmade() if folder.mark() else "%s has no recording" % path)
    return found
