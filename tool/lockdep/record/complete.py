"""Whether a folder has a recording, and all of it."""
from __future__ import annotations

import errno
import os
import stat

from ..base.files import MOST_OF_FILE, is_file, text_in
from ..base.saying import Refusal
from ..base.words import counted, reason_of, visible
from .folder import HISTORY, OBJECTS, OF_PROVOKE, PAGE, SIGNALS, Folder, is_in_signals
from .kernels import is_of_kernel, traces_of

LISTED = "RECORDED"
GATHERED = "GATHERED"  # the mark of a folder that `lockdep gather` made
OF_GATHER = "%s was made by `lockdep gather`, and is no recording: `lockdep gather -o FOLDER` of it says what is in it"
UNREAD = ("raw.tar.gz", PAGE, OF_PROVOKE)  # of a recording: no report is made from these
UNMADE = "%s has a recording whose traces weren't made: `lockdep record --finish` of that folder makes them"


def is_unmade(folder: str) -> bool:
    """Whether a folder has a recording whose traces weren't made, since its run was killed."""
    return not is_file(os.path.join(folder, "SUMMARY")) and is_file(os.path.join(folder, "raw", "settings"))


def is_gathered(folder: str) -> bool:
    return is_file(os.path.join(folder, GATHERED))


def check_files(folder: str) -> None:
    """Refuses a folder in which something that is read is no plain file, has too many bytes, lies elsewhere, or has a name that can't be shown."""
    names = [LISTED] * os.path.lexists(os.path.join(folder, LISTED)) + [name for name in Folder(folder).names() if name not in UNREAD]
    inside = os.path.join(os.path.realpath(folder), "")
    for name in names:
        check_file(folder, name, inside)
    for path in traces_of(folder) if is_of_kernel(folder) else ():
        check_file(folder, os.path.relpath(path, folder), inside)


def check_file(folder: str, name: str, inside: str) -> None:
    path = os.path.join(folder, name)
    reason = why_unread(path, inside) if visible(name) == name else "its name can't be shown"
    if reason:
        raise Refusal("%s can't be read: %s: %s" % (visible(folder), visible(name), reason))


def why_unread(path: str, inside: str) -> str:
    """Why a file, or a folder of a recording, isn't read; empty if it is. What is inside the recording's folder is given by its real path."""
    try:
        state = os.lstat(path)
        if stat.S_ISLNK(state.st_mode) or ".." in path.split(os.sep):
            state = os.stat(path)
            if not os.path.realpath(path).startswith(inside):
                return "it leads out of the recording"
    except OSError as error:
        return reason_of(error)
    is_folder = os.path.basename(path) in (OBJECTS, SIGNALS, HISTORY) or is_in_signals(path)
    if stat.S_IFMT(state.st_mode) != (stat.S_IFDIR if is_folder else stat.S_IFREG):
        return "it is no folder" if is_folder else "it is no plain file"
    if not os.access(path, os.R_OK):
        return os.strerror(errno.EACCES)
    is_long = state.st_size > MOST_OF_FILE and os.path.basename(os.path.dirname(path)) != HISTORY  # (that is read line by line)
    return "it has more than %s" % counted(MOST_OF_FILE, "byte") if is_long else ""


def why_none(folder: str) -> str:
    """What a folder that has something lacks for a recording, or for what was gathered."""
    names = os.listdir(folder) if os.path.isdir(folder) else []
    odd = next((name for name in ("SUMMARY", GATHERED) if name in names), "")
    if odd:
        return ": its file %s is no plain file" % odd
    return ": it has neither a file SUMMARY nor a file %s" % GATHERED if names else ""


def need_recording(folder: str) -> None:
    """Refuses a folder that has no recording, or one whose traces weren't made."""
    name = visible(folder)
    if is_file(os.path.join(folder, "SUMMARY")):
        return
    if is_gathered(folder):
        raise Refusal(OF_GATHER % name)
    if is_unmade(folder):
        raise Refusal(UNMADE % name)
    raise Refusal("%s has no recording%s" % (name, why_none(folder)))


def check_folder(folder: str) -> None:
    """Refuses a folder whose recording isn't all there, or can't be read."""
    name = visible(folder)
    if os.path.isdir(folder) and not os.access(folder, os.R_OK | os.X_OK):
        raise Refusal("%s can't be read: %s" % (name, os.strerror(errno.EACCES)))
    check_files(folder)
    need_recording(folder)
    for line in text_in(os.path.join(folder, LISTED)).split("\n"):
        is_trace = line.endswith(".csv") and line.startswith(("task-", OBJECTS + "/task-", SIGNALS + "/"))
        if is_trace and not os.path.exists(os.path.join(folder, line)):
            raise Refusal("%s is incomplete: %s, which RECORDED lists, is missing" % (name, visible(line)))
