"""From what a program's processes wrote to the traces: making them, packing the recording, and making them again."""
from __future__ import annotations

import os
import zlib
from typing import NamedTuple

from ..base.files import is_elf
from ..base.processes import PIECE, output_of, run, start, status_of
from ..base.saying import Refusal, typed, write_error
from ..record.building import recorder_folder
from ..record.folder import Folder, fault, remove, remove_tree
from ..record.recorders import RECORDERS
from ..record.recording import NOTHING_TO_MAKE, Settings
from ..record.summary import STARTED, Summary, put, read, write
from . import finishes

GZIP = 31  # the form of a compressed file, and the largest window
OF_LOOK = "LOCKDEP_LOOK"  # tells `finish` the path of `look`
NOT_RUN = (126, 127)  # the statuses of a command that couldn't be run


def make(home: str, folder: Folder, settings: Settings, ended: int | None) -> Summary:
    """Makes the traces of a recording, and its summary."""
    if not os.environ.get("LOCKDEP_WRAPPERS") and os.path.isfile(os.path.join(folder.raw, "wrappers")):
        os.environ["LOCKDEP_WRAPPERS"] = os.path.join(folder.raw, "wrappers")
    unmade = "the traces can't be made; %s/raw has the recording, and `lockdep record --finish %s` tries again" % (folder.path, typed(folder.path))
    try:
        try:
            made = make_files(home, folder.path, folder.raw, settings)
        finally:
            folder.list_made()
        summary = made.summary
        if summary is None:
            raise Refusal(unmade)
        put(os.path.join(folder.raw, "settings"), settings.text())  # traces that are made again have as many callers as these
        complete(home, folder, settings, summary, made.looked, ended)
        write(folder.path, summary, settings.recorder)
        folder.list_made()
    except OSError as error:
        write_error("record: " + fault(error, folder.path))
        raise Refusal(unmade)
    return summary


class Made(NamedTuple):
    """What was made of a recording: a first summary, unless the traces can't be made, and what `look` wrote of the files that it calls loaded."""

    summary: Summary | None
    looked: bytes = b""


def make_files(home: str, path: str, raw: str, settings: Settings) -> Made:
    """Makes the traces of a recording in a folder."""
    made = finishes.finish(settings.recorder, path, raw)
    if made is not None:
        made.home = home
        return Made(made)
    finisher = RECORDERS[settings.recorder].finisher
    if finisher:
        status = run([os.path.join(home, "recorders", finisher), path])
        return Made(read(path, home, is_first=True) if status == 0 else None)
    looked = run_finish(home, path, settings)
    return Made(read(path, home, is_first=True), looked)


def run_finish(home: str, path: str, settings: Settings) -> bytes:
    """Runs the program that makes the traces and their summary at last, and then becomes `look`, whose output this is."""
    built = recorder_folder(home)
    names = os.path.join(built, "names")
    if os.environ.get("LOCKDEP_NAMES") != "places" and is_elf(names):  # (without libdw it is a script that finds nothing)
        output_of([names, path], is_quiet=True)  # (what can't be found has no type)
    frames = [settings.frames] if settings.frames else []
    os.environ[OF_LOOK] = os.path.join(built, "look")
    try:
        return output_of([os.path.join(built, "finish"), path] + frames)[1]
    finally:
        del os.environ[OF_LOOK]


# ---- The summary.

def complete(home: str, folder: Folder, settings: Settings, summary: Summary, looked: bytes, ended: int | None) -> None:
    """Adds what isn't in the recording itself to its first summary: what the programs' files show."""
    from . import programs
    look, is_passed = os.path.join(recorder_folder(home), "look"), settings.named == "yes"
    if RECORDERS[settings.recorder].is_in_process:
        if not summary.number("processes") and ended in NOT_RUN:
            say_not_run(summary)
        note_taken_over(folder, summary)
        finishes.note_others(settings.recorder, folder.raw, settings.program, summary, look, is_passed)
        summary.drop(STARTED)
        return
    found = programs.Programs(folder.path, folder.raw, settings.program, summary, look, is_passed, looked)
    if not summary.number("processes") and ended in NOT_RUN:
        say_not_run(summary)
    else:
        if not summary.number("processes") and os.path.isfile(settings.program):
            summary.drop("unseen")  # the file shows more than `finish` can guess
        found.note_reasons()
    note_taken_over(folder, summary)
    found.note_rust()
    found.note_others()
    if "sem" not in settings.also.split(","):
        found.note_semaphores()
    found.note_unreached()


def say_not_run(summary: Summary) -> None:
    summary.drop("unseen")
    summary.add_unseen("not-run")


def note_taken_over(folder: Folder, summary: Summary) -> None:
    """Notes that a recording inside this one took over, which says enough if nothing else was seen."""
    if os.path.isfile(os.path.join(folder.raw, "taken-over")):
        if not summary.operations():
            summary.drop("unseen")
        summary.add_unseen("taken-over")


# ---- The recording, packed.

def pack(folder: Folder) -> None:
    """Keeps the recording beside its traces, so that they can be made again. Its files are large and nearly all holes, which tar leaves out; without
    tar nothing is kept."""
    packed = os.path.join(folder.path, "raw.tar.gz")
    try:
        is_kept = write_packed(packed, os.path.dirname(folder.raw))
    except OSError:
        is_kept = False
    if not is_kept:
        remove(packed)
    remove_tree(folder.raw)
    try:
        folder.list_made()
    except OSError as error:
        write_error("record: " + fault(error, folder.path))


def write_packed(packed: str, above: str) -> bool:
    own, given = os.pipe()
    quiet = os.open(os.devnull, os.O_WRONLY)
    child = start(["tar", "-C", above, "-S", "-cf", "-", "raw"], given, quiet)
    os.close(given)
    os.close(quiet)
    press = zlib.compressobj(1, zlib.DEFLATED, GZIP)
    try:
        with open(packed, "wb") as file:
            while True:
                piece = os.read(own, PIECE)
                if not piece:
                    break
                file.write(press.compress(piece))
            file.write(press.flush())
    finally:
        os.close(own)
        status = status_of(child)
    return status == 0


def unpack(folder: Folder) -> None:
    """Brings a recording back whose traces were made."""
    packed = os.path.join(folder.path, "raw.tar.gz")
    if "raw.tar.gz" not in folder.listed() or not os.path.isfile(packed):
        raise Refusal(NOTHING_TO_MAKE % folder.path)
    if run(["tar", "-C", folder.path, "--no-same-owner", "--force-local", "-xzf", packed]) != 0 or not folder.mark():
        remove_tree(folder.raw)
        raise Refusal("%s can't be unpacked" % packed)


def can_be_made_again(home: str, folder: Folder, settings: Settings) -> bool:
    """Whether as much can be made of the recording as its traces have, if it has any. That is tried elsewhere: a recording by another version may not
    be readable, and then its traces have to stay."""
    earlier = read(folder.path)
    if earlier is None:
        return True
    again = os.path.join(folder.raw, "again")
    remove_tree(again)
    os.makedirs(again, exist_ok=True)
    os.symlink("..", os.path.join(again, "raw"))
    try:
        made = make_files(home, again, os.path.join(again, "raw"), settings).summary
        return made is not None and made.number("processes") >= earlier.number("processes")
    except (OSError, Refusal):
        return False
    finally:
        remove_tree(again)


def writers(raw: str) -> list[str]:
    """The processes that still write into the recording."""
    found, wanted = [], os.fsencode(raw + "/")
    for process in os.listdir("/proc"):
        try:
            if process.isdigit() and wanted in read_bytes("/proc/%s/maps" % process):
                found.append("%s (%s)" % (process, os.fsdecode(read_bytes("/proc/%s/comm" % process).rstrip(b"\n"))))
        except OSError:
            continue
    return found


def read_bytes(path: str) -> bytes:
    with open(path, "rb") as file:
        return file.read()
