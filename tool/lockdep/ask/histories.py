"""What the threads of each process of a recording did, in the order in which it came. That is long, so it is made when it is asked for: from the recording
itself, which may be packed, in the folder `history` of it."""
from __future__ import annotations

import os
import tempfile

from ..record import losses, summary
from ..record.folder import HISTORY, Folder, remove_tree
from ..record.recorders import RECORDERS
from .remade import Remade, Unpacked, finish_program

CODES = [code for code in losses.NOTES if code.startswith(HISTORY + "-")]


def histories_in(folder: str) -> list[str]:
    """Those that were made, by the numbers of their processes."""
    path = os.path.join(folder, HISTORY)
    names = os.listdir(path) if os.path.isdir(path) else []
    return [os.path.join(path, name) for name in sorted(names) if name.endswith(".csv")]


def write_histories(folder: str, into: str, room: str) -> str | None:
    """Makes those of a recording in a folder. Returns the folder of the traces that were made with them, in the room; nothing if they can't be made, as of a
    recorder that keeps no order of steps, or of a recording without raw.tar.gz."""
    recorder = summary.recorder_of(folder)
    if recorder in RECORDERS and RECORDERS[recorder].has_log and RECORDERS[recorder].keeps_order:
        unpacked = Unpacked(folder, room)
        return unpacked.make_of_log(recorder, into) if unpacked.is_there else None
    remade = Remade(folder, room)
    finish = finish_program() if remade.is_there else None
    return remade.make(finish, remade.frames, into) if finish else None


def make_histories(folder: str) -> list[str] | None:
    """Makes those of a recording, and notes in its summary what isn't in them. Empty if it has none, as with `--history off`; nothing if they can't be
    made. Where nothing can be written, those that are there are taken."""
    path = os.path.join(folder, HISTORY)
    if not os.access(folder, os.W_OK) and histories_in(folder):
        return histories_in(folder)
    remove_tree(path)
    with tempfile.TemporaryDirectory() as room:
        os.mkdir(path)
        made = write_histories(folder, path, room)
        if made:
            note_left_out(folder, made)
    if not os.listdir(path):
        os.rmdir(path)
    Folder(folder).list_made()
    return histories_in(folder) if made else None


def note_left_out(folder: str, made: str) -> None:
    """Takes what the histories lack over from the summary that was made with them."""
    ours, theirs = summary.read(folder), summary.read(made, is_first=True)
    if ours is None or theirs is None:
        return
    ours.counts = [count for count in ours.counts if count.code not in CODES] + [count for count in theirs.counts if count.code in CODES]
    summary.write(folder, ours, summary.recorder_of(folder))
