"""A recording whose traces are made again, from what its processes wrote, without touching it."""
from __future__ import annotations

import os
import re
import subprocess

from ..base.files import contents
from ..base.home import HOME
from ..base.saying import Refusal
from ..base.words import text_of
from ..record import summary
from ..record.building import recorder_folder
from ..record.folder import HISTORY, Folder
from ..record.recorders import RECORDERS
from ..record.recording import VERSION

DEFAULT_FRAMES = 3
OTHER_RECORDER = re.compile("^recorder (?!pthread$)", re.MULTILINE)  # in the settings of a recording: other recorders note no callers of locks


class Unpacked:
    """What the processes of a recording wrote, in a room, if it is there."""

    def __init__(self, folder: str, room: str) -> None:
        self.room, self.raw = room, os.path.join(room, "raw")
        self.is_there = self.unpack(folder)

    def unpack(self, folder: str) -> bool:
        own, packed = os.path.join(folder, "raw"), os.path.join(folder, "raw.tar.gz")
        if Folder(folder).mark():
            os.symlink(os.path.realpath(own), self.raw)
            return True
        if not os.path.isfile(packed):
            return False
        words = ["tar", "-C", self.room, "--no-same-owner", "-xzf", packed]
        return subprocess.run(words, stdout=subprocess.DEVNULL, stderr=subprocess.DEVNULL).returncode == 0

    def make_of_log(self, recorder: str, history: str) -> str:
        """Makes the traces of the recorder of a language, and the histories in another folder. Returns the folder of the traces."""
        from ..finish import log_traces
        folder = os.path.join(self.room, "made")
        os.mkdir(folder)
        made, _ = log_traces.finish(folder, self.raw, recorder, RECORDERS[recorder].writes_log, histories=history)
        summary.write(folder, made, recorder)
        return folder


class Remade(Unpacked):
    """A recording of pthreads whose traces can be made again."""

    def __init__(self, folder: str, room: str) -> None:
        super().__init__(folder, room)
        settings = text_of(contents(os.path.join(self.raw, "settings")) or b"") if self.is_there else ""
        self.frames = int(setting(settings, "frames") or DEFAULT_FRAMES)
        self.is_there = setting(settings, "version") == VERSION and not OTHER_RECORDER.search(settings)

    def environment(self) -> dict[str, str]:
        """The list of wrappers is the one that the recording was made with, unless another is named."""
        wrappers = os.path.join(self.raw, "wrappers")
        more = {"LOCKDEP_WRAPPERS": wrappers} if not os.environ.get("LOCKDEP_WRAPPERS") and os.path.exists(wrappers) else {}
        return dict(os.environ, **more)

    def make(self, finish: str, depth: int, history: str = "") -> str | None:
        """Makes the traces with so many callers, and the histories in another folder, if one is given. Returns the folder of the traces."""
        folder = os.path.join(self.room, str(depth))
        os.mkdir(folder)
        os.symlink("../raw", os.path.join(folder, "raw"))
        if history:
            os.symlink(os.path.realpath(history), os.path.join(folder, HISTORY))
        done = subprocess.run([finish, folder, str(depth)] + ([HISTORY] if history else []), env=self.environment(), stdin=subprocess.DEVNULL,
                              stdout=subprocess.DEVNULL, stderr=subprocess.DEVNULL)
        return folder if done.returncode == 0 else None


def setting(settings: str, name: str) -> str:
    found = re.search("^%s ([0-9]+)$" % name, settings, re.MULTILINE)
    return found.group(1) if found else ""


def finish_program() -> str | None:
    """The program that makes traces, which may have to be built first."""
    try:
        return os.path.join(recorder_folder(HOME), "finish")
    except Refusal:
        return None
