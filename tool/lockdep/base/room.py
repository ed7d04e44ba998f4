"""A folder for temporary files, which is removed again."""
from __future__ import annotations

import contextlib
import itertools
import os
import shutil

from .files import opened

BOOT = "/proc/sys/kernel/random/boot_id"

TYPE_CHECKING = False
if TYPE_CHECKING:
    from tempfile import TemporaryDirectory
    from typing import Iterator

numbers = itertools.count(1)  # one room may be in use beside another one


def room_for(folder: str) -> Room | TemporaryDirectory:
    """A room in a recording's folder, or elsewhere if nothing can be written there."""
    from tempfile import TemporaryDirectory
    return Room(folder) if os.access(folder, os.W_OK) else TemporaryDirectory(prefix="lockdep-")


class RoomMissing(Exception):
    """The folder can't be made."""


class Room:
    """A folder inside another one, for as long as it is needed."""

    def __init__(self, inside: str) -> None:
        self.path = os.path.join(os.path.abspath(inside), ".lockdep-%d-%d" % (os.getpid(), next(numbers)))

    def __enter__(self) -> str:
        try:
            os.mkdir(self.path, 0o700)
        except OSError as error:
            raise RoomMissing(self.path) from error
        return self.path

    def __exit__(self, *_: object) -> None:
        shutil.rmtree(self.path, ignore_errors=True)


# ---- Of a process that may be killed.

@contextlib.contextmanager
def temporary_files() -> Iterator[None]:
    """Has the temporary files of this process, and of those that it starts, in a folder that it has locked. Those that nobody has locked are removed, since
    their processes were killed. The name has the start of the system: of processes of other machines locks say nothing."""
    import glob
    import tempfile
    with contextlib.ExitStack() as ended:
        with contextlib.suppress(OSError):
            with opened(BOOT) as file:
                begin = "lockdep-%s-" % file.read(8).decode()
            for path in glob.glob(os.path.join(glob.escape(tempfile.gettempdir()), begin + "*")):
                with contextlib.suppress(OSError), locked(path):
                    shutil.rmtree(path, ignore_errors=True)
            room = tempfile.mkdtemp(prefix=begin)
            ended.callback(shutil.rmtree, room, ignore_errors=True)
            ended.enter_context(locked(room))
            tempfile.tempdir = os.environ["TMPDIR"] = room
        yield


@contextlib.contextmanager
def locked(path: str) -> Iterator[None]:
    """A folder of one's own, locked. An OSError says that it isn't, or that another process has locked it, or removed it."""
    import fcntl
    folder = os.open(path, os.O_RDONLY | os.O_DIRECTORY | os.O_NOFOLLOW)
    try:
        fcntl.flock(folder, fcntl.LOCK_EX | fcntl.LOCK_NB)
        if os.fstat(folder).st_uid != os.geteuid() or not os.path.samestat(os.fstat(folder), os.stat(path)):
            raise OSError
        yield
    finally:
        os.close(folder)
