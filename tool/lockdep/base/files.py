"""Files that are read and written with care: of a recording only plain files are read, through one reader, and no more of them than is said here; and a
written file exists completely or not at all."""
from __future__ import annotations

import errno
import io
import os
import stat
import sys
from contextlib import contextmanager

from .saying import Refusal
from .words import bytes_of, counted, reason_of, text_of, visible

MOST_OF_FILE = 200_000_000  # bytes of a file of a recording that is read as a whole: a trace of as many events as one may have has less
PIECE = 1 << 20  # bytes that are read at a time of what may be of any length
MOST_OF_TEXT = 1 << 26  # bytes that are read of a text that an option names
STANDARD_OUTPUT = "-"
ELF = b"\x7fELF"

TYPE_CHECKING = False
if TYPE_CHECKING:
    from typing import BinaryIO, Iterator, TextIO


def is_file(name: str, most: int | None = None) -> bool:
    """Whether a name is that of a plain file, which has no more bytes than that. Only these are safe to open: opening a pipe would wait."""
    try:
        state = os.stat(bytes_of(name))
        return stat.S_ISREG(state.st_mode) and (most is None or state.st_size <= most)
    except (OSError, ValueError):
        return False


def opened(name: str, most: int | None = None) -> BinaryIO:
    """A plain file that has no more bytes than that. Anything else is an OSError, and is neither waited for nor read."""
    if not stat.S_ISREG(os.stat(bytes_of(name)).st_mode):
        raise OSError(errno.EINVAL, "it is no plain file")
    number = os.open(bytes_of(name), os.O_RDONLY | os.O_NONBLOCK | os.O_CLOEXEC)  # (another one may have its name by now)
    state = os.fstat(number)
    if stat.S_ISREG(state.st_mode) and (most is None or state.st_size <= most):
        return open(number, "rb")
    os.close(number)
    raise OSError(errno.EFBIG, "it has more than %s" % counted(most or 0, "byte"))


def opened_text(name: str, newline: str = "\n") -> TextIO:
    """A plain file of any length, to be read line by line."""
    return io.TextIOWrapper(opened(name), "utf-8", "surrogateescape", newline)


def pieces_of(name: str) -> Iterator[bytes]:
    """The bytes of a plain file of any length, some at a time."""
    with opened(name) as file:
        piece = file.read(PIECE)
        while piece:
            yield piece
            piece = file.read(PIECE)


def is_elf(name: str) -> bool:
    """Whether a file is a program or library, and no script."""
    try:
        with opened(name) as file:
            return file.read(len(ELF)) == ELF
    except (OSError, ValueError):
        return False


def contents(name: str, most: int = MOST_OF_FILE) -> bytes | None:
    """The bytes of a plain file, or None if they can't be read or are too many."""
    try:
        with opened(name, most) as file:
            raw = file.read(most + 1)
            return raw if len(raw) <= most else None
    except (OSError, ValueError):
        return None


def text_named(name: str, what: str, most: int = MOST_OF_TEXT) -> str:
    """The text in a file that an option names: any that can be read, also /dev/null and a pipe, which is read once."""
    if os.path.isdir(bytes_of(name)):
        raise Refusal("%s, %s, is a folder" % (visible(name), what))
    try:
        with open(bytes_of(name), "rb") as file:
            return text_from(file, name, what, most)
    except OSError as error:
        raise Refusal("%s, %s, can't be read: %s" % (visible(name), what, why_unread(error)))


def why_unread(error: OSError) -> str:
    """Why a file that an option names can't be read."""
    return "it isn't there" if isinstance(error, FileNotFoundError) else reason_of(error)


def text_from(file: BinaryIO, name: str, what: str, most: int) -> str:
    """The text that can be read from a file, which has no more bytes than that."""
    pieces, size = [], 0
    while size <= most:
        try:
            pieces.append(file.read(PIECE))
        except OSError:
            raise Refusal("%s, %s, can't be read" % (visible(name), what))
        size += len(pieces[-1])
        if not pieces[-1]:
            return text_of(b"".join(pieces))
    raise Refusal("%s, %s, has more than %s" % (visible(name), what, counted(most, "byte")))


def same_file(name: str, other: str) -> bool:
    try:
        return os.path.samefile(bytes_of(name), bytes_of(other))
    except OSError:
        return os.path.realpath(bytes_of(name)) == os.path.realpath(bytes_of(other))


def write_in_place(path: bytes, raw: bytes) -> None:
    with open(path, "wb") as file:
        file.write(raw)


def rights_of(path: bytes) -> int:
    """The permissions of a file, or those that a new one gets."""
    try:
        return stat.S_IMODE(os.stat(path).st_mode)
    except OSError:
        mask = os.umask(0)
        os.umask(mask)
        return 0o666 & ~mask


def write_whole(name: str, raw: bytes) -> None:
    """Writes a file so that it exists completely or not at all. What isn't a plain file is written to directly, and so is one in
    a folder to which nothing can be added."""
    import tempfile
    if name.startswith(("/dev/", "/proc/")) or os.path.exists(bytes_of(name)) and not is_file(name):
        return write_in_place(bytes_of(name), raw)
    path = os.path.realpath(bytes_of(name))
    folder, base = os.path.split(path)
    try:
        number, made = tempfile.mkstemp(prefix=b"." + base[:100] + b".", dir=folder)
    except PermissionError:
        if not os.access(path, os.W_OK):
            raise
        return write_in_place(path, raw)
    try:
        with os.fdopen(number, "wb") as file:
            file.write(raw)
            file.flush()
        os.chmod(made, rights_of(path))
        os.replace(made, path)
    except BaseException:
        os.unlink(made)
        raise


def write_form(name: str | None, text: str) -> None:
    """Writes a form of the findings to a file, or to standard output."""
    raw = bytes_of(text)
    try:
        if name in (None, STANDARD_OUTPUT):
            need_output()
            sys.stdout.buffer.write(raw)
            sys.stdout.buffer.flush()
        else:
            write_whole(name, raw)
    except OSError as error:
        sys.stdout = None
        names = {None: "the page", STANDARD_OUTPUT: "standard output"}
        raise Refusal("%s can't be written: %s" % (names.get(name) or visible(name), reason_of(error)))


def print_file(name: str) -> None:
    """Writes a file of this tool, such as a help text, on standard output."""
    with open(name, "rb") as file:
        write_form(STANDARD_OUTPUT, text_of(file.read()))


def complain(raw: bytes) -> None:
    """Writes on standard error. Who doesn't want to read that, or has closed it, isn't told."""
    try:
        if sys.stderr is not None:
            sys.stderr.flush()
            sys.stderr.buffer.write(raw)
            sys.stderr.flush()
    except OSError:
        sys.stderr = None


def need_output() -> None:
    """Refuses a standard output that was closed, before another file takes its place."""
    if sys.stdout is None:
        raise Refusal("the text can't be written")


@contextmanager
def writing() -> Iterator[None]:
    """While a text is written on standard output. A reader that has enough of it, as `head`, needs no message."""
    try:
        yield
    except BrokenPipeError:
        os.dup2(os.open(os.devnull, os.O_WRONLY), 1)
        raise Refusal(None)
    except OSError:
        raise Refusal("the text can't be written")


def text_in(path: str) -> str:
    """The text of a file of the recording; empty if it isn't there."""
    return text_of(contents(path) or b"")
