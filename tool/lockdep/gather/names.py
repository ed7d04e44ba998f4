"""The names of single locks in what is gathered. What stands after the last `#` of a name is made different for each recording: `accounts#1` of
recording 7 is `accounts#1@7`, and `accounts#rest` is `accounts#rest@7`. So no two locks get one name. A name without `#` is kept: it means the same
everywhere."""
from __future__ import annotations

import re

TYPE_CHECKING = False
if TYPE_CHECKING:
    from typing import Callable, Container

MOST_OF_NAME = 64  # bytes
REST = b"rest"  # stands for all locks of a class that aren't told apart
DIGITS = b"0123456789abcdefghijklmnopqrstuvwxyzABCDEFGHIJKLMNOPQRSTUVWXYZ"
MOST_OF_TOKEN = 6  # digits of what stands for a lock whose name would be too long
MOST_LOCKS = 8192  # names of a recording
TIMED_ENTRY = re.compile(rb"^(weak [a-z-]+ )(.*)(/[0-7] [ES][NR] )(.*)(/[0-7])$", re.DOTALL)
TIMED_ORDER, WHOLE = b"weak timed ", b"whole "  # begin entries of the table that are no order and no mark (timed.py, whole.py)
BETWEEN = b"  "  # the orders and marks of the latter; no name has a space
FIELD = re.compile(rb'(?<![^\r\n])(acq,|rel,)("(?:[^"\r\n]|"")*"|[^,\r\n]*)')  # with the name of a lock


class NoRoom(Exception):
    """A class whose name is so long that its locks can't be told apart."""


def unquoted(field: bytes) -> bytes:
    return field[1:-1].replace(b'""', b'"') if field[:1] == b'"' else field


def quoted(name: bytes) -> bytes:
    """A name as a field of a condensed trace."""
    return b'"%s"' % name.replace(b'"', b'""') if b"," in name or b'"' in name else name


def class_of(name: bytes) -> bytes:
    """What stands before the last `#`, or all of a name that isn't a single lock's."""
    return name.rpartition(b"#")[0] or name


def type_of(name: bytes) -> bytes:
    """What stands before the first `@` of the class."""
    return class_of(name).partition(b"@")[0] or class_of(name)


def at_level(trace: bytes, level: Callable[[bytes], bytes]) -> bytes:
    """Some of a trace by the classes or the types of its locks."""
    return FIELD.sub(lambda found: found.group(1) + quoted(level(unquoted(found.group(2)))), trace)


def is_lock(name: bytes) -> bool:
    """Whether a name is that of a single lock of a class, or of all its locks that aren't told apart."""
    return name.rfind(b"#") > 0


def is_rest(name: bytes) -> bool:
    return is_lock(name) and name.rpartition(b"#")[2].partition(b"@")[0] == REST


def rest_of(name: bytes) -> bytes:
    """The name for all locks of the class of a lock."""
    return class_of(name) + b"#" + REST


def token_of(number: int, room: int) -> bytes:
    """A number in at most so many digits; empty if that can't be."""
    digits = b""
    while number:
        number, digit = divmod(number, len(DIGITS))
        digits = DIGITS[digit:digit + 1] + digits
    token = digits.rjust(min(room, MOST_OF_TOKEN), b"0")
    return token if len(token) <= room and token != REST else b""


def number_in(token: bytes) -> int:
    number = 0
    for digit in token:
        number = number * len(DIGITS) + DIGITS.index(digit)
    return number


def name_in_recording(name: bytes, recording: int, place: int) -> bytes:
    """The name of a recording's lock, which is the one at this place among all its locks. If the recording's number doesn't fit in the name, a token
    stands for both, which has no `@`; if that doesn't fit either, the name stands for all locks of its class."""
    made = b"%s@%d" % (name, recording)
    if not is_lock(name) or len(made) <= MOST_OF_NAME:
        return made if is_lock(name) else name
    room = MOST_OF_NAME - len(class_of(name)) - len(b"#")
    token = b"" if is_rest(name) else token_of(recording * MOST_LOCKS + place, room)
    if not token and len(rest_of(name)) > MOST_OF_NAME:
        raise NoRoom(name)
    return class_of(name) + b"#" + token if token else rest_of(name)


def recording_of(name: bytes) -> int | None:
    """The number of the recording that a lock of what was gathered is from; None for a lock of several, and 0 for a name that nothing was gathered by."""
    tail = name.rpartition(b"#")[2]
    if not is_lock(name) or tail == REST:
        return None
    _, mark, number = tail.rpartition(b"@")
    try:
        return int(number) if mark else number_in(tail) // MOST_LOCKS
    except ValueError:
        return 0


def owner_of(key: bytes, above: Container[tuple[int, ...]]) -> tuple[int, ...]:
    """The recording that a lock is of, as far as the name says so: empty for one of several. Those are given that were gathered before, and have others."""
    name, number = name_of_key(key), ()
    while not number or number in above:
        own = recording_of(name)
        if own is None:
            break
        number += (own,)
        name = name.rpartition(b"@")[0]
    return number


def key_of(line: bytes) -> bytes:
    """The key of a record that takes or releases a lock, as NAME,SUB."""
    return line[4:].rpartition(b",")[0] if line.startswith(b"acq,") else line[4:]


def keys_in(trace: bytes) -> set[bytes]:
    """The keys of a condensed trace."""
    return {key_of(line) for line in set(trace.split(b"\n")) if line.startswith(b"acq,")}


def name_of_key(key: bytes) -> bytes:
    return unquoted(key.rpartition(b",")[0])


def with_names(trace: bytes, names: dict[bytes, bytes]) -> bytes:
    """A condensed trace in which locks have other names. It has few different lines."""
    lines = trace.split(b"\n")
    changed: dict[bytes, bytes] = {}
    for line in {line for line in lines if b"#" in line}:
        key = key_of(line)
        name = name_of_key(key)
        if name in names:
            changed[line] = line[:4] + quoted(names[name]) + line[4 + len(key) - len(",0"):]
    return b"\n".join([changed.get(line, line) for line in lines]) if changed else trace


def in_recording(trace: bytes, recording: int) -> tuple[bytes, dict[bytes, bytes]]:
    """The condensed trace of a recording with the names of its locks in what is gathered; and these names, for each lock of the recording."""
    locks = sorted({name for name in map(name_of_key, keys_in(trace)) if is_lock(name)})
    names = {name: name_in_recording(name, recording, place) for place, name in enumerate(locks)}
    return with_names(trace, names), names
