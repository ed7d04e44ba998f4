"""The tasks of `lockdep gather`, which a process of its own does, here or for a worker of Dask: to read a group of recordings, and to merge what several
groups say. A task is JSON with results of others behind it, and so is its result, which says on which host and by which tool it was made: nothing of them is
code, so they may come from elsewhere."""
from __future__ import annotations

import functools
import hashlib
import os
import socket
import subprocess
import sys
from typing import Iterator

from ..base.home import HOME
from ..base.saying import Refusal
from ..base.words import bytes_of, reason_of, text_of
from .facts import Facts, Lacking, Program, TooMuch, apart, joined, merged
from .memory import limited_memory
from .nights import Kept
from .orders import number_of_words, words_of_number
from .recordings import Bad, Task, facts_of

TOOL = os.path.join(HOME, "tool", "lockdep")
START = ["-I", "-S", os.path.join(TOOL, "parts.py")]


# ---- By what.

@functools.lru_cache(maxsize=None)
def made_by(program: str) -> dict[str, str]:
    """The version and the sum of the tool and of the program here. Results of others aren't taken."""
    tool = hashlib.sha256()
    for folder, folders, names in sorted(os.walk(TOOL)):
        for name in sorted(name for name in names if name.endswith(".py")):
            tool.update(bytes_of(name) + b"\0" + bytes_in(os.path.join(folder, name)))
    version = subprocess.run([program, "--version"], stdin=subprocess.DEVNULL, stdout=subprocess.PIPE, stderr=subprocess.DEVNULL).stdout
    return {"version": text_of(version).strip(), "tool": tool.hexdigest(), "program": hashlib.sha256(bytes_in(program)).hexdigest()}


def bytes_in(path: str) -> bytes:
    with open(path, "rb") as file:
        return file.read()


# ---- Doing.

def read_group(task: Task, group: list[tuple[int, str]]) -> Facts:
    """What the recordings of a group say, which are given by number and path. Those that can't be gathered are named in it."""
    bad = Facts()

    def parts() -> Iterator[Facts]:
        for number, path in group:
            try:
                yield facts_of(task, number, path)
            except Bad as found:
                bad.bad.append(((number,), found.why, found.may_differ))
        yield bad
    return merged(task.program, parts())


def read_apart(head: dict) -> Facts:
    """The same, by a process for each recording, since one that read all of them was ended."""
    parts = []
    for number, path in head["group"]:
        task = joined(dict(head, apart=False, group=[[number, path]]), [])
        done = subprocess.run([sys.executable, *START, "gather-task"], input=task, stdout=subprocess.PIPE)
        if done.returncode:
            parts.append(Facts())
            parts[-1].bad.append(((number,), "the process that read it was ended: is there enough memory?", False))
        else:
            parts.append(Facts.unpacked(payload_of(done.stdout)))
    return merged(Program(head["program"]), parts)


def payload_of(raw: bytes) -> bytes:
    """What the result of a task is, of this machine."""
    head, parts = apart(raw)
    if head["lacks"]:
        raise Lacking(head["lacks"])
    refusal = refusal_in(head)
    if refusal:
        raise refusal
    return parts[0]


def refusal_in(said: dict) -> Refusal | None:
    """What the head of a result says that can't be done at all."""
    if not said["refused"]:
        return None
    line, status = said["refused"]
    return TooMuch(line, number_of_words(said["largest"])) if said["largest"] is not None else Refusal(line, status)


def done_of(head: dict, parts: list[bytes]) -> Facts:
    if head["task"] == "merge":
        return merged(Program(head["program"]), map(Facts.unpacked, parts))
    if head["apart"]:
        return read_apart(head)
    with limited_memory():
        return read_group(Task(Program(head["program"]), head["accepted"], head["lot"], Kept(head["since"], head["forgotten"])), head["group"])


def result_of(raw: bytes) -> bytes:
    """Does a task. What this machine lacks, and what can't be done at all, is said in the result."""
    head, parts = apart(raw)
    said: dict = {"host": socket.gethostname(), "lacks": "", "refused": None, "largest": None}
    try:
        said.update(made_by(head["program"]))
        return joined(said, [done_of(head, parts).packed()])
    except Lacking as lacking:
        said["lacks"] = str(lacking)
    except Refusal as refusal:
        said["refused"] = [refusal.line, refusal.status]
        said["largest"] = words_of_number(refusal.largest) if isinstance(refusal, TooMuch) else None
    except OSError as error:  # (what a recording raises makes that one bad)
        said["lacks"] = reason_of(error)
    except MemoryError:
        said["lacks"] = "there isn't enough memory"
    return joined(said, [b""])


def do_one(words: list[str]) -> int:
    """Does the task on standard input."""
    sys.stdout.buffer.write(result_of(sys.stdin.buffer.read()))
    sys.stdout.buffer.flush()
    return 0
