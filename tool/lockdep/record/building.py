"""Where the recorders of pthreads and of Java are: built beside their sources, or in the user's cache."""
from __future__ import annotations

import os

from ..base.processes import find_command, output_of
from ..base.saying import Refusal

# What is built from what, below recorders/pthread, besides the script `build` and raw.h.
SOURCES = {"preload.so": "preload", "provoke.so": "provoke", "library.so": "library", "finish": "finish", "run": "run.c", "look": "look.c", "names": "names"}
WITHOUT_LIBDW = "no-libdw"  # is there if `names` was built without libdw
LIBDW = ("/usr/include/elfutils/libdw.h", "/usr/local/include/elfutils/libdw.h")
NO_COMPILER = 2  # the status if it is missing
UNNAMEABLE = " :$"  # LD_PRELOAD takes these for separators, or for the beginning of something else


def is_preloadable(path: str) -> bool:
    return not any(letter in path for letter in UNNAMEABLE)


def recorder_folder(home: str, needs_compiler: bool = True) -> str:
    """The folder with what was built. It is built if it is missing or older than its sources. Who doesn't need it is refused without a word if there
    is no compiler."""
    recorder = os.path.join(home, "recorders", "pthread")
    out = os.path.join(recorder, "out")
    is_installed = not os.path.exists(os.path.join(recorder, "raw.h"))
    if is_installed or (is_preloadable(recorder) and is_current(recorder, out)):
        return out
    compiler = (os.environ.get("CC") or "cc").split()[0]
    if not needs_compiler and find_command(compiler)[0] is None:
        raise Refusal("", NO_COMPILER)
    status, output = output_of([os.path.join(recorder, "build"), "--print"])
    if status:
        raise Refusal("", status)
    return os.fsdecode(output).rstrip("\n")


def is_current(recorder: str, out: str) -> bool:
    """Whether all is built, and newer than its sources."""
    try:
        common = max(changed(os.path.join(recorder, name)) for name in ("build", "raw.h"))
        sources = [(os.path.join(out, target), os.path.join(recorder, source)) for target, source in SOURCES.items()]
        is_newer = all(changed(target) >= max(common, newest(source)) for target, source in sources if os.path.exists(source))
    except OSError:
        return False
    return is_newer and not (os.path.exists(os.path.join(out, WITHOUT_LIBDW)) and any(map(os.path.exists, LIBDW)))


def agent_of_java(home: str) -> str:
    """The path of the recorder of Java, which is built if it is missing or older than its sources; empty if it can't be built. (To find that it is
    there takes the script `build` longer.)"""
    recorder = os.path.join(os.path.realpath(home), "recorders", "java")
    agent = os.path.join(recorder, "out", "lockdep-agent.jar")
    if "=" not in agent and is_newest(agent, [os.path.join(recorder, name) for name in ("build", "agent")]):
        return agent
    status, output = output_of([os.path.join(recorder, "build"), "--print"])
    return "" if status else os.fsdecode(output).rstrip("\n")


def is_newest(built: str, sources: list[str]) -> bool:
    """Whether something is there and no file of its sources is newer."""
    try:
        when = changed(built)
        files = sources + [os.path.join(folder, name) for source in sources for folder, _, names in os.walk(source) for name in names]
        return all(changed(file) <= when for file in files if os.path.isfile(file))
    except OSError:
        return False


def changed(path: str) -> int:
    return os.stat(path).st_mtime_ns


def newest(path: str) -> int:
    """When a file, or the newest file of a folder, was changed."""
    if os.path.isdir(path):
        return max([changed(os.path.join(path, name)) for name in os.listdir(path)], default=0)
    return changed(path)
