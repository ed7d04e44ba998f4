"""The commands: from a command line to what does it."""
from __future__ import annotations

import os
import resource
import signal

from ..base.command_line import Help, Words, help_file
from ..base.processes import IGNORED_HERE, become
from ..base.saying import RUN, Refusal, say_refusal
from ..record import run_settings
from .options import COMMANDS, parse

UNJUDGED = 2  # the status if nothing can be said of the command's locks
FEWEST_FILES = 16  # that have to be open at once
# What another recording, or another run, leaves in the environment.
OF_OTHERS = (RUN, run_settings.VARIABLE, "LOCKDEP_TRACES", "LOCKDEP_PYTHON", "LOCKDEP_JAVA")
# What the last part of a run, and the scripts of some recorders, need. Without one of them they would fail half-way.
NEEDED = "cat chmod cp cut dirname find grep ln mkdir mktemp mv readlink rm sed sort tr xargs".split()


def main(home: str, words: list[str]) -> None:
    """Does what the command line says, and ends with its status."""
    undo_start()
    try:
        status = {"run": run, "record": record, "provoke": provoke}[words[0]](home, words[1:])
    except Help as asked:
        status = print_help(help_file(home, words[0], asked.is_all))
    except Refusal as refusal:
        if str(refusal):
            say_refusal(str(refusal))
        status = refusal.status
    except Exception:  # a fault of the driver's isn't taken for a result
        import traceback
        traceback.print_exc()
        status = UNJUDGED
    os._exit(status)


def undo_start() -> None:
    """Takes back what Python has changed for what this process becomes. The shell that started it says what was ignored, and whether LC_CTYPE was
    set."""
    for number in (0, 1, 2):
        open_if_closed(number)
    ctype, _, ignored = os.environ.pop("LOCKDEP_STARTED", "unset ").partition(" ")
    if ctype == "unset":
        os.environ.pop("LC_CTYPE", None)
    mask = int(ignored or "0", 16)
    for number in (signal.SIGPIPE, signal.SIGXFSZ):
        if not mask >> (number - 1) & 1:
            IGNORED_HERE.append(number)
    if signal.getsignal(signal.SIGINT) is signal.default_int_handler:
        signal.signal(signal.SIGINT, signal.SIG_DFL)


def open_if_closed(number: int) -> None:
    """Opens a standard file that is closed, for this process alone, so that no other file takes its number."""
    try:
        os.fstat(number)
    except OSError:
        os.open(os.devnull, os.O_RDWR)


def leave_others() -> None:
    """Leaves another recording or run: what is recorded here is no part of it."""
    paths = os.environ.get("PYTHONPATH")
    if paths and "LOCKDEP_PYTHON" in os.environ:
        os.environ["PYTHONPATH"] = ":".join(path for path in paths.split(":") if not path.endswith("/lockdep_record/hook"))
    for name in OF_OTHERS:
        os.environ.pop(name, None)


def look_at_limits() -> None:
    files = resource.getrlimit(resource.RLIMIT_NOFILE)[0]
    if 0 <= files < FEWEST_FILES:
        raise Refusal("16 files have to be open at once, and `ulimit -n` is %d" % files)
    folders = os.environ.get("PATH", "/bin:/usr/bin").split(":")
    missing = [name for name in NEEDED if not any(os.access(os.path.join(folder, name), os.X_OK) for folder in folders)]
    if missing:
        raise Refusal("not on the PATH, and needed: " + ", ".join(missing))


def print_help(path: str) -> int:
    with open(path, "rb") as file:
        text = file.read()
    try:
        while text:
            text = text[os.write(1, text):]
        return 0
    except OSError:
        return 2


def run(home: str, words: list[str]) -> int:
    leave_others()
    os.environ[RUN] = home
    look_at_limits()
    from . import running
    line = parse(COMMANDS["run"], words)
    return running.run(home, line)


def provoke(home: str, words: list[str]) -> int:
    leave_others()
    os.environ[RUN] = home
    look_at_limits()
    line = parse(COMMANDS["provoke"], words)
    os.environ.setdefault("LOCKDEP", os.path.join(home, "lockdep"))
    from ..provoke import provoke as provoking
    return provoking.provoke(home, line)


def record(home: str, words: list[str]) -> int:
    from ..say import recorded
    if words[:1] == ["--end"]:
        status = int(words[2])
        return recorded.end(home, words[1], status, status, words[3:] == ["left"])
    line = parse(COMMANDS["record"], words)
    if line.has("--finish"):
        return recorded.finish_again(home, line.last("--finish"), line.last("--frames"))
    if line.has("--histories"):
        return histories(line.last("--histories"))
    if line.has("--summary"):
        return recorded.summary_again(home, line.last("--summary"), line.values.get("--accept-left-out", []))
    leave_others()
    if not line.rest:
        raise Refusal("which command? `lockdep record --help` says how to call this")
    look_at_limits()
    return start_record(home, line)


def histories(folder: str) -> int:
    from ..ask.histories import make_histories
    from ..record.complete import check_folder
    check_folder(folder)
    made = make_histories(folder)
    if made is None:
        raise Refusal("the histories of %s can't be made: it has no raw.tar.gz, or its recorder keeps no order of steps" % folder)
    os.write(1, "".join(os.fsencode(path).decode("utf-8", "replace") + "\n" for path in made).encode())
    return 0


def start_record(home: str, line: Words) -> int:
    from ..record import recording
    from ..record.folder import DEFAULT_FOLDER
    from ..record.recorders import RECORDERS
    recorder, folder = RECORDERS[line.last("--recorder", "pthread")], line.last("-o", DEFAULT_FOLDER)
    if recorder.script:
        recording.pass_on(recorder, line.last("--signals"), line.last("--history"))
        become(recorder.starting(home) + ["-o", recording.checked(folder), "--either"] + line.rest, os.environ)
    options = recording.RecordOptions(folder, recorder, line.has("--recorder"), line.last("--frames"), not line.has("--no-wait"),
                                      line.last("--signals"), line.last("--history"))
    recording.begin(home, options, line.rest, os.path.join(home, "recorders", "pthread", "record"))
    return 0
