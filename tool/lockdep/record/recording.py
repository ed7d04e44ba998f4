"""A recording from its beginning to its traces: begin, end, finish again, summary.

The recorded command isn't started by this process but by what it becomes, `run` of recorders/pthread. That passes signals on, waits for what the command
leaves in the background, and becomes this driver again at the end. So it is one process from beginning to end."""
from __future__ import annotations

import os

from ..base.processes import become, find_command
from ..base.saying import Refusal, write_error
from .building import is_preloadable, recorder_folder
from . import run_settings
from .folder import STAGE, Folder, checked
from .recorders import Recorder

ALSO = ("sem", "flockfile", "flock")  # of LOCKDEP_ALSO
ALL = "all"
OF_SIGNALS, SIGNALS = "LOCKDEP_SIGNALS", ("off", "locks", ALL)  # what is recorded of signal handlers: `locks`, if it isn't set
OF_HISTORY, OFF = "LOCKDEP_HISTORY", "off"  # how many megabytes are kept of the order of steps, or `off`
HISTORY_MEGABYTES = 64  # of a process, unless another size is given
MOST_MEGABYTES = 1024
HISTORY_SIZES = "a number of megabytes from 1 to %d, or %s" % (MOST_MEGABYTES, OFF)
VERSION = "2"  # of the format of traces
MUSL = b"/ld-musl"  # in the head of a program whose loader would end it because of what is preloaded
HEAD = 4096
NOTHING_TO_MAKE = "%s has no recording whose traces can be made"
ASAN = "verify_asan_link_order"  # without it, a program with gcc's address sanitizer doesn't start after another library


class RecordOptions:
    """What the command line asks for."""

    def __init__(self, folder: str, recorder: Recorder, is_named: bool, frames: str = "", is_waiting: bool = True,
                 signals: str = "", history: str = "") -> None:
        self.folder, self.recorder, self.is_named = checked(folder), recorder, is_named
        self.frames, self.is_waiting, self.signals, self.history = frames, is_waiting, signals, history


class Settings:
    """What has to be known of a recording when its traces are made, perhaps again."""

    def __init__(self, frames: str = "", program: str = "", recorder: str = "pthread", named: str = "", also: str = "sem") -> None:
        self.frames, self.program, self.recorder, self.named, self.also = frames, program, recorder, named, also

    def text(self) -> str:
        return "version %s\nframes %s\nprogram %s\nrecorder %s\nnamed %s\nalso %s\n" % (
            VERSION, self.frames, self.program, self.recorder, self.named, self.also)


def read_settings(raw: str, frames: str) -> Settings:
    """The settings of a recording. Of one by an earlier version it isn't known whether semaphores were looked at, so they count as such.
    Other callers may be asked for."""
    settings = Settings()
    with open(os.path.join(raw, "settings"), encoding="utf-8", errors="surrogateescape") as file:
        for line in file.read().split("\n"):
            name, _, value = line.partition(" ")
            if name in ("frames", "program", "recorder", "named", "also"):
                setattr(settings, name, value)
    settings.frames = frames or settings.frames
    return settings


# ---- The beginning.

def begin(home: str, options: RecordOptions, command: list[str], then: str) -> None:
    """Begins a recording, and becomes what runs the command, and `then` after it."""
    recorder, asked_of_run = options.recorder, run_settings.take_over()
    if recorder.name == "pthread":
        check_variables()
    pass_on(recorder, options.signals, options.history)
    out = recorder_folder(home)
    program, status = find_command(command[0])
    if program is None:
        raise Refusal("%s: %s" % (command[0], "there is no such command" if status == 127 else "it can't be run"), status)
    building, command = recorder.building(home, program, command)
    if recorder.only_builds(command):
        write_error("lockdep: this builds what can be recorded, and runs nothing of it: type `lockdep run -- PROGRAM` afterwards")
        become(command, dict(os.environ, **building))
    folder = Folder(options.folder)
    folder.prepare()
    folder.put_run_settings(asked_of_run)
    folder.put("settings", Settings(options.frames, program, recorder.name, "yes" if options.is_named else "",
                                    os.environ.get("LOCKDEP_ALSO", "")).text())
    keep_wrappers(folder.raw)
    preload = "" if recorder.is_in_process or is_of_musl(program) else preloaded(preloadable(home, out, folder))
    environment = with_asan_after(dict(os.environ, **recorder.environment(options.folder, folder.raw, preload), **building))
    folder.keep_lock()
    # (a process that is left in the background by a program that records itself has its say up to then)
    no_wait = ["--no-wait"] if recorder.is_in_process or not options.is_waiting else []
    run = os.path.join(out, "run")
    become([run, "go"] + no_wait + [then, options.folder] + command, environment)


def with_asan_after(environment: dict[str, str]) -> dict[str, str]:
    """An environment in which programs with gcc's address sanitizer start after a library that is preloaded."""
    options = environment.get("ASAN_OPTIONS", "")
    return environment if ASAN in options else dict(environment, ASAN_OPTIONS=":".join(filter(None, [options, ASAN + "=0"])))


def preloaded(out: str) -> str:
    """What is preloaded: the recorder, and before it, if all of signal handlers is wanted, what tells it of calls of the C library."""
    names = (["library.so"] if os.environ.get(OF_SIGNALS) == ALL else []) + ["preload.so"]
    return ":".join(os.path.join(out, name) for name in names)


def pass_on(recorder: Recorder, signals: str, history: str) -> None:
    """Tells a recorder what is wanted of signal handlers and of the order of steps. If nothing was asked for, the command's environment stays as it is."""
    if recorder.sees_handlers and signals:
        os.environ[OF_SIGNALS] = signals
    if recorder.keeps_order:
        if history:
            os.environ[OF_HISTORY] = history
        check_history()


def check_variables() -> None:
    """Refuses what LOCKDEP_ALSO and LOCKDEP_SIGNALS ask for and no recorder knows."""
    for word in os.environ.get("LOCKDEP_ALSO", "").split(","):
        if word and word not in ALSO:
            raise Refusal("LOCKDEP_ALSO takes sem, flockfile and flock, separated by commas, and not '%s'" % word)
    if os.environ.get(OF_SIGNALS, "") not in SIGNALS + ("",):
        raise Refusal("%s takes off, locks or all, and not '%s'" % (OF_SIGNALS, os.environ[OF_SIGNALS]))


def check_history() -> None:
    if os.environ.get(OF_HISTORY) and not is_history_size(os.environ[OF_HISTORY]):
        raise Refusal("%s takes %s, and not '%s'" % (OF_HISTORY, HISTORY_SIZES, os.environ[OF_HISTORY]))


def is_history_size(text: str) -> bool:
    """Whether a text says how much is kept of the order of steps."""
    is_number = 0 < len(text) <= len(str(MOST_MEGABYTES)) and text.strip("0123456789") == "" and text[0] != "0"
    return text == OFF or is_number and int(text) <= MOST_MEGABYTES


def keep_wrappers(raw: str) -> None:
    """Keeps the list of wrappers beside the recording, for its traces that are made again."""
    try:
        with open(os.environ["LOCKDEP_WRAPPERS"], "rb") as given, open(os.path.join(raw, "wrappers"), "wb") as kept:
            kept.write(given.read())
    except (KeyError, OSError):
        pass


def is_of_musl(program: str) -> bool:
    """Whether the program's C library is musl. One that can't be read is taken for another."""
    try:
        with open(program, "rb") as file:
            return MUSL in file.read(HEAD)
    except OSError:
        return False


def preloadable(home: str, out: str, folder: Folder) -> str:
    """The folder of the recorder by a name that LD_PRELOAD takes. A tool that is installed elsewhere is called through a link in the folder of the
    traces."""
    if is_preloadable(out):
        return out
    stage = os.path.join(os.path.realpath(folder.path), STAGE)
    if not is_preloadable(stage):
        folder.drop_made(folder.was_there)
        raise Refusal("the recorder can't be preloaded, since the paths of this tool and of the traces have a space, colon or dollar, which "
                      "LD_PRELOAD takes for something else; choose another folder by -o, as /tmp/traces")
    try:
        os.makedirs(stage, exist_ok=True)
        os.symlink(out, os.path.join(stage, "out"))
    except OSError:
        folder.drop_made(folder.was_there)
        raise Refusal("%s can't be made" % stage)
    return os.path.join(stage, "out")
