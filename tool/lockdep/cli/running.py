"""`lockdep run`: what has to be right before a command is recorded. What follows when it has ended is tool/recording/record, which finds in the folder of the
recording what was asked for."""
from __future__ import annotations

import os

from ..base.command_line import Words
from ..base.processes import become, output_of
from ..base.saying import Refusal
from ..record import recorders, recording, run_settings
from ..record.building import agent_of_java
from ..record.folder import DEFAULT_FOLDER
from ..record.recorders import RECORDERS, Recorder
from ..record.run_settings import RunSettings

NOT_BUILT = 3  # the status if the checker or the recorder is missing
STANDARD_OUTPUT = "-"  # of a file that is written: after the command's own output
FORMS = ("--html", "--sarif", "--junit", "--json", "--write-known")
FOR_THE_END = ("--known", "--no-library-list", "--quiet", "--verbose", "--color", "--error-exitcode", "--confirmed-only", "--strict-known", "--history") + FORMS


def run(home: str, line: Words) -> int:
    """Begins a run, and becomes what records it."""
    if line.has("--confirmed-only") and not line.has("--error-exitcode"):
        raise Refusal("--confirmed-only says which findings make the status of --error-exitcode, which isn't given")
    if line.has("--strict-known") and not (line.has("--known") and line.has("--error-exitcode")):
        raise Refusal("--strict-known makes stale entries of --known fail as --error-exitcode says, and one of these isn't given")
    if not line.rest:
        raise Refusal("which command? lockdep run -- COMMAND")
    if not line.rest[0]:
        raise Refusal("the command's name is empty")
    recorder = choose(home, line)
    folder = recording.checked(line.last("-o", DEFAULT_FOLDER))
    look_at_name(folder)
    known_text = look_at_files(line, folder)
    settings = settings_for_end(home, line, recorder, known_text)
    if recorder.name == "java" and not agent_of_java(home):
        return NOT_BUILT
    run_settings.hand_over(settings)
    then = os.path.join(home, "tool", "recording", "record")
    if recorder.script:
        words = "--either" if line.has("--recorder") else "--command"
        recording.pass_on(recorder, line.last("--signals"), line.last("--history"))
        become(recorder.starting(home) + ["-o", folder, "--then", then, words] + line.rest, os.environ)
    look_at_recorder(home)
    recording.begin(home, recording.RecordOptions(folder, recorder, line.has("--recorder"), line.last("--frames"),
                                                    signals=line.last("--signals"), history=line.last("--history")), line.rest, then)
    return 0


# ---- Which recorder.

def choose(home: str, line: Words) -> Recorder:
    """The recorder that was named, or the one that the command is for."""
    recorder = RECORDERS[line.last("--recorder")] if line.has("--recorder") else recorders.recorder_for(line.rest[0])
    if recorder.name != "pthread" and line.has("--frames"):
        raise Refusal("--frames belongs to the recorder of pthreads, and this is a program for that of " + recorder.language)
    if not recorder.keeps_order and line.has("--history"):
        raise Refusal("--history belongs to recorders that keep the order of steps, and this is a program for that of " + recorder.language)
    if not recorder.sees_handlers and line.has("--signals"):
        raise Refusal("--signals belongs to the recorders of pthreads and of Python, and this is a program for that of " + recorder.language)
    if recorder.script and not os.path.exists(os.path.join(home, "recorders", recorder.script)):
        raise Refusal("the recorder of %s is missing here: it was left out when the tool was installed" % recorder.language, NOT_BUILT)
    return recorder


def look_at_recorder(home: str) -> None:
    from ..record.building import recorder_folder
    try:
        recorder_folder(home)
    except Refusal:
        raise Refusal("so nothing is recorded", NOT_BUILT)


# ---- The files.

def look_at_name(folder: str) -> None:
    try:
        folder.encode("utf-8")
    except UnicodeEncodeError:
        raise Refusal("the folder's name isn't UTF-8, which the names of traces have to be; choose another by -o")


def look_at_files(line: Words, folder: str) -> str:
    """Refuses files that can't be read or written, before the command is run. The result is the text of the list of known findings, if that can be read only
    once."""
    known_text = ""
    if line.has("--known"):
        from ..known.known_list import look_at_known
        known_text = look_at_known(line.last("--known"))
    if line.has("--write-known"):
        look_at_list(line.last("--write-known"))
    named = set()
    for option in FORMS:
        file = line.last(option)
        if file:
            look_at_form(file, folder)
            if file in named:
                raise Refusal("two options name the same file, " + file)
            named.add(file)
    return known_text


def look_at_list(file: str) -> None:
    """Refuses a list that can't be read and written again."""
    above = os.path.dirname(file) or "."
    if os.path.exists(file):
        if not os.path.isfile(file) or not os.access(file, os.R_OK | os.W_OK):
            raise Refusal("%s can't be written" % file)
    elif not os.path.isdir(above) or not os.access(above, os.W_OK):
        raise Refusal("%s can't be made" % file)


def look_at_form(file: str, folder: str) -> None:
    """Refuses a file that can't be written. The folder of the recording may be made later."""
    if file == STANDARD_OUTPUT:
        return
    above = os.path.dirname(file) or "."
    if os.path.exists(file):
        if os.path.isdir(file) or not os.access(file, os.W_OK):
            raise Refusal("%s can't be written" % file)
    elif os.path.isdir(above):
        if not os.access(above, os.W_OK):
            raise Refusal("%s can't be made" % file)
    elif os.path.normpath(above) != os.path.normpath(folder):
        raise Refusal("%s can't be made: there is no folder %s" % (file, above))


# ---- What the last part has to know.

def settings_for_end(home: str, line: Words, recorder: Recorder, known_text: str) -> RunSettings:
    values = {option[2:]: line.last(option) for option in FOR_THE_END}
    values["recorder"], values["known-text"] = recorder.name, known_text
    values["program"], values["version"] = checker(home)
    return RunSettings(values, line.values.get("--accept-left-out", []))


def checker(home: str) -> tuple[str, str]:
    """The proved program, which in a checkout may have to be built, and its version, if that is known."""
    script = os.path.join(home, "lockdep")
    if not os.path.isfile(os.path.join(home, "crates.txt")):
        return script, ""
    status, output = output_of([script, "--program", "--version"])
    if status:
        raise Refusal("", NOT_BUILT)
    path, _, version = os.fsdecode(output).rstrip("\n").rpartition("\n")
    return path, version
