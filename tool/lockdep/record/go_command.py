"""The command go, which builds programs that are recorded: it takes changed files of the standard library, by -overlay in GOFLAGS."""
from __future__ import annotations

import contextlib
import os
import re
import sys

from ..base.files import write_whole
from ..base.processes import output_of
from ..base.saying import Refusal, write_error

SOURCES = os.path.join("recorders", "go", "overlay")  # with what makes changed files, and what finds out whether a Go records rightly with them
SETTINGS = ("GOROOT", "GOVERSION", "GOOS", "GOARCH", "GOEXPERIMENT", "GOFLAGS")
RUNS = ("run", "test")  # those of its commands that run what they build
KEY = 16  # letters of the name of a folder
FLAG = re.compile(r"'[^']*'|\"[^\"]*\"|\S+")  # of GOFLAGS
# A test has to run although its result is known, and a program to keep its table of symbols, by which globals are named.
ADDED = (("-count", "-count=1"), ("-ldflags", "-ldflags=-s=false"))
OVERLAY, LIST, PASSED = "-overlay", "overlay.json", "passed"


def is_go(command: str) -> bool:
    """Whether a command is go, or one of a version, as go1.23."""
    name = command.rpartition("/")[2]
    return name == "go" or (name.startswith("go1.") and name[len("go1."):].replace(".", "").isdigit())


def verb_of(words: list[str]) -> int:
    """The place of the verb among the words of the command go."""
    return 3 if words[1:2] == ["-C"] else 1


def only_builds(words: list[str]) -> bool:
    """Whether a command of go runs nothing of the program's, as `go build` does."""
    if not is_go(words[0]):
        return False
    verb, rest = words[verb_of(words):][:1], words[verb_of(words) + 1:]
    if verb == ["test"]:
        return any(word in ("-c", "--c") for word in rest)
    return verb[:1] != [] and verb[0] not in RUNS


def prepared(home: str, go: str, words: list[str]) -> tuple[dict[str, str], list[str]]:
    """What a command has to find in its environment, so that what go builds is recorded, and its words. Files that go replaces anyway are replaced, too."""
    folder = os.path.abspath(folder_of(words))
    settings = settings_of(os.path.abspath(go), folder)
    flags = words_of(settings["GOFLAGS"])
    given = [word.partition("=")[2] for word in flags if is_overlay(word)]
    at = own_overlay(words)
    if at is not None:
        given = [words[at].partition("=")[2] if "=" in words[at] else "".join(words[at + 1:at + 2])]
    files = overlay(home, go, settings)
    if given and given[-1]:
        files = merged(files, os.path.join(folder, given[-1]), folder)
    if at is not None:
        words = words[:at] + ["%s=%s" % (OVERLAY, files)] + words[at + (1 if "=" in words[at] else 2):]
    added = [text for name, text in ADDED if name not in settings["GOFLAGS"]] + ["%s=%s" % (OVERLAY, files)]
    return {"GOFLAGS": " ".join(quoted(word) for word in [word for word in flags if not is_overlay(word)] + added)}, words


def folder_of(words: list[str]) -> str:
    """Where the command go works: the word behind -C, which comes before or behind its verb."""
    for at in (1, 2) if is_go(words[0]) else ():
        name, _, folder = "".join(words[at:at + 1]).partition("=")
        if name in ("-C", "--C"):
            return folder or "".join(words[at + 1:at + 2])
    return ""


def settings_of(go: str, folder: str) -> dict[str, str]:
    import json
    status, answer = output_of([go, "env", "-json", *SETTINGS], folder=folder)
    try:
        settings = json.loads(answer) if status == 0 else {}
    except ValueError:
        settings = {}
    if not all(name in settings for name in SETTINGS):
        raise Refusal("%s env can't be run in %s" % (go, folder))
    return settings


def words_of(flags: str) -> list[str]:
    """The words of GOFLAGS, of which each may be in quotes as a whole."""
    return [word[1:-1] if word[0] in "'\"" and word[0] == word[1:][-1:] else word for word in FLAG.findall(flags)]


def quoted(word: str) -> str:
    """A word as GOFLAGS takes it."""
    if not re.search(r"\s", word):
        return word
    quote = '"' if "'" in word else "'"
    if quote in word:
        raise Refusal("GOFLAGS can't name %s, which has a space and both quotes" % word)
    return quote + word + quote


# ---- A list of files that the user has replaced.

def is_overlay(word: str) -> bool:
    return word.partition("=")[0] in (OVERLAY, "-" + OVERLAY)


def own_overlay(words: list[str]) -> int | None:
    """Where the words that are go's own say -overlay last. What follows behind -args, or behind the program that `go run` runs, aren't go's."""
    found, begin = None, verb_of(words) + 1
    is_run, unclear = words[begin - 1:begin] == ["run"], ""
    for at in range(begin, len(words) if is_go(words[0]) else 0):
        word, before = words[at], words[at - 1]
        if word in ("-args", "--args"):
            break
        if is_overlay(word):
            if unclear:
                raise Refusal("whether -overlay is for go or for the program isn't known behind %s: type it directly behind `go run`" % unclear)
            found = at
        elif is_run and word[:1] != "-" and not (found == at - 1 and "=" not in before):
            if at == begin or before[:1] != "-" or "=" in before:
                break
            unclear = unclear or "%s %s" % (before, word)
    return found


def merged(files: str, given: str, folder: str) -> str:
    """A list of files that go replaces: ours, and those of a given list. Its relative paths are relative to a folder."""
    import hashlib
    import json
    try:
        with open(files, encoding="utf-8") as file:
            ours = json.load(file)["Replace"]
        with open(given, encoding="utf-8") as file:
            theirs = {os.path.join(folder, path): to and os.path.join(folder, to) for path, to in json.load(file).get("Replace", {}).items()}
    except (OSError, ValueError, AttributeError, TypeError) as error:
        raise Refusal("%s, which go is given by -overlay, isn't a list of files: %s" % (given, error))
    real = {os.path.realpath(path) for path in ours}
    for path in theirs:
        if os.path.realpath(path) in real:
            raise Refusal("%s, which go is given by -overlay, replaces %s, as the recorder of Go does" % (given, path))
    text = json.dumps({"Replace": dict(theirs, **ours)})
    both = "%s-%s.json" % (files[:-len(".json")], hashlib.sha256(text.encode()).hexdigest()[:KEY])
    if not os.path.isfile(both):
        write_whole(both, text.encode())
    return both


# ---- The changed files.

def overlay(home: str, go: str, settings: dict[str, str]) -> str:
    """The list of changed files for a Go installation. At first they are made, and it is found out whether it records rightly with them."""
    import fcntl
    out = os.path.join(folder_of_made(home), key_of(home, settings))
    if not has_passed(out):
        try:
            os.makedirs(out, exist_ok=True)
        except OSError as error:
            raise Refusal("changed files of Go can't be kept in %s: %s" % (out, error.strerror))
        lock = os.open(out, os.O_RDONLY)
        fcntl.flock(lock, fcntl.LOCK_EX)  # (another process may be doing the same)
        if not has_passed(out):
            prepare(home, go, settings, out)
        os.close(lock)
    return os.path.join(out, LIST)


def key_of(home: str, settings: dict[str, str]) -> str:
    """What tells apart Go installations, and recorders."""
    sources = os.path.join(home, SOURCES)
    paths = [os.path.join(sources, name) for name in sorted(os.listdir(sources))] + [os.path.join(settings["GOROOT"], "VERSION")]
    return sum_of(paths, repr([settings[name] for name in SETTINGS if name != "GOFLAGS"]))


def sum_of(paths: list[str], text: str = "") -> str:
    """The beginning of a checksum of files; one that isn't there is empty."""
    import hashlib
    key = hashlib.sha256(text.encode())
    for path in paths:
        with contextlib.suppress(OSError), open(path, "rb") as file:
            key.update(file.read())
    return key.hexdigest()[:KEY]


def has_passed(out: str) -> bool:
    """Whether a Go records rightly with the changed files in a folder, and its own files are still the same."""
    try:
        with open(os.path.join(out, PASSED), encoding="utf-8") as file:
            return file.read() == sum_of_originals(out)
    except OSError:
        return False


def sum_of_originals(out: str) -> str:
    import json
    with open(os.path.join(out, LIST), encoding="utf-8") as file:
        return sum_of(sorted(json.load(file)["Replace"]))


def prepare(home: str, go: str, settings: dict[str, str], out: str) -> None:
    write_error("lockdep: %s is prepared for recording (once): some 10 seconds; its first build then takes longer, since it compiles Go's standard library anew"
                % settings["GOVERSION"])
    own = os.path.join(settings["GOROOT"], "bin", "go")  # that of a module may be another one than the given one
    for name in ("make", "probe"):
        status, _ = output_of([sys.executable, os.path.join(home, SOURCES, name), own if os.path.isfile(own) else go, out])
        if status:
            raise Refusal("so nothing is recorded", status)
    write_whole(os.path.join(out, PASSED), sum_of_originals(out).encode())


def folder_of_made(home: str) -> str:
    """Where changed files are kept: beside the recorder, or in the user's cache if nothing can be written there."""
    beside = os.path.join(home, "recorders", "go", "out")
    is_checkout = os.path.isfile(os.path.join(home, "crates.txt"))
    if is_checkout and os.access(os.path.dirname(beside), os.W_OK):
        return beside
    cache = os.environ.get("XDG_CACHE_HOME") or os.path.join(os.environ.get("HOME", "/tmp"), ".cache")
    return os.path.join(cache, "lockdep", "go")
