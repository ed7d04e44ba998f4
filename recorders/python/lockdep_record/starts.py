"""Notes the programs that this process starts, so that those that aren't recorded can be named at the end: other Pythons, programs
that call pthread locks, and those with locks of other kinds. What a shell is told to run by `-c` is looked at too, as far as that is
plain. What other programs start isn't known here.

`started` knows whether a Python that was started is among those that were recorded: by the words that both have."""
import os
import sys

from . import ends, log, places

NOTED = frozenset(("subprocess.Popen", "os.exec", "os.posix_spawn", "os.system"))
PYTHON, PTHREAD, JAVA = "python", "pthread", "java"
MOST_WORDS = 32  # of a command, how many of the last are noted
LONGEST_WORD = 200  # how much of each
MOST_READ = 8000000  # of a program's file: the names of what it calls lie near its beginning
SYSTEM = ("/bin/", "/sbin/", "/lib/", "/lib32/", "/lib64/", "/libx32/", "/usr/bin/", "/usr/sbin/", "/usr/lib/", "/usr/lib32/", "/usr/lib64/", "/usr/libx32/",
          "/usr/libexec/")
INTERPRETERS = tuple(name + letter for name, letters in (("libpython", "0123456789"), ("libpypy", "-0123456789")) for letter in letters)
CALLS = tuple(b"\0pthread_%s\0" % name for name in (b"mutex_lock", b"mutex_trylock", b"rwlock_rdlock", b"rwlock_wrlock", b"spin_lock"))
SHELLS = frozenset(("sh", "bash", "dash", "ksh", "zsh"))
PASSES_ON = frozenset(("env", "exec", "nice", "nohup", "setsid", "stdbuf", "time", "timeout"))  # what starts the program that it names
NO_PROGRAM = frozenset(("-V", "-VV", "--version", "-h", "-?", "--help", "--help-env", "--help-xoptions", "--help-all"))
NO_JAVA = frozenset(("-version", "--version", "-help", "--help", "-h", "-?"))
MARKS = ((b"\xff Go buildinf:", "go"), (b"lockdep_record for LOCKDEP_TRACES", "rust"), (b"ldr1 lockdep,2", "embed"))  # in a program's file
OTHERS = (JAVA,) + tuple(kind for _, kind in MARKS)
PRELOADED = "/out/preload.so"  # ends the path of the recorder of pthreads
STOPS = frozenset(("if", "while", "until", "for", "case", "{", "function", "[[", "!"))
HOOK = os.path.join(places.own_folder, "hook")
known = {}
are_watched = False  # the locks of libraries, by the recorder of pthreads
tell = log.put


def words_of(words):
    """Words as they are noted."""
    return "\t".join(places.visible(os.fsdecode(word)[:LONGEST_WORD]) for word in list(words)[-MOST_WORDS:])


def note_itself():
    """Notes the words that started this process."""
    with open("/proc/self/cmdline", "rb") as file:
        words = file.read().split(b"\0")[:-1]
    log.put("L %s\n" % words_of(words))


def file_of(name, cwd, environment):
    """The path of the program that is started by a name, or None."""
    name = os.fsdecode(name)
    if "/" in name:
        paths = [os.path.join(os.fsdecode(cwd) if cwd else "", name)]
    else:
        paths = [os.path.join(folder, name) for folder in os.get_exec_path(environment)]
    for path in paths:
        if os.path.isfile(path) and os.access(path, os.X_OK):
            return os.path.abspath(path)
    return None


def is_python_name(path):
    name = os.path.basename(path)
    return any(name.startswith(each) and not name[len(each):].strip("0123456789.") for each in ("python", "pypy"))


def kind_of(path):
    """What is to be said of a program if it isn't recorded: PYTHON, a script of Python's with its first line, another language, PTHREAD, or
    nothing."""
    if is_python_name(path):
        return PYTHON, ""
    if os.path.basename(path) == "java":
        return JAVA, ""
    with open(path, "rb") as file:
        first = file.read(200)
        if first[:2] == b"#!":
            line = first[2:].partition(b"\n")[0]
            return (PYTHON, os.fsdecode(line)) if b"python" in line or b"pypy" in line else (None, "")
        is_noted = first[:4] == b"\x7fELF" and not os.path.realpath(path).startswith(SYSTEM)
        content = first + file.read(MOST_READ) if is_noted else b""
    for mark, kind in MARKS:
        if mark in content:
            return kind, ""
    return (PTHREAD, "") if any(call in content for call in CALLS) else (None, "")


def why_not(words, line, environment):
    """Why a Python that is started by these words, or by the first line of its script, can't be recorded, as far as that can be seen.
    `none` if it runs no program at all."""
    options = [os.fsdecode(word) for word in (line.split() if line else words)]
    at = next((at for at, word in enumerate(options) if line and is_python_name(word)), 0)
    for word in options[at + 1:]:
        if word in NO_PROGRAM:
            return "none"
        if word[:1] != "-" or word[:2] in ("-", "--"):
            break
        for letter in word[1:]:
            if letter in "EIS":
                return "-" + letter
            if letter in "cmWX":
                break
        if word[1] in "cm":
            break
    return "-" if can_load(os.environ if environment is None else environment) else "environment"


def can_load(environment):
    """Whether a Python with this environment loads the recorder."""
    values = {os.fsdecode(name): os.fsdecode(value) for name, value in environment.items()}
    return "LOCKDEP_PYTHON" in values and HOOK in values.get("PYTHONPATH", "").split(os.pathsep)


def note(name, words, cwd, environment, is_exact=True, is_sure=True):
    """A program is started. It may be so by a shell, whose words aren't exactly those that the program gets, or only if another
    program has ended well."""
    path = file_of(name, cwd, environment)
    if path is None:
        return
    base = os.path.basename(path)
    words = list(words)
    if base in SHELLS:
        if len(words) > 2 and os.fsdecode(words[1]) in ("-c", "-ec", "-ce", "-lc"):
            note_shell(os.fsdecode(words[2]), cwd, environment)
        return
    if base in PASSES_ON:
        return note_passed(words[1:], cwd, environment, is_exact, is_sure)
    if path not in known:
        known[path] = kind_of(path)
    kind, line = known[path]
    reason = why_not(words, line, environment) if kind is PYTHON else "-" if kind is PTHREAD else kind
    if kind is JAVA and len(words) > 1 and os.fsdecode(words[1]) in NO_JAVA:
        return
    if kind is None or reason == "none" or (kind is PYTHON and reason == "-" and not is_sure):
        return
    tell("X %s %d %s %s\t%s\n" % (kind, is_exact, reason, places.visible(path), words_of(words[1:])))


def from_java(words):
    """The lines for a program that a Java program started by these words."""
    global tell
    lines, tell = [], lambda line: lines.append(line)
    try:
        note(words[0], words, None, None)
    except Exception:
        pass
    return lines


def note_passed(words, cwd, environment, is_exact, is_sure):
    """A program is started by one that only starts it: it is the first word that is one."""
    for at, word in enumerate(words):
        word = os.fsdecode(word)
        if word == "-i":
            environment = {"PATH": os.environ.get("PATH", os.defpath)}
        if word[:1] != "-" and "=" not in word and file_of(word, cwd, environment):
            return note(word, words[at:], cwd, environment, is_exact, is_sure)


def note_shell(text, cwd, environment):
    """A shell runs a text. Nothing is noted of what runs only if another program fails, or of what is more than commands."""
    from shlex import shlex
    lexer = shlex(text, posix=True, punctuation_chars=";()<>|&\n")
    lexer.whitespace, lexer.whitespace_split, lexer.commenters = " \t\r", True, "#"
    is_exact = not any(letter in text for letter in "$`*?~{[")
    command, before, skips = [], ";", False
    for word in list(lexer) + [";"]:
        if word.strip(";()|&\n") == "":
            if command[:1] and command[0] in STOPS:
                return
            if command[:1] == ["cd"] and len(command) == 2:
                cwd = os.path.join(os.fsdecode(cwd) if cwd else "", command[1])
            elif command and before != "||":
                note_passed(command, cwd, environment, is_exact, before != "&&")
            command, before, skips = [], word, False
        elif word.strip("<>&|") == "":
            skips, is_exact = True, is_exact and not command[-1:] == ["2"]  # (which may be a part of `2>file`)
        elif skips:
            skips = False
        else:
            command.append(word)


def note_event(event, words):
    """Something is started, as the hooks of `sys.addaudithook` hear of it. Errors never reach the program."""
    try:
        if log.process is None or log.process.is_off:
            return
        if event == "os.system":
            note_shell(os.fsdecode(words[0]), None, None)
        elif event == "subprocess.Popen":
            note(words[0], words[1], words[2], words[3])
        elif not is_of_popen(sys._getframe(2)):
            note(words[0], words[1], None, words[2])
    except Exception:
        pass


def is_of_popen(frame):
    """Whether it is `subprocess` that starts a program by `os.posix_spawn`, which was noted before."""
    return frame is not None and frame.f_globals.get("__name__") == "subprocess"


# ---- Libraries.

def libraries():
    """The libraries that are loaded now, but for those of the system's folders and of the interpreter itself."""
    own = os.path.realpath("/proc/self/exe")
    found = {}
    with open("/proc/self/maps", encoding="utf-8", errors="surrogateescape") as file:
        for line in file:
            words = line.rstrip("\n").split(None, 5)
            path = words[5] if len(words) > 5 and "x" in words[1] else ""
            if path.startswith("/") and not path.startswith(SYSTEM) and path != own and not path.endswith(PRELOADED):
                found[path] = True
    return [path for path in found if not is_of_interpreter(path)]


def is_of_interpreter(path):
    """Whether a library is the interpreter's own, or one of its modules, as in python3.13t/lib-dynload."""
    *folders, name = path.split("/")
    return name.startswith(INTERPRETERS) or any(
        below == "lib-dynload" and is_python_name(above[:-1] if above.endswith("t") else above) for above, below in zip(folders, folders[1:]))


def library_lines():
    """A line for each library, of which `finish` looks whether it has locks: V if those of pthreads are recorded, else D."""
    return "".join("%s %s\n" % ("V" if are_watched else "D", places.visible(path)) for path in libraries())


def find_watched():
    """Whether the locks of libraries are recorded in this process, by the rule of recorders/pthread/preload/libraries.c."""
    if not os.environ.get("LOCKDEP_LIBRARIES") or not is_python_name(os.readlink("/proc/self/exe")):
        return False
    with open("/proc/self/maps", "rb") as file:
        return os.fsencode(PRELOADED + "\n") in file.read()


def calls_pthreads(path):
    """Whether a file calls locks of pthreads. One that is gone doesn't."""
    try:
        with open(path, "rb") as file:
            content = file.read(MOST_READ)
    except OSError:
        return False
    return any(call in content for call in CALLS)


def begin():
    """Notes from here on what this process starts."""
    global are_watched
    note_itself()
    are_watched = find_watched()
    ends.at_end.append(library_lines)

    def hears(event, words, noted=NOTED, note_event=note_event):
        if event in noted:
            note_event(event, words)
    sys.addaudithook(hears)
