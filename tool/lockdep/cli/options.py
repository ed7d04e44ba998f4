"""The options of the driver's commands: one table, from which the parser, the help, the manual pages and the completions follow."""
from __future__ import annotations

from ..base.command_line import ALL_HELP, Help, Words
from ..base.saying import Refusal
from ..base.words import visible
from ..record.losses import COUNTS
from ..record.recording import HISTORY_MEGABYTES, HISTORY_SIZES, MOST_MEGABYTES, OFF, is_history_size
from ..record.recorders import NAMES, ORDER, PTHREAD, RECORDERS, listed


class Kind:
    """What an option's value is: what it is called, the most that a number may be, and what a shell can complete it with."""

    def __init__(self, words: str, argument: str, most: int = 0, completed: str = "") -> None:
        self.words, self.argument, self.most, self.completed = words, argument, most, completed


FOLDER, FILE = Kind("a folder", "FOLDER", completed="folders"), Kind("a file", "FILE", completed="files")
OUTPUT = Kind("a file", "FILE", completed="files")  # or `-`, standard output after the command's own
RECORDER, CODE = Kind("a name", "NAME", completed=" ".join(RECORDERS)), Kind("the code of a count", "CODE")
FRAMES = Kind("a number from 1 to 16", "N", 16, "1 2 3 4 6 8 12 16")
STATUS = Kind("a number from 1 to 255", "N", 255)
SIGNALS = Kind("off, locks or all", "WHAT", completed="off locks all")
COLOR = Kind("auto, always or never", "WHEN", completed="auto always never")
HISTORY = Kind(HISTORY_SIZES, "SIZE", completed=OFF + " 16 64 256 1024")
RUNS, SURE = Kind("a number from 1 to 999", "N", 999), Kind("a number of seconds from 1 to 999", "SECONDS", 999)
PAUSE = Kind("a number of milliseconds from 1 to 10000", "MS", 10000)
FINDING, SHELL = Kind("a number from 1 to 999", "N", 999), Kind("a command of the shell", "COMMAND")
LIST, ADDRESS = Kind("a file", "FILE", completed="files"), Kind("an address", "ADDRESS")  # (the first may be `-`, standard input)
PROCESSES, GROUP = Kind("a number from 1 to 999", "N", 999), Kind("a number from 1 to 999", "N", 999)
DAY, BUILD = Kind("a day, such as 2026-11-30", "DAY"), Kind("an id", "ID")
RECORDINGS = "recordings"


class Option:
    """An option: its name, what its value is, if it takes one, a few words for completions, the text of the help, and what the manual page adds. It may have
    other spellings: those that the texts show, and those that are only taken. On the first screen of the help it has a line, or none."""

    def __init__(self, name: str, kind: Kind | None, brief: str, text: str, more: str = "", others: tuple[str, ...] = (),
                 unlisted: tuple[str, ...] = (), first: str = "") -> None:
        self.name, self.kind, self.brief, self.text, self.more, self.first = name, kind, brief, text, more, first
        self.shown = tuple(sorted((name,) + others, key=is_long))
        self.spellings = self.shown + unlisted


class Command:
    """A command: what it does, in a few words and in a sentence; how it is called; what its words are; and its options."""

    def __init__(self, name: str, brief: str, text: str, usage: tuple[str, ...], words: str, options: list[Option]) -> None:
        self.name, self.brief, self.text, self.usage, self.words = name, brief, text, usage, words
        self.options = {option.name: option for option in options}
        self.by_spelling = {spelling: option for option in options for spelling in option.spellings}
        self.shown = [spelling for option in options for spelling in option.shown]


def is_long(name: str) -> bool:
    return name[:2] == "--"


ACCEPT = Option(
    "--accept-left-out", CODE, "do not count this as left out",
    "Don't count this as left out: the code of a count in SUMMARY, as unreached-runs. It is named all the same. The option may be given several "
    "times")

WITH_SIGNALS = Option(
    "--signals", SIGNALS, "what is recorded of signal handlers",
    "What is recorded of signal handlers: nothing (`off`), the locks that they take (`locks`), or also their calls of malloc, printf, localtime and the "
    "like, which take a lock inside the C library (`all`) [default: locks]",
    "A lock that a handler takes, and that other code takes while the signal may come in, is found as a double or an inversion. Only the recorders "
    "of pthreads and of Python have this option; for a Python program `all` is the same as `locks`.")

WITH_HISTORY = Option(
    "--history", HISTORY, "how much is kept of the order of steps",
    "How much is kept of the order in which the threads' steps came: so many megabytes of each process, from its beginning on, from 1 to %d, or nothing "
    "(`%s`) [default: %d]" % (MOST_MEGABYTES, OFF, HISTORY_MEGABYTES),
    "A step takes 8 or 16 bytes. What comes later is in the traces all the same. The recorders of pthreads, Python, Java and "
    "Rust have this option.")

RUN = Command("run", "record a command, check its traces, and explain what was found", "Records a command, checks its traces, and explains what was found",
              ("[OPTIONS] -- COMMAND...",), "command", [
    Option("-o", FOLDER, "where the recording is kept", "Where the recording is kept [default: lockdep-traces]",
           "An earlier recording in it is replaced. Nothing is written outside it but the files that other options name, and once the recorder "
           "itself, where it has to be built: beside its sources, or below ~/.cache/lockdep.", others=("--output",),
           first="Where the recording is kept [default: lockdep-traces]"),
    Option("--recorder", RECORDER, "what records the command",
           listed([(each.name + " " + each.sees).strip() for each in RECORDERS.values()]) + " [default: "
           + "".join("%s if %s, " % (name, RECORDERS[name].when) for name in ORDER)
           + "otherwise %s]. Programs that ran and have other locks than it sees are named, and the run isn't called clean, unless this option names the recorder: then the rest is judged. Those of Python and Java "
           "name what a recorded program starts itself, and record the locks of C libraries that it loads too unless this option names them; that of Rust "
           "names none" % PTHREAD.name,
           "Programs that are named are those in Python, Java or Go, with locks of OpenMP, and with lockdep_record.h, below a command that `pthread` "
           "records, and those with locks of pthreads that `embed` records. Only `pthread` sees the interpreter's own locks, and those of C libraries in "
           "the system's folders. With `python` the command may also be a script that isn't executable, and with `java` a class or the options of java; it also records a command "
           "that starts Java, such as a build.",
           first="pthread, python, java, rust, go or embed [default: by the command]"),
    Option("--frames", FRAMES, "by how many callers a lock class is named", "By how many callers a lock class is named, from 1 to 16 [default: 3]",
           "Only the recorder of pthreads has this option."),
    WITH_SIGNALS,
    WITH_HISTORY,
    Option("--known", FILE, "findings that are known",
           "Findings that are known, as lines of a report, or patterns such as `cycle class:NAME`: left out of the text and the status. FILE may be "
           "empty, /dev/null, or a pipe",
           "The lines are those of a report that begin with `circle`, `double` or `inversion`, patterns, blank lines, and comments that begin with `#`. "
           "They are counted, and those that no longer occur are named. A pattern is `cycle`, `double`, `inversion`, `blocked`, `order` or `hold`, and then words "
           "`class:NAME`, `module:FILE`, `function:NAME`, `file:PATH`, `signal:NAME` and `verdict:WORDS`, in which `*` and `?` stand for any "
           "characters. It fits a finding of which each lock is of one of these classes and was made in such a program or library, of which a record "
           "comes from such a function in such a file, in which such a signal comes in, and whose verdict is this one or a weaker one, as "
           "`verdict:between-classes`; what isn't given is any. An entry may end with "
           "`# reason` and `until 2027-03-01`: after that day it hides nothing. A reason with `until` and no date at its end is refused. Of a pipe 100,000 "
           "bytes are taken. An entry names locks as the report does. The names of static locks are symbols, and stay. Those of locks that a call initialises, or that lie in objects from the heap, have "
           "an offset in the code of a function, as `main+0x13.m0`: after an edit of that function a known finding may look new. An entry is stale if "
           "a lock that takes part now is made in a function or file that no comment of --write-known lists, or if a finding has a stronger verdict than "
           "the listed one: it is named, and hides nothing. Names with an offset whose source line is another one are listed.", others=("--suppressions",),
           first="Findings that are known: left out of the text and the status"),
    Option("--no-library-list", None, "leave out the list of known findings that the tool has",
           "Leave out the tool's own list of known findings, of libraries whose locks are nested by design",
           "What that list hides is counted, with the reason, and is known in each form as what is on the list of a user. It never makes an entry "
           "stale."),
    Option("--write-known", FILE, "write the findings of this run", "Write the findings of this run to a file for --known",
           "If the file exists, its comments and the entries that still occur stay. Under each entry comments that begin with `#` and three spaces say "
           "where its locks are made, and the strongest verdict of its findings; these are written anew.",
           first="Write the findings of this run to a file for --known"),
    Option("--strict-known", None, "stale entries of --known fail too",
           "Stale entries of that file, and names with another source line, make the status of --error-exitcode too"),
    Option("--html", OUTPUT, "where the page goes", "Where the page goes [default: FOLDER/report.html, if something new was found]",
           "It is that of `lockdep view`.",
           first="Where the page goes [default: FOLDER/report.html, if anything is new]"),
    Option("--sarif", OUTPUT, "write the findings as SARIF", "Write the findings as SARIF 2.1.0 too, for code hosts and editors",
           first="Write the findings as SARIF, for code hosts and editors"),
    Option("--junit", OUTPUT, "write the findings as JUnit",
           "Write them as JUnit: a failed case for each finding, or a passed one if there is none",
           first="Write them as JUnit"),
    Option("--json", OUTPUT, "write the findings as JSON",
           "Write them as `lockdep explain --locks --json` does, with places and what is known",
           "It also has threads that were blocked at the end, and the counts of the recording.",
           first="Write them as JSON"),
    ACCEPT,
    Option("--quiet", None, "print only if something was found", "Print only if something was found, or if the run can't be judged", others=("-q",),
           first="Print only if something was found, or the run can't be judged"),
    Option("--verbose", None, "print all that is known of each finding",
           "Print all that is known of each finding: its line in a report, lock classes and where they are made, the records, and every step of its verdict",
           others=("-v",),
           first="Print all that is known of each finding"),
    Option("--color", COLOR, "when to print in colours",
           "When findings are printed in colours: always, never, or on a terminal unless NO_COLOR is set in the environment [default: auto]"),
    Option("--error-exitcode", STATUS, "the status if something was found",
           "Exit with this status, from 1 to 255, if something was found that isn't known, or if a thread waited for a lock when its process ended in "
           "another way than by `exit`",
           first="Exit with this status if something new was found"),
    Option("--confirmed-only", None, "only for what is possible or not known",
           "Only for what happened, is `possible` or `not known`, and for what is `not shown` since it needs sections of a lock in another order, or more "
           "threads than did this, and others may be like them: what is `possible by a join`, `kept apart`, `between classes`, or `not shown` for another "
           "reason is printed, and doesn't change the status",
           first="Fail only for the verdicts marked * below"),
])

RECORD = Command("record", "record a command", "Runs a command, records the locks of its threads, and makes a trace of each thread.",
                 ("[OPTIONS] [--] COMMAND...", "--finish FOLDER [--frames N]", "--histories FOLDER", "--summary FOLDER [--accept-left-out CODE]..."), "command", [
    Option("-o", FOLDER, "where the traces go",
           "Where the traces go [default: lockdep-traces]. Those of an earlier recording are replaced; a file that no recording made is never touched",
           others=("--output",),
           first="Where the traces go [default: lockdep-traces]"),
    Option("--recorder", RECORDER, "what records the command",
           "Record by the recorder of " + NAMES + " [default: " + PTHREAD.name + "]. If it is named, programs in Python, Java and Go, and those "
           "with lockdep_record.h, don't count as left out by that of pthread. Only that has --frames and --no-wait",
           first="pthread, python, java, rust, go or embed [default: pthread]"),
    Option("--frames", FRAMES, "by how many callers a lock class is named", "By how many callers a lock class is named, from 1 to 16 [default: 3]",
           first="By how many callers a lock class is named [default: 3]"),
    WITH_SIGNALS,
    WITH_HISTORY,
    Option("--no-wait", None, "do not wait for what is left in the background",
           "Make the traces when the command ends, without waiting for what it left in the background",
           first="Don't wait for what the command leaves in the background"),
    Option("--finish", FOLDER, "make the traces of a recording that was killed",
           "Make the traces of a recording whose `record` was killed, of a Rust program that ran without it, or of another recording again, as with more "
           "callers",
           first="Make the traces of a recording that was killed, or make them again"),
    Option("--histories", FOLDER, "write the order in which the steps came",
           "Write what the threads of each process of a recording did, in the order in which it came, to FOLDER/history"),
    Option("--summary", FOLDER, "print again what was recorded",
           "Print again what was recorded and what was left out. The status is 0 if nothing was left out, 1 if something was, and 2 if no lock of the "
           "program's own was seen",
           first="Print again what was recorded and what was left out"),
    ACCEPT,
])

PROVOKE = Command("provoke", "make a finding happen", "Makes cycles that were found happen: runs a command again and holds its threads back where a cycle can close.",
                  ("[OPTIONS] -- COMMAND...",), "command", [
    Option("-o", FOLDER, "where the recording is kept", "Where the recording is kept [default: lockdep-traces]", others=("--output",),
           first="Where the recording is kept [default: lockdep-traces]"),
    Option("--from", FOLDER, "take this recording, and make none", "Take the findings of this recording of the command, and make none",
           first="Take the findings of this recording, and make none"),
    Option("--recorder", RECORDER, "what records the command", "Record by the recorder of pthread, python or java, whose programs can be held back "
           "[default: as `run` has it]",
           first="pthread, python or java [default: by the command]"),
    WITH_SIGNALS,
    Option("--runs", RUNS, "how often a finding is tried", "How many runs a finding is tried in at most, from 1 to 999 [default: 10]",
           first="In how many runs a finding is tried at most [default: 10]"),
    Option("--pause", PAUSE, "how long a thread is held back", "For how many milliseconds a thread is held back at first, from 1 to 10000 [default: 300, 100 or 30, in turn]",
           first="For how many milliseconds a thread is held back [default: 300, 100, 30]"),
    Option("--sure", SURE, "how long it has to stand still", "For how many seconds the threads have to stand still, from 1 to 999 [default: 5]",
           first="For how many seconds the threads have to stand still [default: 5]"),
    Option("--finding", FINDING, "try this finding", "Try the finding of this number alone. The option may be given several times",
           first="Try the finding of this number alone"),
    Option("--keep", None, "leave the program standing", "Leave the program standing when it stands still, with its process number, for a debugger",
           first="Leave the program standing when it stands still, for a debugger"),
    Option("--core", None, "leave a core dump", "Leave a core dump of a program that stands still, where the system puts them",
           first="Leave a core dump of a program that stands still"),
    Option("--while", SHELL, "run this beside each run", "Run this by the shell beside each run, from the program's first lock on, as clients of a server. When it has "
           "ended, the program gets SIGTERM",
           first="Run this by the shell beside each run, as clients of a server"),
    Option("--stdin", FILE, "what the runs read", "What the runs after the recorded one read from standard input [default: nothing]"),
])

GATHER = Command("gather", "check recordings from many machines together", "Checks the recordings of many machines together, and names the recordings that each order comes from",
                 ("-o FOLDER [OPTIONS] RECORDING...",), RECORDINGS, [
    Option("-o", FOLDER, "where what is gathered is kept", "Where what is gathered is kept: a new folder, or one that `gather` made, which is replaced",
           others=("--output",),
           first="Where what is gathered is kept"),
    Option("--list", LIST, "a file that names recordings", "A file that names more recordings, one on each line; `-` is standard input. The option may be given several times",
           first="A file that names more recordings, one on each line"),
    Option("--processes", PROCESSES, "how many processes read", "How many processes read recordings, from 1 to 999 [default: as many as there are processors]"),
    Option("--scheduler", ADDRESS, "run it on Dask",
           "Run it on the workers of this scheduler of Dask, such as tls://10.0.0.1:8786, instead of processes here. Each has to have the recordings and this tool at the same paths"),
    Option("--insecure", None, "use a scheduler without TLS",
           "Use a scheduler on another machine without TLS: whoever reaches its port can have code run here"),
    Option("--group", GROUP, "how many recordings a task reads", "How many recordings a task reads, from 1 to 999 [default: 200]"),
    Option("--skip-bad", None, "leave out what cannot be judged", "Leave out recordings that can't be judged, are refused or can't be read, and judge the rest. They are named all the same",
           first="Leave out recordings that can't be judged, and name them"),
    ACCEPT,
    Option("--add", None, "keep what the folder has",
           "Add the recordings to what the folder has: the roll of many nights. The recordings that it has keep their numbers",
           first="Add the recordings to what the folder has, as each night"),
    Option("--night", DAY, "the night of the recordings", "The night of these recordings, such as 2026-11-30 [default: none, and with --add today, in UTC]"),
    Option("--build", BUILD, "the build of the recordings", "The build that these recordings are of: an id, such as a commit",
           first="The build that these recordings are of, such as a commit"),
    Option("--since", DAY, "forget earlier nights", "Forget earlier nights of what was gathered before, and each order that only these had",
           first="Forget earlier nights of what was gathered before"),
    Option("--forget-build", BUILD, "forget a build", "Forget a build in the same way. The option may be given several times"),
    Option("--known", FILE, "findings that are known", "Findings that are known, as `lockdep run` has them: left out of the text and the status",
           others=("--suppressions",),
           first="Findings that are known: left out of the text and the status"),
    Option("--write-known", FILE, "write the findings for --known",
           "Write the findings to a file for --known. In an existing one comments and entries that still occur stay"),
    Option("--error-exitcode", STATUS, "the status if something was found",
           "Exit with this status, from 1 to 255, if something was found that isn't known [default: 1]",
           first="Exit with this status if something new was found [default: 1]"),
    Option("--source", FOLDER, "show source of this folder",
           "Show lines of source files that lie in this folder. Without it none are shown, since a recording can name any file. The option may be given several times",
           first="Show lines of source files that lie in this folder"),
    Option("--confirmed-only", None, "status 1 only for what is not known",
           "The status is 1 only for what is `not known`: no order of steps goes over several recordings, so nothing is said to be possible",
           "`--strict` is another spelling of it.", unlisted=("--strict",),
           first="Fail only for what is `not known`"),
    Option("--html", OUTPUT, "where the page goes", "Write the findings as a page; FILE may be `-`, standard output, instead of the text",
           first="Write the findings as a page"),
    Option("--sarif", OUTPUT, "write the findings as SARIF", "Write them as SARIF 2.1.0, for code hosts and editors",
           first="Write them as SARIF, for code hosts and editors"),
    Option("--junit", OUTPUT, "write the findings as JUnit", "Write them as JUnit: a failed case for each finding, or a passed one if there is none",
           first="Write them as JUnit"),
    Option("--json", OUTPUT, "write the findings as JSON", "Write them as `lockdep run` does, with the recordings of each order",
           first="Write them as JSON"),
])

CONFIRM = Command("confirm", "explain what was found in a recording, with the verdict of each finding", "", ("[OPTIONS] [FOLDER]",), "folder", [
    Option("--confirmed-only", None, "status 1 only for what happened, is possible or not known", "", unlisted=("--strict",)),
    Option("--verbose", None, "write all that is known of each finding", "", others=("-v",)),
    Option("--all", None, "write each finding of a kernel", ""),
    Option("--color", COLOR, "when to print in colours", ""),
    Option("--html", OUTPUT, "where the page goes", ""),
    Option("--sarif", OUTPUT, "write the findings as SARIF", ""),
    Option("--junit", OUTPUT, "write the findings as JUnit", ""),
    Option("--json", OUTPUT, "write the findings as JSON", ""),
])

# Options of earlier versions, with what is said instead.
GONE = {"record": {"--version-1": "traces are written in version 2 of the format, which has tries, and every command reads it"}}
COMMANDS = {command.name: command for command in (RUN, RECORD, PROVOKE, GATHER)}  # whose texts the table makes


def parse(command: Command, words: list[str]) -> Words:
    """Takes a command's words apart. The options end behind `--`, and those before a command at the first other word. Values stand under the
    option's name, however it was spelt."""
    line, at, others = Words(), 0, []
    while at < len(words) and (words[at][:1] == "-" or command.words != "command"):
        word = words[at]
        at += 1
        if word[:1] != "-":
            others.append(word)
            continue
        if word == "--":
            break
        if word in ("-h", "--help", ALL_HELP):
            raise Help(word)
        spelling, is_joined, value = word.partition("=") if word[:2] == "--" else (word, "", "")
        option = command.by_spelling.get(spelling)
        if spelling in GONE.get(command.name, {}):
            raise Refusal("`%s` has no option `%s`: %s" % (command.name, spelling, GONE[command.name][spelling]))
        if option is None or (is_joined and option.kind is None):
            raise Refusal(no_option(command.name, word, command.shown))
        if option.kind and not is_joined:
            value = words[at] if at < len(words) else ""
            at += 1
        line.values.setdefault(option.name, []).append(checked(command, option, spelling, value))
    line.rest = others + words[at:]
    return line


def no_option(command: str, word: str, options: list[str]) -> str:
    """That a command doesn't have an option, and which one may be meant."""
    from ..base.nearest import nearest
    near = nearest(word.partition("=")[0], options + ["--help"])
    meant = "did you mean `%s`? " % near if near else ""
    return "`%s` has no option `%s`; %s`lockdep %s %s` lists them" % (command, visible(word), meant, command, whole_help(command))


def whole_help(command: str) -> str:
    """The option by which a command prints all of its help."""
    return ALL_HELP if command in COMMANDS else "--help"


def checked(command: Command, option: Option, spelling: str, value: str) -> str:
    """The value of an option, which can't be the word that ends the options."""
    kind = option.kind
    if kind is None:
        return "yes"
    if value in ("", "--"):
        raise Refusal("%s takes %s%s; `lockdep %s %s` says more" % (spelling, kind.words, ", and not `--`" if value else "", command.name,
                                                                     whole_help(command.name)))
    if kind is FILE and value == "-":
        raise Refusal("%s takes a file, and not `-`; ./- is a file of that name" % spelling)
    if kind.most and not is_number(value, kind.most):
        raise Refusal("%s takes %s, and not '%s'" % (spelling, kind.words, visible(value)))
    if kind in (SIGNALS, COLOR) and value not in kind.completed.split():
        raise Refusal("%s takes %s, and not '%s'" % (spelling, kind.words, visible(value)))
    if kind is HISTORY and not is_history_size(value):
        raise Refusal("%s takes %s, and not '%s'" % (spelling, kind.words, visible(value)))
    if kind is RECORDER and value not in RECORDERS:
        raise Refusal("%s takes %s, and not '%s'" % (spelling, NAMES, visible(value)))
    if kind is CODE and value not in COUNTS:
        raise Refusal("%s takes %s that SUMMARY has of what was left out, and not '%s'" % (spelling, kind.words, visible(value)))
    return value


def is_number(text: str, most: int) -> bool:
    is_written_so = 0 < len(text) <= len(str(most)) and text[0] != "0" and text.strip("0123456789") == ""
    return is_written_so and int(text) <= most
