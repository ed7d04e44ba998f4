"""What the recorders whose traces are made here have in common: their command line, and the recorded command."""
import _signal as signal  # what `signal` puts around it takes longer to import than all of this
import os
import sys
from time import monotonic, sleep

from lockdep_record.folder import RUN, Folder, Refusal, run_settings, say_refusal

PASSED_ON = (signal.SIGHUP, signal.SIGINT, signal.SIGQUIT, signal.SIGTERM, signal.SIGUSR1, signal.SIGUSR2)
FROM_KERNEL = 128  # the code of a signal that a terminal sends
# How often it is seen at least whether a signal came to the whole group, and the seconds from the first look to the second; then
# twice as many each time. Who sends it to this process and then to the group may have to wait for a processor in between: it is
# seen until the sender has slept, or has had so many ticks of one.
WITNESS_LOOKS, WITNESS_PAUSE, SENDER_TICKS = 5, 0.001, 4
PATIENCE = 2  # how long after Ctrl-C, in seconds, a command may still run before that is said


def is_command(word):
    """Whether what is to be recorded is a separate command, and not an argument for the language."""
    from shutil import which
    return not word.startswith("-") and which(word) is not None


def block_signals():
    """From here on signals that are passed on are waited for."""
    signal.pthread_sigmask(signal.SIG_BLOCK, PASSED_ON + (signal.SIGCHLD,))


def start(command, environment):
    """Starts the command, with the signals as they were for this process. Returns its number."""
    ignored = [number for number in PASSED_ON if signal.getsignal(number) == signal.SIG_IGN]
    for number in ignored:
        signal.signal(number, lambda *_: None)  # what is ignored can't be waited for
    child = os.fork()
    if child:
        return child
    try:
        for number in ignored:
            signal.signal(number, signal.SIG_IGN)
        signal.signal(signal.SIGINT, signal.SIG_IGN if signal.SIGINT in ignored else signal.SIG_DFL)
        for number in (signal.SIGPIPE, signal.SIGXFSZ):
            signal.signal(number, signal.SIG_DFL)
        signal.pthread_sigmask(signal.SIG_SETMASK, mask)
        os.execvpe(command[0], command, environment)
    except OSError as error:
        print("record: %s: %s" % (command[0], "there is no such command" if isinstance(error, FileNotFoundError)
                                  else "it can't be run"), file=sys.stderr, flush=True)
        os._exit(127 if isinstance(error, FileNotFoundError) else 126)


mask = signal.pthread_sigmask(signal.SIG_BLOCK, ())


def ticks_if_awake(process):
    """The ticks of a processor that a process has had, if it runs or waits for one, or for the system; none if it sleeps or is gone."""
    try:
        with open("/proc/%d/stat" % process, "rb") as file:
            words = file.read().rpartition(b")")[2].split()
    except OSError:
        return None
    return int(words[11]) + int(words[12]) if words[0] in (b"R", b"D") else None


def may_send_more(sender, ticks):
    """Whether a sender that had had so many ticks may not have come to its next signal yet."""
    now = None if ticks is None else ticks_if_awake(sender)
    return now is not None and now - ticks < SENDER_TICKS


class Witness:
    """A process of this one's group that does nothing. The signals that are passed on are blocked in it, so it keeps them: one that it has
    got too was for the whole group, as `timeout` and `kill 0` send them, and the command has that already. It has no file open but a
    pipe, by which it ends with this process, however that ends."""

    def __init__(self):
        self.begin()

    def begin(self):
        own_end, self.end = os.pipe()
        try:
            self.pid = os.fork()
        except OSError:  # (then a signal to the group comes twice)
            self.pid = None
        if self.pid == 0:
            try:
                stay(own_end)
            finally:
                os._exit(0)
        os.close(own_end)

    def has(self, number):
        """Whether it has got a signal."""
        try:
            with open("/proc/%s/status" % self.pid, encoding="utf-8", errors="replace") as file:
                words = dict(line.split(":", 1) for line in file if ":" in line)
            return int(words["ShdPnd"], 16) >> (number - 1) & 1 == 1
        except (OSError, KeyError, ValueError):
            return False

    def saw(self, number, sender):
        """Whether a signal that has just come was for the whole group. Then the next one like it is seen by a new witness, and what came
        to this process twice, as by `timeout`, counts once."""
        ticks, look, may_come = ticks_if_awake(sender), 0, True
        while may_come:
            may_come = look < WITNESS_LOOKS or may_send_more(sender, ticks)  # (before the look, so that there is one after it)
            if self.has(number):
                sleep(WITNESS_PAUSE)
                signal.sigtimedwait([number], 0)
                self.end_it()
                self.begin()
                return True
            sleep(WITNESS_PAUSE * 2 ** (look if look < WITNESS_LOOKS else 0))
            look += 1
        return False

    def end_it(self):
        os.close(self.end)
        if self.pid:
            os.kill(self.pid, signal.SIGKILL)
            os.waitpid(self.pid, 0)


def stay(own_end):
    """What a witness does: it waits for the other end of its pipe to be closed."""
    for name in os.listdir("/proc/self/fd"):
        if int(name) != own_end:
            try:
                os.close(int(name))
            except OSError:  # the list's own
                pass
    os.read(own_end, 1)


# Why a program may go on after Ctrl-C, and what ends it, by the recorder.
STILL_RUNS = {
    "python": "as Python does while it waits for its threads; a second Ctrl-C ends that",
    "java": "as Java does until its shutdown hooks have ended; SIGKILL ends it, and what is recorded stays",
}


def wait_for(child, witness, still_runs):
    """Waits for the command and passes signals on to it. What a terminal or `timeout` sends, it sends to the command too. If the command goes on after Ctrl-C,
    a line says so, unless it is empty."""
    interrupted = None
    while True:
        ended, status = os.waitpid(child, os.WNOHANG)
        if ended:
            break
        came = next_signal(interrupted)
        if came is None:
            if still_runs:
                print(still_runs, file=sys.stderr, flush=True)
            interrupted = float("inf")
        elif came.si_signo != signal.SIGCHLD:
            is_of_group = os.getpgid(child) == os.getpgrp()
            is_told = witness.saw(came.si_signo, came.si_pid) or came.si_code == FROM_KERNEL
            if not (is_told and is_of_group):
                os.kill(child, came.si_signo)
            if came.si_signo == signal.SIGINT and interrupted is None:
                interrupted = monotonic()
    witness.end_it()
    return 128 + os.WTERMSIG(status) if os.WIFSIGNALED(status) else os.WEXITSTATUS(status)


def next_signal(interrupted):
    """The next signal; none if the command still runs so long after Ctrl-C that this has to be said."""
    awaited = PASSED_ON + (signal.SIGCHLD,)
    if interrupted is None or interrupted == float("inf"):
        return signal.sigwaitinfo(awaited)
    return signal.sigtimedwait(awaited, max(0, interrupted + PATIENCE - monotonic()))


def command_end(status):
    """How the command ended, unless well."""
    if not status:
        return ""
    from signal import Signals
    name = Signals(status - 128).name if status - 128 in signal.valid_signals() else None
    return " (the command ended with status %d%s)" % (status, ", as by " + name if name else "")


def record(folder, command, environment, then, is_chosen, asked_of_run):
    """Records a command in an environment. Ends with its status, or becomes what runs after it."""
    folder.begin(is_chosen, asked_of_run)
    is_said = RUN in os.environ and not run_settings.settings_of(asked_of_run).has("quiet")
    still_runs = "lockdep: the command still runs, " + STILL_RUNS[folder.recorder] if is_said else ""
    environment = folder.watched(command, environment, is_chosen)
    block_signals()
    witness = Witness()
    child = start(command, environment)
    status = wait_for(child, witness, still_runs)
    try:
        folder.finish()
    except Refusal as refusal:
        say_refusal(str(refusal))
        raise Refusal("this run isn't judged" + command_end(status))
    if then:
        os.close(folder.file)
        for number in PASSED_ON:
            signal.signal(number, signal.SIG_IGN)  # what judges the traces isn't disturbed, nor by what has come since
        signal.pthread_sigmask(signal.SIG_SETMASK, mask)
        os.execv(then, [then, "--end", folder.path, str(status)])
    seen = folder.say_what_was_seen()
    os._exit(status or (2 if seen == 2 or folder.has_unreached() else 0))  # (what Python does at its end takes longer than most of this)


def finish_again(folder):
    """Makes the traces of a recording whose recorder was killed."""
    if os.path.isdir(folder.path):
        folder.lock()
        run_settings.drop(folder.path)
    folder.finish()


def value(words, option, what="a folder"):
    """The word that belongs to an option."""
    if not words:
        raise Refusal("%s needs %s" % (option, what))
    return words.pop(0)


def do(words, recorder):
    """Reads the command line of a recorder, and does what it says. The recorder itself handles its own options."""
    path, then, asked_of_run = "lockdep-traces", None, run_settings.take_over()
    while words:
        word = words.pop(0)
        if word == "-o":
            path = value(words, word)
        elif word == "--then":
            then = value(words, word)
        elif word in ("--finish", "--summary"):
            folder = Folder(value(words, word), recorder.name)
            if word == "--finish":
                finish_again(folder)
            return folder.say_what_was_seen()
        elif word in ("-h", "--help"):
            print(recorder.usage, end="")
            return 0
        elif word == "--":
            break
        elif not recorder.takes(word, words):
            words.insert(0, word)
            break
        elif recorder.is_command_next:
            break
    if not words:
        raise Refusal("which program? `%s --help` says how to call this" % recorder.called)
    folder = Folder(path, recorder.name)
    command = recorder.command(words)  # (which the environment may have to name)
    environment = dict(os.environ, **recorder.environment(folder.raw))
    return record(folder, command, environment, then, recorder.is_chosen, asked_of_run)


def main(recorder):
    """Does what the command line says, and ends with its status."""
    try:
        sys.exit(do(sys.argv[1:], recorder))
    except Refusal as refusal:
        say_refusal(str(refusal))
        sys.exit(2)
