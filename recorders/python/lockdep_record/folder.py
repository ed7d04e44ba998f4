"""The folder of a recording by the recorders of Python and Java. It is that of the driver, tool/lockdep; only its traces are made here."""
import errno
import os
import sys

HOME = os.path.dirname(os.path.dirname(os.path.dirname(os.path.dirname(os.path.realpath(__file__)))))
sys.path.insert(0, os.path.join(HOME, "tool"))
from lockdep.record import folder as driver, losses, run_settings, summary  # noqa: E402, F401
from lockdep.base.saying import RUN, Refusal, say_refusal, typed  # noqa: E402, F401
sys.path.pop(0)

GUESSED = "guessed\n"  # in the mark of a recording whose recorder the user didn't name


def remove(folder):
    """Removes a folder with all that is in it, which is hardly ever more than files."""
    with os.scandir(folder) as found:
        entries = list(found)
    if any(entry.is_dir(follow_symlinks=False) for entry in entries):
        from shutil import rmtree  # (takes longer to import than all of this)
        rmtree(folder)
        return
    for entry in entries:
        os.unlink(entry.path)
    os.rmdir(folder)


class Folder(driver.Folder):
    """The folder of a recording."""

    def __init__(self, path, recorder):
        super().__init__(driver.checked(path))
        self.recorder, self.own_mark = recorder, os.path.join(self.raw, recorder)

    def begin(self, is_chosen, asked_of_run):
        """Prepares the folder for a recording, which `lockdep run` may have begun."""
        self.prepare()
        self.put_run_settings(asked_of_run)
        self.put(self.recorder, "" if is_chosen else GUESSED)

    def watched(self, command, environment, is_chosen):
        """The environment of a command. Unless the user chose this recorder, the locks of C libraries are looked at too."""
        if is_chosen and "LOCKDEP_LIBRARIES" not in environment:
            return environment
        from lockdep.finish import libraries
        return libraries.without(environment) if is_chosen else libraries.watched(HOME, self, command, environment)

    def finish(self):
        """Makes the traces. If they can't be written, the recording stays, and they can be made later."""
        if not os.path.isfile(self.own_mark):
            raise Refusal("%s has no recording whose traces can be made" % self.path)
        try:
            self.make_traces()
        except OSError as error:
            self.drop_traces()
            fault = driver.fault(error, self.path)
            raise Refusal("%s; when there is some, `lockdep record --finish %s` makes the traces" % (fault, typed(self.path))
                          if error.errno in (errno.ENOSPC, errno.EDQUOT) else fault)
        self.keep_history()
        driver.remove_tree(os.path.join(self.path, driver.STAGE))

    def keep_history(self):
        """Packs the recording, if it has an order of steps, which is made into histories when it is asked for; or drops it."""
        if any(name.endswith("-" + driver.HISTORY) for name in os.listdir(self.raw)):
            from lockdep.finish import traces
            traces.pack(self)
        else:
            remove(self.raw)

    def make_traces(self):
        from lockdep.finish import log_traces
        with open(self.own_mark, encoding="utf-8") as file:
            is_chosen = file.read() != GUESSED
        made, processes = log_traces.finish(self.path, self.raw, self.recorder, False,
                                            lambda processes: self.counts_of_starts(processes, is_chosen))
        self.add_libraries(processes, made, is_chosen)
        if os.path.isdir(os.path.join(self.raw, driver.INSIDE)):
            from lockdep.finish import libraries
            libraries.add_traces(HOME, self.path, self.raw, made)
        summary.write(self.path, made, self.recorder)
        self.list_made()

    @staticmethod
    def counts_of_starts(processes, is_chosen):
        """The counts of the programs that the processes started. Programs with locks of other kinds count as left out unless the user chose this
        recorder."""
        if not any(process.starts for process in processes):
            return []
        from lockdep_record import started
        return started.counts_of(processes, is_chosen)

    @staticmethod
    def add_libraries(processes, made, is_chosen):
        """Adds the libraries that the processes loaded to what was counted."""
        loaded = dict.fromkeys(library for process in processes for library in process.libraries)
        if loaded:
            from lockdep_record import started
            started.add_libraries(made, loaded, is_chosen)

    def drop_traces(self):
        """Takes away the traces that could be written of those that couldn't all be."""
        for name in reversed(self.names()):
            path = os.path.join(self.path, name)
            try:
                (os.rmdir if os.path.isdir(path) and not os.path.islink(path) else os.unlink)(path)
            except OSError:
                pass
        try:
            os.rmdir(os.path.join(self.path, "objects"))
            self.write_list([])
        except OSError:
            pass

    # ---- What is printed at the end.

    def summary(self):
        found = summary.read(self.path, HOME)
        if found is None:
            raise Refusal(self.unmade() if self.mark() else "%s has no recording" % self.path)
        return found

    def has_unreached(self):
        """Whether a program that was started couldn't be recorded."""
        return self.summary().number("unreached-runs") > 0

    def say_what_was_seen(self):
        """Prints what was recorded and what was left out. Returns 0, 1 if something was left out, and 2 if no lock was seen."""
        from lockdep.say.seen import say_what_was_seen_of_own
        return say_what_was_seen_of_own(self.path, self.summary())
