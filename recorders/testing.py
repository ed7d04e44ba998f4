"""What the tests of the recorders that share the code for making traces have in common: counted comparisons, and what is
required of every recording. LOCKDEP may name another checker."""
import difflib
import os
import re
import shutil
import signal
import subprocess
import sys
import time

script = os.path.dirname(os.path.realpath(sys.argv[0]))
name_of_recorder = "recorders/" + os.path.basename(script)
top = os.path.dirname(os.path.dirname(script))
lockdep = os.environ.get("LOCKDEP", os.path.join(top, "lockdep"))
has_compiler = shutil.which(os.environ.get("CC", "cc")) is not None
LIMIT = 600  # of one program with its recording, in seconds: long enough beside others that use all processors
counts = {True: 0, False: 0}
# A shell that starts a test in the background lets it ignore SIGINT, and so all that it starts.
signal.signal(signal.SIGINT, signal.default_int_handler)


# What is said behind verdicts.
APART = "starts, joins and messages keep these steps apart in this recording"
BY_JOIN = "these recorded steps, in another order, stand still, unless the thread is joined only when it has said that it is done"
BROKEN_OFF = "a wait for a lock of its classes was broken off: the order of steps has no wait that didn't end"
NOT_OF_C = "the order of steps has none of C libraries that the program loads"


def kept_apart(who):
    """What is said behind the locks of a finding whose steps are kept apart, by so many threads."""
    return "kept apart, by %s: %s" % (who, APART)


def by_join(who):
    return "possible by a join, by %s: %s" % (who, BY_JOIN)


def broken_off(who):
    return "not known, by %s: %s" % (who, BROKEN_OFF)


def same(what, wanted, got):
    """Whether something is as expected, which is counted."""
    counts[wanted == got] += 1
    if wanted != got and isinstance(got, str) and "\n" in got + str(wanted):
        print("%s: %s:" % (name_of_recorder, what))
        print("\n".join(list(difflib.unified_diff(str(wanted).split("\n"), got.split("\n"), "wanted", "got",
                lineterm="", n=0))[:30]))
    elif wanted != got:
        print("%s: %s: %r and not %r" % (name_of_recorder, what, got, wanted))
    return wanted == got


def has(what, wanted, text):
    if not same(what, True, wanted in text):
        print("%s: %s: no %r in %s" % (name_of_recorder, what, wanted, text))


def end_group(child):
    """Ends a process and all that it started, which would keep its output open."""
    try:
        os.killpg(child.pid, signal.SIGKILL)
    except ProcessLookupError:
        pass


def await_that(is_so):
    """Waits until something is so, which is asked again and again; not longer than LIMIT."""
    end = time.monotonic() + LIMIT
    while not is_so() and time.monotonic() < end:
        time.sleep(0.05)


def processes_of(process):
    """A process and all that it started, of which the number is known still."""
    children = contents("/proc/%d/task/%d/children" % (process, process)).split()
    return [process] + [each for child in children for each in processes_of(int(child))]


def has_ended(process):
    """Whether a process has ended: one that nobody has asked about since has no memory."""
    try:
        return not contents("/proc/%d/maps" % process)
    except OSError:
        return True


def sleeps_of(processes):
    """How often each thread of processes has gone to sleep. None if one of them runs."""
    sleeps = {}
    for each in processes:
        for thread in os.listdir("/proc/%d/task" % each):
            status = contents("/proc/%d/task/%s/status" % (each, thread)).splitlines()
            words = dict(line.split(":\t", 1) for line in status if ":\t" in line)
            if not words["State"].startswith("S"):
                return None
            sleeps[thread] = words["voluntary_ctxt_switches"]
    return sleeps


AWHILE = 0.2  # a thread that waits so many seconds at once waits for ever: the recorder's own waits are shorter


def are_asleep(processes):
    """Whether no thread of processes has run for a while."""
    try:
        before = sleeps_of(processes)
        time.sleep(AWHILE)
        return before is not None and before == sleeps_of(processes)
    except OSError:  # (one has ended meanwhile)
        return False


def all_are_asleep(process):
    """Whether no thread of a process, and of all that it started, has run for a while."""
    try:
        return are_asleep(processes_of(process))
    except OSError:  # (one has ended before its own were known)
        return False


def await_asleep(process):
    """Waits until a process, and all that it started, waits for what doesn't come by itself."""
    await_that(lambda: all_are_asleep(process))


class Run:
    """What a command wrote, and its status. After LIMIT it is ended, with all that it started."""

    def __init__(self, words, **named):
        child = subprocess.Popen(words, stdin=subprocess.DEVNULL, stdout=subprocess.PIPE, stderr=subprocess.PIPE, start_new_session=True,
                                 **named)
        try:
            out, said = child.communicate(timeout=LIMIT)
        except subprocess.TimeoutExpired:
            end_group(child)
            raise
        self.status, self.out, self.said = child.returncode, out.decode(), said.decode()


def contents(path):
    with open(path, encoding="utf-8") as file:
        return file.read()


def placed(wanted, source):
    """Expected text in which `{TEXT}` stands for the number of the line of a source that has TEXT, and `{TEXT#2}` for that of the second such line:
    an edit of a test's program moves no expected value."""
    lines = contents(source).split("\n")

    def number_of(found):
        text, nth = re.fullmatch(r"(.*?)(?:#(\d+))?", found.group(1)).groups()
        numbers = [number for number, line in enumerate(lines, 1) if text in line]
        return str(numbers[int(nth or 1) - 1]) if len(numbers) >= int(nth or 1) else "nowhere"
    return re.sub(r"\{([^{}]+)\}", number_of, wanted)


def task_names(folder):
    return sorted(name for name in os.listdir(folder) if re.fullmatch(r"task-\d+\.csv", name))


def traces(folder):
    """All traces, one after the other."""
    return "".join("== %s\n%s" % (name, contents(os.path.join(folder, name))) for name in task_names(folder))


def write(name, text):
    with open(name, "w", encoding="utf-8") as file:
        file.write(text)


def check(name, folder=None):
    """Whether the checker accepts the traces, by classes and by single locks, and whether these differ only in the numbers."""
    folder = folder or name
    for place in (folder, os.path.join(folder, "objects")):
        files = [os.path.join(place, task) for task in task_names(place)]
        done = Run([lockdep, "check", "--many"] + files)
        same(name + ": the checker's status", True, done.status in (0, 1) and not done.said)
    for task in task_names(folder):
        by_lock = re.sub(r"#(\d+|rest)(@\d+)?,", ",", contents(os.path.join(folder, "objects", task)))
        if by_lock != contents(os.path.join(folder, task)):
            same(name + ": by single locks", contents(os.path.join(folder, task)), by_lock)
    return done


def check_history(name, folder):
    """Whether a recording's history is accepted by the checker, and no lock is left out of it, whatever its threads wait for."""
    made = Run([lockdep, "record", "--histories", folder])
    same(name + ": the history is made", 0, made.status)
    judged = Run([lockdep, "schedule"] + made.out.split())
    same(name + ": the history is accepted", (True, ""), (judged.status in (0, 1), judged.said))
    same(name + ": no lock is left out of it", [], [entry for entry in os.listdir(os.path.join(folder, "history")) if entry.endswith(".left-out")])


def summary(folder, name):
    found = re.search(r"^%s (\d+)$" % name, contents(os.path.join(folder, "SUMMARY")), re.M)
    return int(found.group(1)) if found else 0


def unfolded(text):
    """Whole traces of a text that has a nest of locks in each line: several events, and `48*EVENT` for so many of one."""
    lines = []
    for line in text.splitlines():
        words = line.split()
        if words[0] == "==":  # the name of a trace
            lines.append(" ".join(words[:2]))
            words = words[2:]
        for word in words:
            times, star, event = word.partition("*")
            lines += [event] * int(times) if star and times.isdigit() else [word]
    return "".join(line + "\n" for line in lines)


def try_expected(record, traces_of, losses, left_out, statuses=None):
    """Records each program of tests/ that has whole traces, NAME.expected, and compares them and what was left out; returns the runs."""
    tests, runs = os.path.join(script, "tests"), {}
    for expected in sorted(os.listdir(tests)):
        name, kind = os.path.splitext(expected)
        if kind != ".expected":
            continue
        done = runs[name] = record(name)
        same(name + ": status", (statuses or {}).get(name, 0), done.status)
        same(name + ": traces", unfolded(contents(os.path.join(tests, expected))), traces_of(name))
        check(name)
        for loss in losses:
            same("%s: %s" % (name, loss), left_out.get(name, {}).get(loss, 0), summary(name, loss))
    return runs


def single_locks(folder):
    """How many names of locks a recording has, by single locks."""
    return len(set(re.findall(r"acq,(\S+),0,w", "".join(
        contents(os.path.join(folder, "objects", task)) for task in task_names(os.path.join(folder, "objects"))))))


def explained(folder):
    """The output of `confirm` and `where`, which need a C compiler."""
    confirmed = subprocess.run([os.path.join(top, "recorders/pthread/confirm"), "--verbose", folder], stdout=subprocess.PIPE,
            stderr=subprocess.PIPE,
                               timeout=LIMIT, env=dict(os.environ, LOCKDEP=lockdep))
    done = subprocess.run([os.path.join(top, "recorders/pthread/where"), folder], input=confirmed.stdout,
            stdout=subprocess.PIPE,
                          stderr=subprocess.PIPE, timeout=LIMIT)
    return done.stdout.decode()


def can_mount():
    """Whether a small disk can be mounted, for one command."""
    try:
        return os.geteuid() == 0 and Run(["unshare", "-m", "mount", "-t", "tmpfs", "-o", "size=4k", "tmpfs", "/mnt"]).status == 0
    except OSError:
        return False


FILLED = "mount -t tmpfs -o size=256k tmpfs full && head -c $0 /dev/zero >full/fill 2>/dev/null; \"$@\"; echo $? $(ls -A full)"


def try_filled(words, name, room):
    """Records a program, which says a word, has one finding and ends with status 7, into a folder on a disk that is full but for
    that many kilobytes or fewer."""
    os.makedirs("full", exist_ok=True)
    for filled in range(256, 255 - room, -8):
        done = Run(["unshare", "-m", "sh", "-c", FILLED, "%dk" % filled] + words)
        what = "a disk of 256k with %dk" % filled
        has(what + ": what is said", name + "no space left in full/traces", done.said)
        same(what + ": how often", 1, done.said.count("no space left"))
        same(what + ": no traceback", False, "Traceback" in done.said or "Exception" in done.said)
        same(what + ": status", "2", done.out.splitlines()[-1].split()[0])
        if "over" not in done.out:
            same(what + ": what is there", "2 fill\n", done.out)
        elif "judged" in done.said:
            has(what + ": the program's status", "this run isn't judged (the command ended with status 7)", done.said)


def try_filled_once(words):
    """Records a program that fills the disk, takes locks in new orders, and makes room again: that isn't lost in silence."""
    done = Run(["unshare", "-m", "sh", "-c", FILLED, "0"] + words)
    same("a disk that was full for a while: the program's output", "over", done.out.split("\n")[0])
    has("a disk that was full for a while", "left out: 1 process whose recording couldn't be written to its end", done.said)


def run_parts(parts):
    """Runs the parts that the command line names, or all, in a separate folder, and ends with the counts."""
    for part in parts:
        if len(sys.argv) < 2 or part.__name__ in sys.argv[1:]:
            try:
                part()
            except (OSError, ValueError, KeyError, IndexError, subprocess.SubprocessError) as error:
                same(part.__name__, "no error", repr(error))


def end():
    os.chdir("/")
    print("%d passed, %d failed" % (counts[True], counts[False]))
    sys.exit(counts[False] > 0)
