"""The file of what threads hold and wait for, which `lockdep provoke` makes and reads: recorders/pthread/provoke/provoke.h describes it. A
caller, a thread's name, and the class of a lock behind a number of that, is there as the place of its line in a second file, whose name has
`.texts` at the end. Both files are opened for each access, so that the program has no open file that it doesn't know about."""
import fcntl
import os
import struct
from _signal import SIGALRM
from _thread import allocate_lock
from time import monotonic

from .log import close_file, open_file, write_bytes

# The sizes of provoke.h.
MOST_ORDERS = 64
MOST_TIMERS = 16
MOST_THREADS = 1024
MOST_HELD = 48
MOST_CALLERS = 16
CALLERS_OF_HELD = 8
OF_ORDER = 6  # numbers that are counted of each order
HEAD, COUNTS = struct.Struct("=8sII"), struct.Struct("=%dI" % (OF_ORDER * MOST_ORDERS))
THREAD, HELD = struct.Struct("=iiIIIIQII%dQIIQII" % MOST_CALLERS), struct.Struct("=QBBHIQ%dQ" % CALLERS_OF_HELD)
FIELDS, NOBODY = THREAD.unpack(bytes(THREAD.size)), b"\0\0\0\0"
SIZE_OF_THREAD = THREAD.size + MOST_HELD * HELD.size
FIRST_THREAD = HEAD.size + COUNTS.size
TIMER, PROCESS = struct.Struct("=iiQQQ"), struct.Struct("=i")
OTHERS, MOST_NANOSECONDS = -2, 2**64 - 1  # of timers for which there is no row, which may be armed
FIRST_TIMER = FIRST_THREAD + MOST_THREADS * SIZE_OF_THREAD
NANOSECONDS, MILLISECONDS = 1000000000, 1000  # of a second
MOST_COUNTED = 0xffffffff
REACHED, UNDER, PAUSES, ASIDE, FIRST, LAST = range(OF_ORDER)  # what is counted of an order, and when it was come to first and last
MOST_PAUSES = 40  # of an order

pread, pwrite = os.pread, os.pwrite  # (a package may put its own into `os`)
table = ""  # the path of the file
pauses = {}  # how often threads stood at an order, wherever that was
is_armed = False  # whether the file says that the timer of this process is


def accessed(path, flags, access):
    """What an access to a file results in; None if there is an error, which never reaches the program."""
    try:
        file = open_file(path, flags | os.O_CLOEXEC)
        try:
            return access(file)
        finally:
            close_file(file)
    except OSError:
        return None


# What was counted and isn't in the file yet: numbers by an order and what it is. In the file it is at once as long as that is little, and
# when the process ends, so that what is said of a run is the truth.
fresh, counted = {}, 0
counting = allocate_lock()
FEW, BATCH = 1000, 64


def count(orders, under, what=REACHED):
    """The second lock of orders is asked for, with the first ones of some of them held."""
    global counted
    with counting:
        for each in [(order, what) for order in orders] + [(order, UNDER) for order in under]:
            fresh[each] = fresh.get(each, 0) + 1
        now = int(monotonic() * MILLISECONDS) & MOST_COUNTED
        for order in orders:
            fresh.setdefault((order, FIRST), now)
            fresh[order, LAST] = now
        counted += 1
        if counted < FEW or counted % BATCH == 0:
            write_counts()


def added(what, before, number):
    """What the file has when what was counted is added to what it had."""
    if what in (FIRST, LAST):
        return before if what == FIRST and before else number
    return min(before + number, MOST_COUNTED)


def write_counts():
    """Adds what was counted to the file, to which other processes add too. The result is what that has then."""
    def add(file):
        fcntl.flock(file, fcntl.LOCK_EX)
        counts = list(COUNTS.unpack(pread(file, COUNTS.size, HEAD.size)))
        for (order, what), number in fresh.items():
            counts[OF_ORDER * order + what] = added(what, counts[OF_ORDER * order + what], number)
        pwrite(file, COUNTS.pack(*counts), HEAD.size)
        fcntl.flock(file, fcntl.LOCK_UN)  # (a process that was forked meanwhile has the file open too)
        fresh.clear()
        return counts
    return accessed(table, os.O_RDWR, add)


def write_last():
    """Writes what isn't in the file yet."""
    with counting:
        write_counts()


def pauses_before(order):
    """A thread is about to stand at an order: how often threads did before, or the most if it can't be known."""
    if pauses.get(order, 0) < MOST_PAUSES:
        with counting:
            fresh[order, PAUSES] = 1
            counts = write_counts()
            pauses[order] = counts[OF_ORDER * order + PAUSES] if counts else MOST_PAUSES + 1
        return pauses[order] - 1
    return MOST_PAUSES


def free_place(process, thread):
    """Where the file has room for a thread; None if it has none."""
    def take(file):
        fcntl.flock(file, fcntl.LOCK_EX)
        found = next((at for at in range(FIRST_THREAD, FIRST_THREAD + MOST_THREADS * SIZE_OF_THREAD, SIZE_OF_THREAD)
                      if pread(file, len(NOBODY), at) == NOBODY), None)
        if found is not None:
            pwrite(file, THREAD.pack(process, thread, *[0] * (len(FIELDS) - 2)), found)
        fcntl.flock(file, fcntl.LOCK_UN)
        return found
    return accessed(table, os.O_RDWR, take)


numbers = {}


def number_of(text):
    """Where the second file has a text, which is added to it if it isn't there: 0 if that fails."""
    number = numbers.get(text)
    if number is None:
        line = text.encode("utf-8", "replace") + b"\n"

        def add(file):
            write_bytes(file, line)
            return os.lseek(file, 0, os.SEEK_CUR) - len(line)
        number = numbers.setdefault(text, accessed(table + ".texts", os.O_WRONLY | os.O_APPEND, add) or 0)  # (another thread may have been first)
    return number


def put_thread(place, raw):
    """Writes what the file has of a thread."""
    accessed(table, os.O_WRONLY, lambda file: pwrite(file, raw, place))


def put_timer(left, again):
    """Writes that the timer of this process sends its signal in so many seconds, and how often again, if it does."""
    global is_armed
    if left or is_armed:
        is_armed = left > 0
        at = int((monotonic() + left) * NANOSECONDS) if left else 0
        own = os.getpid()

        def put(file):
            fcntl.flock(file, fcntl.LOCK_EX)
            owners = [PROCESS.unpack(pread(file, PROCESS.size, FIRST_TIMER + row * TIMER.size))[0] for row in range(MOST_TIMERS)]
            row = next((row for wanted in (own, 0) for row, owner in enumerate(owners) if owner == wanted), None)
            raw = TIMER.pack(own, SIGALRM, at, int(again * NANOSECONDS), 1) if row is not None else TIMER.pack(own, OTHERS, MOST_NANOSECONDS, 0, 0)
            pwrite(file, raw, FIRST_TIMER + (MOST_TIMERS - 1 if row is None else row) * TIMER.size)
            fcntl.flock(file, fcntl.LOCK_UN)
        accessed(table, os.O_RDWR, put)


def begin_in_child():
    """A forked process has counted nothing yet, and no timer."""
    global counting, is_armed
    is_armed = False
    counting = allocate_lock()
    fresh.clear()
