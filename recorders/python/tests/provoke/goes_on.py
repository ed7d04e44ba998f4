"""Threads that wait for one another, until something ends that, or the whole program: goes_on.py WAY"""
import _thread
import os
import signal
import sys
import threading
import time

from pairs import run_apart, wait_until

LOOKS, LOOK, SECONDS = 1200, 0.05, 600  # which are never over: the run is judged long before
first, second = threading.Lock(), threading.Lock()
outer_lock, inner_lock = threading.RLock(), threading.RLock()  # which only their holders release
over, holding = [], []


def take(outer, inner):
    with outer, inner:
        pass
    over.append(outer)


def take_own(outer, inner):
    with outer:
        holding.append(outer)
        with inner:
            holding.remove(outer)
    over.append(outer)


def looks_on(end):
    """A third thread does something about it, if it has seen both locks held so many times, as they are while both stand still."""
    seen = 0
    while seen < LOOKS:
        if len(over) == 2:
            return
        time.sleep(LOOK)
        seen += (first.locked() and second.locked()) or len(holding) == 2
    end()


def interrupted():
    """The main thread waits, until another one has it interrupted, as by Ctrl-C."""
    signal.signal(signal.SIGINT, signal.default_int_handler)
    other = threading.Thread(target=lambda: (wait_until(lambda: over, 0.1), take_own(inner_lock, outer_lock)))
    other.start()
    try:
        take_own(outer_lock, inner_lock)
    except KeyboardInterrupt:
        print("interrupted")
    other.join()
    print("done")


def give_up(number, frame):
    raise TimeoutError


def start_child():
    """A child, with a timer of its own, waits for a lock when its parent stands still by now."""
    child = os.fork()
    if child == 0:
        lock = threading.Lock()
        signal.alarm(SECONDS)
        time.sleep(1)
        lock.acquire()
        threading.Timer(0.1, lock.release).start()
        lock.acquire()
        os._exit(0)
    return child


def alarmed(is_forked):
    """The main thread waits, until the handler of an alarm raises an error."""
    signal.signal(signal.SIGALRM, give_up)
    signal.alarm(SECONDS)
    child = start_child() if is_forked else 0
    other = threading.Thread(target=lambda: (wait_until(lambda: over, 0.1), take(second, first)))
    other.start()
    try:
        take(first, second)
    except TimeoutError:
        print("gave up")
    other.join()
    signal.alarm(0)
    if child:
        os.waitpid(child, 0)
    print("done")


WAYS = {"release": second.release, "end": lambda: os._exit(7), "interrupt": _thread.interrupt_main}
if sys.argv[1] in WAYS:
    threading.Thread(target=looks_on, args=(WAYS[sys.argv[1]],)).start()
if sys.argv[1] == "release":
    run_apart(lambda: take(first, second), lambda: take(second, first))
elif sys.argv[1] == "end":
    run_apart(lambda: take_own(outer_lock, inner_lock), lambda: take_own(inner_lock, outer_lock))
elif sys.argv[1] == "interrupt":
    interrupted()
else:
    alarmed(sys.argv[1] == "forked")
