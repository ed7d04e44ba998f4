"""A main thread with two locks, which another one took in the opposite order before. `interrupted.py handler` takes the second one in a
handler of a signal's; with `interrupted.py held-back` only the main thread runs, and Ctrl-C comes while it has the first one."""
import os
import signal
import sys
import threading
import time

first, second = threading.Lock(), threading.Lock()
is_begun = threading.Event()
way = sys.argv[1] if sys.argv[1:] else ""


def backwards():
    with second, first:
        pass


def take_second(number=None, frame=None):
    with second:
        pass


def interrupt():
    is_begun.wait()
    time.sleep(0.1)
    os.kill(os.getpid(), signal.SIGINT)


signal.signal(signal.SIGUSR1, take_second)
other = threading.Thread(target=interrupt if way == "held-back" else backwards)
other.start()
if way != "held-back":
    other.join()
try:
    with first:
        is_begun.set()
        if way == "handler":
            os.kill(os.getpid(), signal.SIGUSR1)
        else:
            take_second()
    time.sleep(10 if way == "held-back" else 0)
    print("done")
except KeyboardInterrupt:
    print("interrupted, with locks", first.locked(), second.locked())
sys.exit(7)
