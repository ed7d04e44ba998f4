"""A condition whose lock is taken again after a wait, with another lock held; and that lock before the condition."""
import threading

from pairs import run_apart

journal = threading.Lock()
queue = threading.Condition()
is_ready = False


def wait_for_work():
    with journal:
        with queue:
            while not is_ready:
                queue.wait(0.05)


def give_work():
    global is_ready
    with queue:
        is_ready = True
        with journal:
            pass


def begin_work():
    global is_ready
    with queue:
        is_ready = True


run_apart(begin_work, wait_for_work, give_work)
