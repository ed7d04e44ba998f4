"""Two pairs of locks, each in both orders by the same two calls: those of the first pair by threads that run one after the other, so that
only the second pair can stand still."""
import threading

from pairs import run_apart

a, b = threading.Lock(), threading.Lock()
c, d = threading.Lock(), threading.Lock()


def both(outer, inner):
    with outer:
        with inner:
            pass


def run_in_turn(*words):
    thread = threading.Thread(target=both, args=words)
    thread.start()
    thread.join()


def first():
    both(c, d)


def second():
    both(d, c)


run_in_turn(a, b)
run_in_turn(b, a)
run_apart(first, second)
