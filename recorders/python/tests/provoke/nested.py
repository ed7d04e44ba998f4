"""Locks that functions within functions take, and a program's own context manager; and four of them."""
import contextlib
import threading

from pairs import run_apart


def main():
    one, two, three, four = threading.Lock(), threading.Lock(), threading.Semaphore(1), threading.BoundedSemaphore(1)

    @contextlib.contextmanager
    def both(first, second):
        with first:
            second.acquire()
            try:
                yield
            finally:
                second.release()

    def worker(first, second):
        def work():
            with both(first, second):
                pass
        return work

    run_apart(worker(one, two), worker(two, three), worker(three, four), worker(four, one))


main()
