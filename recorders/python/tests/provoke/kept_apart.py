"""Programs that can't hang, though locks are taken in opposite orders: kept_apart.py WAY"""
import queue
import sys
import threading
from concurrent.futures import ThreadPoolExecutor

from pairs import run_apart

first, second, gate = threading.Lock(), threading.Lock(), threading.Lock()


def forwards():
    with first:
        with second:
            pass


def backwards():
    with second:
        with first:
            pass


def under_gate():
    run_apart(lambda: within_gate(forwards), lambda: within_gate(backwards))


def within_gate(work):
    with gate:
        work()


def in_turn():
    for work in forwards, backwards:
        thread = threading.Thread(target=work)
        thread.start()
        thread.join()
    print("done")


def tries():
    def backwards_if_free():
        with second:
            if first.acquire(blocking=False):
                first.release()
    run_apart(forwards, backwards_if_free)


def gives_up():
    def backwards_for_a_time():
        with second:
            if first.acquire(timeout=0.2):
                first.release()
    run_apart(forwards, backwards_for_a_time)


def by_id():
    locks = [threading.Lock() for _ in range(2)]

    def both(one, other):
        def work():
            lower, upper = sorted((one, other), key=id)
            with lower:
                with upper:
                    pass
        return work
    run_apart(both(*locks), both(*reversed(locks)))


def told_by(tell, wait):
    """Both at once, the second one when it is told to."""
    works = [threading.Thread(target=lambda: (wait(), backwards())), threading.Thread(target=lambda: (forwards(), tell()))]
    for work in works:
        work.start()
    for work in works:
        work.join()
    print("done")


def by_event():
    event = threading.Event()
    told_by(event.set, event.wait)


def by_barrier():
    barrier = threading.Barrier(2)
    told_by(barrier.wait, barrier.wait)


def by_queue():
    works = queue.Queue()
    is_waiting = threading.Event()

    def put():
        is_waiting.wait()
        works.put(None)

    told_by(put, lambda: (is_waiting.set(), works.get()))


def by_pool():
    with ThreadPoolExecutor(2) as pool:
        for work in forwards, backwards:
            pool.submit(work).result()
    print("done")


WAYS = {"gate": under_gate, "in-turn": in_turn, "try": tries, "timed": gives_up, "id": by_id, "event": by_event, "barrier": by_barrier, "queue": by_queue,
        "pool": by_pool}
WAYS[sys.argv[1]]()
