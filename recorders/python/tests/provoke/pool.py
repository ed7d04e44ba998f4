"""Threads of a pool, whose handler of a log takes a lock within that of `logging`; and a program that logs with that lock held."""
import concurrent.futures
import logging
import threading

from pairs import APART, wait_until

state = threading.Lock()


class Counting(logging.Handler):
    count = 0

    def emit(self, record):
        with state:
            self.count += 1


log = logging.getLogger("counted")
log.addHandler(Counting())


def report():
    log.warning("reported")


def change():
    wait_until(lambda: log.handlers[0].count, APART)
    with state:
        logging.getLogger("counted").handlers[0].acquire()
        log.handlers[0].release()


with concurrent.futures.ThreadPoolExecutor(4) as pool:
    done = [pool.submit(report), pool.submit(change)]
    for each in done:
        each.result()
print("done")
