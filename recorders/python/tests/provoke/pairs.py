"""What the programs that `lockdep provoke` is tested with have in common: threads that begin one after the other. In a run that is recorded
each has done its work before the next one begins, however busy the machine is; in the runs of `provoke`, which hold threads back, they
begin by the time."""
import os
import threading
import time

APART = 0.1  # seconds, by the time
ended = 0  # so many works


def wait_until(is_so, seconds):
    """In a run that is recorded until something is so, and in one of `provoke` for so many seconds."""
    if "LOCKDEP_PROVOKE_PLAN" in os.environ:
        time.sleep(seconds)
        return
    while not is_so():
        time.sleep(0.001)


def run_apart(*works):
    """Runs each work in a thread of its own, whose name is the work's, and waits for all."""
    def begin(number, work):
        global ended
        wait_until(lambda: ended >= number, APART * number)
        work()
        ended += 1

    threads = [threading.Thread(target=begin, args=(number, work), name=work.__name__) for number, work in enumerate(works)]
    for thread in threads:
        thread.start()
    for thread in threads:
        thread.join()
    print("done")
