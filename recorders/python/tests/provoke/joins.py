"""A main thread that joins another one with a lock held that this takes."""
import os
import threading
import time

state = threading.Lock()


def work():
    if "LOCKDEP_PROVOKE_PLAN" in os.environ:
        time.sleep(0.1)
    with state:
        pass


thread = threading.Thread(target=work)
thread.start()
while thread.is_alive() and "LOCKDEP_PROVOKE_PLAN" not in os.environ:
    time.sleep(0.001)
with state:
    thread.join()
print("done")
