import threading
mutex = threading.Semaphore()
bounded = threading.BoundedSemaphore(1)
several = threading.Semaphore(2)
inner = threading.Lock()

with mutex:
    assert not mutex.acquire(False) and not mutex.acquire(timeout=0.01)
    with inner:
        pass
assert bounded.acquire(blocking=False)
bounded.release()
assert bounded.acquire(timeout=1)
with several:
    with inner:
        pass
bounded.release()
try:
    bounded.release()
except ValueError:
    pass
