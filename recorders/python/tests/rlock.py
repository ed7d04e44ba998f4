import threading
again = threading.RLock()
inner = threading.Lock()
other = threading.RLock()

with again:
    with again:
        again.acquire()
        with inner:
            pass
        again.release()
    with other:
        pass
assert other.acquire(False)
with other:
    with again:
        pass
other.release()
