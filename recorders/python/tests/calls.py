import _thread
import threading
plain = threading.Lock()
called = threading.Lock()
timed = threading.Lock()
tried = threading.Lock()
briefly = threading.Lock()
low = _thread.allocate_lock()
one, two = threading.Lock(), threading.Lock()

with plain:
    pass
called.acquire()
called.release()
assert timed.acquire(timeout=1)
assert not timed.acquire(timeout=0.01) and not timed.acquire(True, 0.2)
timed.release()
assert tried.acquire(False)
assert not tried.acquire(blocking=False)
tried.release()
assert briefly.acquire(timeout=0)
briefly.release()
with low:
    with plain:
        pass
with one:
    with two:
        pass
with plain:
    pass
