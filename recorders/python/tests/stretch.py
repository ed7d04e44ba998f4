import threading
a = threading.Lock()
b = threading.Lock()
c = threading.Lock()
d = threading.Lock()


def nest(*locks):
    for lock in locks:
        lock.acquire()
    for lock in reversed(locks):
        lock.release()


nest(a, b, c)
nest(b, c)
a.acquire()
b.acquire()
c.acquire()
a.release()
c.release()
d.acquire()
d.release()
b.release()
