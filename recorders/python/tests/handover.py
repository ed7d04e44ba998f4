import threading
a = threading.Lock()
b = threading.Lock()
c = threading.Lock()
d = threading.Lock()

with a:
    with b:
        with c:
            pass
a.acquire()
with d:
    pass
b.acquire()
c.acquire()
a.release()
c.release()
b.release()
