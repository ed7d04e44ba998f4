import threading
a = threading.Lock()
b = threading.Lock()
c = threading.Lock()

for _ in range(3):
    a.acquire()
    b.acquire()
    a.release()
    with c:
        pass
    b.release()
