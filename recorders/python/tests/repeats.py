import threading
a = threading.Lock()
b = threading.Lock()

for _ in range(1000):
    with a:
        with b:
            pass
with b:
    pass
for _ in range(1000):
    with b:
        pass
    if a.acquire(False):
        with b:
            pass
        a.release()
