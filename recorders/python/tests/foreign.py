import threading
baton = threading.Lock()
own = threading.Lock()

baton.acquire()
thread = threading.Thread(target=baton.release)
thread.start()
thread.join()
with own:
    pass
