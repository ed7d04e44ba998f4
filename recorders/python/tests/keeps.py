import threading
kept = threading.Lock()
inner = threading.Lock()


def keeps():
    kept.acquire()
    with inner:
        pass


thread = threading.Thread(target=keeps)
thread.start()
thread.join()
with inner:
    pass
