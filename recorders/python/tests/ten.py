import threading
shared = threading.Lock()
locks = [threading.Lock()
         for _ in range(10)]
barrier = threading.Barrier(10)


def works(own):
    barrier.wait()
    for _ in range(200):
        with own:
            with shared:
                pass


threads = [threading.Thread(target=works, args=(lock,)) for lock in locks]
for thread in threads:
    thread.start()
for thread in threads:
    thread.join()
