import threading
late = threading.Lock()
outer = threading.Lock()
own = threading.Condition()
over = threading.Condition(outer)

# A wait releases all levels, and takes the lock again.
with own:
    with own:
        assert not own.wait(0.01)
        with late:
            pass
with over:
    assert not over.wait(0.01)
    with late:
        pass


def tells():
    with own:
        own.notify()


with own:
    thread = threading.Thread(target=tells)
    thread.start()
    assert own.wait(5)
    with outer:
        pass
thread.join()
event = threading.Event()
event.set()
event.wait()
