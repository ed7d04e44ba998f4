# wrong: inversion reentrant_two:3 reentrant_two:3.2 SIGUSR1. (an RLock stops a handler all the same if another thread has it)
import signal, sys, threading
table, pool, provoked = threading.RLock(), threading.Lock(), sys.argv[1:] == ["provoke"]
holds = threading.Event()
def on_usr1(number, frame):
    with table: pass
def work():
    with table:
        holds.set()
        with pool: pass
signal.signal(signal.SIGUSR1, on_usr1)
signal.raise_signal(signal.SIGUSR1)
worker = threading.Thread(target=work)
if provoked:
    with pool:
        worker.start()
        holds.wait()
        signal.raise_signal(signal.SIGUSR1)
else:
    worker.start()
    worker.join()
    with pool: pass
