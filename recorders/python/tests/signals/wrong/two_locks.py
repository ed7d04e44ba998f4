# wrong: inversion two_locks:3 two_locks:3.2 SIGUSR1. (by way of another thread)
import signal, sys, threading
table, pool, provoked = threading.Lock(), threading.Lock(), sys.argv[1:] == ["provoke"]
holds = threading.Event()
def on_usr1(number, frame):
    signal.pthread_sigmask(signal.SIG_BLOCK, [number])
    with table: pass
    signal.pthread_sigmask(signal.SIG_UNBLOCK, [number])
def work():
    with table:
        holds.set()
        with pool: pass
signal.signal(signal.SIGUSR1, on_usr1)
signal.raise_signal(signal.SIGUSR1)
worker = threading.Thread(target=work)
if provoked:
    with pool:
        worker.start()
        holds.wait()
        signal.raise_signal(signal.SIGUSR1)
else:
    worker.start()
    worker.join()
    with pool: pass
