# wrong: double nested:3 SIGUSR1. (nothing is masked while a handler runs, so the same signal comes in again)
import signal, sys, threading
lock, provoked = threading.Lock(), sys.argv[1:] == ["provoke"]
def on_usr1(number, frame):
    with lock:
        if provoked: signal.raise_signal(signal.SIGUSR1)
signal.signal(signal.SIGUSR1, on_usr1)
signal.raise_signal(signal.SIGUSR1)
