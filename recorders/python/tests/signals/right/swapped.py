# right: another handler is installed while the lock is held
import signal, sys, threading
lock, provoked = threading.Lock(), sys.argv[1:] == ["provoke"]
def takes(number, frame):
    signal.signal(number, nothing)
    with lock:
        if provoked: signal.raise_signal(number)
def nothing(number, frame): pass
signal.signal(signal.SIGUSR1, takes)
signal.raise_signal(signal.SIGUSR1)
with lock:
    if provoked: signal.raise_signal(signal.SIGUSR1)
