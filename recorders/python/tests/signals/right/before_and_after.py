# right: the lock is taken before the handler is set and after it is gone
import signal, sys, threading
lock, provoked = threading.Lock(), sys.argv[1:] == ["provoke"]
def on_usr1(number, frame):
    signal.signal(number, signal.SIG_IGN)
    with lock:
        if provoked: signal.raise_signal(number)
with lock: pass
signal.signal(signal.SIGUSR1, on_usr1)
signal.raise_signal(signal.SIGUSR1)
with lock:
    if provoked: signal.raise_signal(signal.SIGUSR1)
