# wrong: double held_at_set:3 SIGUSR1. (the lock is held where the handler is set)
import signal, sys, threading
lock, provoked = threading.Lock(), sys.argv[1:] == ["provoke"]
def on_usr1(number, frame):
    signal.pthread_sigmask(signal.SIG_BLOCK, [number])
    with lock: pass
    signal.pthread_sigmask(signal.SIG_UNBLOCK, [number])
with lock:
    signal.signal(signal.SIGUSR1, on_usr1)
    if provoked: signal.raise_signal(signal.SIGUSR1)
signal.pthread_sigmask(signal.SIG_BLOCK, [signal.SIGUSR1])
with lock: pass
signal.pthread_sigmask(signal.SIG_UNBLOCK, [signal.SIGUSR1])
signal.raise_signal(signal.SIGUSR1)
