# right: the signal that comes in has a handler that takes nothing
import signal, sys, threading
lock, provoked = threading.Lock(), sys.argv[1:] == ["provoke"]
def takes(number, frame):
    signal.pthread_sigmask(signal.SIG_BLOCK, [number])
    with lock:
        if provoked: signal.raise_signal(signal.SIGUSR2)
    signal.pthread_sigmask(signal.SIG_UNBLOCK, [number])
def nothing(number, frame): pass
signal.signal(signal.SIGUSR1, takes)
signal.signal(signal.SIGUSR2, nothing)
signal.raise_signal(signal.SIGUSR1)
signal.raise_signal(signal.SIGUSR2)
signal.pthread_sigmask(signal.SIG_BLOCK, [signal.SIGUSR1])
with lock:
    if provoked: signal.raise_signal(signal.SIGUSR2)
signal.pthread_sigmask(signal.SIG_UNBLOCK, [signal.SIGUSR1])
