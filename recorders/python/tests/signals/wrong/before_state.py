# wrong: double before_state:3 SIGUSR1. (the lock is taken in the same way before the handler is set and after that)
import signal, sys, threading
lock, provoked = threading.Lock(), sys.argv[1:] == ["provoke"]
def work():
    with lock:
        if provoked and armed: signal.raise_signal(signal.SIGUSR1)
def on_usr1(number, frame):
    signal.pthread_sigmask(signal.SIG_BLOCK, [number])
    with lock: pass
    signal.pthread_sigmask(signal.SIG_UNBLOCK, [number])
armed = False
work()
signal.signal(signal.SIGUSR1, on_usr1)
armed = True
work()
armed = False
signal.raise_signal(signal.SIGUSR1)
