# wrong: double raises_with_lock:3 SIGUSR1. (the handler raises an error and leaves its lock locked)
import signal, sys, threading
lock, provoked = threading.Lock(), sys.argv[1:] == ["provoke"]
class Over(Exception): pass
def on_usr1(number, frame):
    signal.pthread_sigmask(signal.SIG_BLOCK, [number])
    lock.acquire()
    raise Over
signal.signal(signal.SIGUSR1, on_usr1)
try: signal.raise_signal(signal.SIGUSR1)
except Over: pass
signal.pthread_sigmask(signal.SIG_UNBLOCK, [signal.SIGUSR1])
if provoked: signal.raise_signal(signal.SIGUSR1)
signal.pthread_sigmask(signal.SIG_BLOCK, [signal.SIGUSR1])
lock.release()
