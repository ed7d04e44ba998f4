# right: a handler that tries, and one that waits for a time
import signal, sys, threading
lock, provoked = threading.Lock(), sys.argv[1:] == ["provoke"]
def on_usr1(number, frame):
    if lock.acquire(False): lock.release()
    if lock.acquire(timeout=0.2): lock.release()
signal.signal(signal.SIGUSR1, on_usr1)
signal.raise_signal(signal.SIGUSR1)
with lock:
    if provoked: signal.raise_signal(signal.SIGUSR1)
