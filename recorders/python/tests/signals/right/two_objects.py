# right: each object has its own lock, and one at a time its handler
import signal, sys, threading
provoked = sys.argv[1:] == ["provoke"]
class Server:
    def __init__(self, lock): self.lock = lock
    def stop(self, number, frame):
        signal.pthread_sigmask(signal.SIG_BLOCK, [number])
        with self.lock: pass
        signal.pthread_sigmask(signal.SIG_UNBLOCK, [number])
one = Server(threading.Lock())
other = Server(threading.Lock())
signal.signal(signal.SIGTERM, one.stop)
signal.raise_signal(signal.SIGTERM)
signal.signal(signal.SIGTERM, other.stop)
signal.raise_signal(signal.SIGTERM)
with one.lock:
    if provoked: signal.raise_signal(signal.SIGTERM)
