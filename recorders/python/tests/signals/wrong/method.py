# wrong: double method.__init__:5 SIGTERM. (the handler is a method)
import signal, sys, threading
provoked = sys.argv[1:] == ["provoke"]
class Server:
    def __init__(self): self.lock = threading.Lock()
    def stop(self, number, frame):
        signal.pthread_sigmask(signal.SIG_BLOCK, [number])
        with self.lock: pass
        signal.pthread_sigmask(signal.SIG_UNBLOCK, [number])
    def work(self):
        with self.lock:
            if provoked: signal.raise_signal(signal.SIGTERM)
server = Server()
signal.signal(signal.SIGTERM, server.stop)
signal.raise_signal(signal.SIGTERM)
server.work()
