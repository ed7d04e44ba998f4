# right: who holds an RLock takes it again, also in a handler within a handler
import signal, sys, threading
lock, provoked = threading.RLock(), sys.argv[1:] == ["provoke"]
def on_usr1(number, frame):
    with lock:
        if frame is not None and len(depth) < 3:
            depth.append(1)
            signal.raise_signal(signal.SIGUSR1)
depth = []
signal.signal(signal.SIGUSR1, on_usr1)
signal.raise_signal(signal.SIGUSR1)
with lock:
    if provoked: signal.raise_signal(signal.SIGUSR1)
with lock: pass
