# right: the handler raises an error, and its RLock stays taken by its thread
import signal, sys, threading
lock, provoked = threading.RLock(), sys.argv[1:] == ["provoke"]
other = threading.Lock()
class Over(Exception): pass
def on_usr1(number, frame):
    lock.acquire()
    raise Over
signal.signal(signal.SIGUSR1, on_usr1)
try:
    with other: signal.raise_signal(signal.SIGUSR1)
except Over: pass
with other:
    try:
        if provoked: signal.raise_signal(signal.SIGUSR1)
    except Over: pass
