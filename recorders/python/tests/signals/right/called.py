# right: what would take the lock is called by the program itself alone
import signal, sys, threading
lock, provoked = threading.Lock(), sys.argv[1:] == ["provoke"]
def reload(number, frame):
    with lock: pass
def on_usr1(number, frame):
    if number == 0: reload(number, frame)
signal.signal(signal.SIGUSR1, on_usr1)
signal.raise_signal(signal.SIGUSR1)
on_usr1(0, None)
with lock:
    if provoked: signal.raise_signal(signal.SIGUSR1)
