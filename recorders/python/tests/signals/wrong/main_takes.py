# wrong: double main_takes:3 SIGUSR1. (the main thread takes what the handler takes)
import signal, sys, threading
lock, provoked = threading.Lock(), sys.argv[1:] == ["provoke"]
def on_usr1(number, frame):
    signal.pthread_sigmask(signal.SIG_BLOCK, [number])
    with lock: pass
    signal.pthread_sigmask(signal.SIG_UNBLOCK, [number])
signal.signal(signal.SIGUSR1, on_usr1)
signal.raise_signal(signal.SIGUSR1)
with lock:
    if provoked: signal.raise_signal(signal.SIGUSR1)
