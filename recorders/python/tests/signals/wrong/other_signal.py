# wrong: double other_signal:3 SIGUSR2. (one handler comes in during the other's run)
import signal, sys, threading
lock, provoked = threading.Lock(), sys.argv[1:] == ["provoke"]
def on_usr1(number, frame):
    signal.pthread_sigmask(signal.SIG_BLOCK, [number])
    with lock:
        if provoked: signal.raise_signal(signal.SIGUSR2)
    signal.pthread_sigmask(signal.SIG_UNBLOCK, [number])
def on_usr2(number, frame):
    signal.pthread_sigmask(signal.SIG_BLOCK, [signal.SIGUSR1, number])
    with lock: pass
    signal.pthread_sigmask(signal.SIG_UNBLOCK, [signal.SIGUSR1, number])
signal.signal(signal.SIGUSR1, on_usr1)
signal.signal(signal.SIGUSR2, on_usr2)
signal.raise_signal(signal.SIGUSR2)
signal.raise_signal(signal.SIGUSR1)
