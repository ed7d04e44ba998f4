# right: each lock is taken where the signal is blocked whose handler takes it, and both handlers run in one thread
import signal, sys, threading
one, other, provoked = threading.Lock(), threading.Lock(), sys.argv[1:] == ["provoke"]
both = [signal.SIGUSR1, signal.SIGUSR2]
def take(lock, blocked, sent):
    old = signal.pthread_sigmask(signal.SIG_BLOCK, blocked)
    with lock:
        if provoked and sent: signal.raise_signal(sent)
    signal.pthread_sigmask(signal.SIG_SETMASK, old)
def on_usr1(number, frame): take(one, both, 0)
def on_usr2(number, frame): take(other, both, 0)
signal.signal(signal.SIGUSR1, on_usr1)
signal.signal(signal.SIGUSR2, on_usr2)
for number in both: signal.raise_signal(number)
take(one, [signal.SIGUSR1], signal.SIGUSR2)
take(other, [signal.SIGUSR2], signal.SIGUSR1)
