# right: another thread holds it and goes on
import signal, sys, threading
lock, provoked = threading.RLock(), sys.argv[1:] == ["provoke"]
holds, goes_on = threading.Event(), threading.Event()
def work():
    with lock:
        holds.set()
        if provoked: signal.pthread_kill(threading.main_thread().ident, signal.SIGUSR1)
def on_usr1(number, frame):
    with lock: pass
signal.signal(signal.SIGUSR1, on_usr1)
signal.raise_signal(signal.SIGUSR1)
worker = threading.Thread(target=work)
worker.start()
worker.join()
