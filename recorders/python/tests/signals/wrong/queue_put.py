# wrong: double queue~queue_put:3 SIGUSR1. (a queue isn't made for handlers)
import queue, signal, sys
q, provoked = queue.Queue(), sys.argv[1:] == ["provoke"]
def on_usr1(number, frame): q.put(number)
signal.signal(signal.SIGUSR1, on_usr1)
signal.raise_signal(signal.SIGUSR1)
q.put(1)
if provoked:
    with q.mutex: signal.raise_signal(signal.SIGUSR1)
