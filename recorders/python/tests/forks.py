import os
import threading
held = threading.Lock()
inner = threading.RLock()

held.acquire()
child = os.fork()
if child == 0:
    with inner:
        pass
    held.release()
    os._exit(0)
os.waitpid(child, 0)
held.release()
