import threading

accounts = threading.Lock()
journal = threading.Lock()

def pays():
    with accounts:
        with journal:
            pass

def audits():
    with journal:
        with accounts:
            pass

for work in (pays, audits):
    thread = threading.Thread(target=work)
    thread.start()
    thread.join()
