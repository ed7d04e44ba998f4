"""A server, which reads requests from a pipe until it gets SIGTERM: server.py PIPE ANSWERED SERVED. Each is served by a thread, which takes
two locks in the order that the request says. For each the two files get a byte: the second one when it was served; the first one then, too,
so that the next request may come, but in the runs of `provoke`, which hold threads back, at once."""
import os
import sys
import threading

settings, rows, journal = threading.Lock(), threading.Lock(), threading.Lock()


def read_rows():
    with rows:
        with journal:
            pass
    has_served()


def write_journal():
    with journal:
        with rows:
            pass
    has_served()


def has_served():
    os.write(served, b".")
    if not is_provoked:
        os.write(answered, b".")


is_provoked = "LOCKDEP_PROVOKE_PLAN" in os.environ
requests = os.open(sys.argv[1], os.O_RDWR)
answered, served = (os.open(name, os.O_WRONLY | os.O_CREAT | os.O_TRUNC, 0o600) for name in sys.argv[2:])
with settings:
    pass
while True:
    request = os.read(requests, 1)
    threading.Thread(target=read_rows if request == b"r" else write_journal, daemon=True).start()
    if is_provoked:
        os.write(answered, b".")
