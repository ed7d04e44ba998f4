"""What Dask sends to its workers: a task is done there by a process of the tool that lies at the same path as here. The file stands alone, and what it
returns is bytes: the result of the task, with the worker's address before it."""
import json
import os
import socket
import subprocess
import sys


def do(home, raw):
    from distributed import get_worker
    parts = os.path.join(home, "tool", "lockdep", "parts.py")
    try:
        if not os.path.isfile(parts):
            raise FileNotFoundError("lockdep isn't at %s" % home)
        done = subprocess.run([sys.executable, "-I", "-S", parts, "gather-task"], input=raw, stdout=subprocess.PIPE, stderr=subprocess.PIPE)
        if done.returncode < 0:
            raise ChildProcessError("the process that did it was ended by signal %d" % -done.returncode)
        if done.returncode:
            raise OSError("it ended with status %d: %s" % (done.returncode, done.stderr.decode("utf-8", "replace").strip()[-200:]))
        result = done.stdout
    except ChildProcessError:
        raise  # (as if the worker had ended: the task may be why)
    except OSError as error:
        result = json.dumps({"host": socket.gethostname(), "lacks": str(error), "lengths": [0]}).encode() + b"\n"
    return get_worker().address.encode() + b"\n" + result
