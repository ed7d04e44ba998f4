"""What the tasks of `lockdep gather` run on: processes of this machine, or Dask.

The recordings are read in groups, and what these say is merged in a tree whose form depends only on how many groups there are. All results come here, so
what is lost with a process, a worker or a scheduler is what it was doing."""
from __future__ import annotations

import contextlib
import os
import signal
import subprocess
import sys
import threading
import time
import zlib
from multiprocessing.connection import Connection, Pipe, wait

from ..base.files import complain, text_in
from ..base.home import HOME
from ..base.saying import Refusal
from ..base.words import bytes_of, visible
from .facts import Facts, apart, joined
from .tasks import START, made_by, refusal_in, result_of

ARITY = 8  # results that are merged at a time
TRIES = 3  # of a task whose process was ended
PATIENCE = 10  # seconds that a scheduler may take to answer
RETURN = 60  # seconds in which a scheduler that was there comes back, or a worker comes
BETWEEN_LOOKS = 0.02  # seconds, at what Dask has done
BETWEEN_LINES = 60  # seconds between two lines that say how far it is, where these are kept
DO = "exec(source, scope) or scope['do'](home, task)"  # what a worker evaluates: it needs nothing of this tool for that
SYSTEM_PYTHON = "/usr/bin/python3"  # the one that packages of the system are for
IS_THERE = "import importlib.util, sys; sys.exit(importlib.util.find_spec('distributed') is None)"  # (to import it takes seconds)
DAMAGED = (ValueError, KeyError, TypeError, IndexError, AttributeError, RecursionError, zlib.error)  # what a result raises that no task has made

TYPE_CHECKING = False
if TYPE_CHECKING:
    from typing import Callable

Node = "tuple[int, int]"  # of the tree: its level, 0 being that of the groups, and its place there
Ended = "tuple[Node, str, bytes | None]"  # what was done, where, and what it gives: nothing if that was lost


class Work:
    """What is to be done: the groups, and what all tasks need."""

    def __init__(self, common: dict, groups: list[list[tuple[int, str]]]) -> None:
        self.common, self.groups = common, groups
        self.widths = [len(groups)]
        while self.widths[-1] > 1:
            self.widths.append(-(-self.widths[-1] // ARITY))

    def children(self, node: Node) -> list[Node]:
        level, place = node
        return [(level - 1, child) for child in range(place * ARITY, min((place + 1) * ARITY, self.widths[level - 1]))] if level else []

    @property
    def root(self) -> Node:
        return len(self.widths) - 1, 0

    def merges(self) -> list[Node]:
        """The nodes above the groups, lower levels first."""
        return [(level, place) for level in range(1, len(self.widths)) for place in range(self.widths[level])]


class Tree:
    """The work, done by an engine. Merges come first, so that few results wait."""

    def __init__(self, work: Work, engine: Local | OnDask, progress: Callable[[int], None]) -> None:
        self.work, self.engine, self.progress = work, engine, progress
        self.next_group = self.read = 0
        self.left = work.merges()
        self.again: list[Node] = []
        self.tries: dict[Node, int] = {}
        self.apart: set[int] = set()  # the groups that are read one recording at a time, since the process that read them was ended
        self.results: dict[Node, bytes] = {}

    def run(self) -> Facts:
        try:
            while self.work.root not in self.results:
                while self.engine.has_room():
                    node = self.ready()
                    if node is None:
                        break
                    self.engine.start(node, self.task(node))
                for node, where, result in self.engine.ended():
                    self.take(node, where, result)
            return Facts.unpacked(self.results[self.work.root])
        finally:
            self.engine.end()

    def ready(self) -> Node | None:
        if self.again:
            return self.again.pop()
        node = next((node for node in self.left if all(child in self.results for child in self.work.children(node))), None)
        if node is not None:
            self.left.remove(node)
        elif self.next_group < len(self.work.groups):
            node = 0, self.next_group
            self.next_group += 1
        return node

    def task(self, node: Node) -> bytes:
        if node[0] == 0:
            return joined({**self.work.common, "task": "read", "apart": node[1] in self.apart, "group": self.work.groups[node[1]]}, [])
        return joined({**self.work.common, "task": "merge"}, [self.results[child] for child in self.work.children(node)])

    def take(self, node: Node, where: str, raw: bytes | None) -> None:
        """Takes a result. If its process was ended, as by a lack of memory, another one does the task; and so it is where something is lacking."""
        if raw is None:
            self.lose(node)
            return
        try:
            said, (result,) = apart(raw)
            lacks = why_unfit(said, made_by(self.work.common["program"]))
            refusal = refusal_in(said)
            if where and not lacks and not refusal:
                lacks = why_elsewhere(Facts.unpacked(result), self.work.groups[node[1]] if node[0] == 0 else [])
        except DAMAGED:
            said, result, refusal, lacks = {}, b"", None, "what it returns is no result of `gather`"
        if lacks:
            self.engine.leave_out(where, "%s: %s" % (visible(str(said.get("host") or where or "this machine")), visible(lacks)))
            self.again.append(node)
            return
        if refusal:
            raise refusal
        self.results[node] = result
        for child in self.work.children(node):
            del self.results[child]
        self.read += len(self.work.groups[node[1]]) if node[0] == 0 else 0
        self.progress(self.read)

    def lose(self, node: Node) -> None:
        self.tries[node] = self.tries.get(node, 0) + 1
        if self.tries[node] == TRIES:
            if node[0] or node[1] in self.apart:
                raise Refusal("a process that gathers recordings was ended %d times: is there enough memory?" % TRIES)
            self.apart.add(node[1])
            self.tries[node] = 0
        self.again.append(node)


def why_unfit(said: dict, by: dict[str, str]) -> str:
    """What a machine lacks for a task, or that it has another tool; empty if it doesn't."""
    if said.get("lacks"):
        return str(said["lacks"])
    others = [name for name in by if said.get(name) != by[name]]
    return "it has another lockdep than this one (%s): another %s" % (by["version"], " and ".join(others)) if others else ""


def why_elsewhere(facts: Facts, group: list[tuple[int, str]]) -> str:
    """A recording that a machine couldn't read, and this one can; empty if there is none."""
    paths = dict(group)
    several = [paths[number[0]] for number, _, may_differ in facts.bad if may_differ and number[0] in paths]
    path = next((path for path in several if os.access(path, os.R_OK)), None)
    return "%s can be read here, and can't there" % path if path else ""


# ---- This machine.

class Process:
    """A process that does one task after the other, until its end of the pipe is closed."""

    def __init__(self) -> None:
        self.pipe, other = Pipe()
        alive, self.alive = os.pipe()  # its end tells the process, and what that has started, that this one has ended
        words = [sys.executable, *START, "gather-process", str(other.fileno()), str(alive)]
        self.child = subprocess.Popen(words, stdin=subprocess.DEVNULL, pass_fds=(other.fileno(), alive), start_new_session=True)
        other.close()
        os.close(alive)
        self.node: Node | None = None

    def end(self) -> None:
        self.pipe.close()
        os.close(self.alive)
        with contextlib.suppress(ProcessLookupError):
            os.killpg(self.child.pid, signal.SIGKILL)
        self.child.wait()


def end_with(alive: int) -> None:
    """Ends this process, and what it has started, when the end of a pipe is closed that the first process has."""
    os.read(alive, 1)
    os.killpg(0, signal.SIGKILL)


def do_tasks(words: list[str]) -> int:
    """The process itself: reads tasks, and writes what they give."""
    pipe = Connection(int(words[0]))
    threading.Thread(target=end_with, args=(int(words[1]),), daemon=True).start()
    with contextlib.suppress(EOFError, OSError):
        while True:
            pipe.send_bytes(result_of(pipe.recv_bytes()))
    return 0


class Local:
    """Some processes of this machine."""

    def __init__(self, count: int) -> None:
        self.processes = [Process() for _ in range(count)]
        self.lost: list[Ended] = []

    def has_room(self) -> bool:
        return any(process.node is None for process in self.processes)

    def start(self, node: Node, task: bytes) -> None:
        process = next(process for process in self.processes if process.node is None)
        process.node = node
        try:
            process.pipe.send_bytes(task)
        except OSError:
            self.lost.append(self.replace(process))

    def ended(self) -> list[Ended]:
        lost, self.lost = self.lost, []
        busy = {process.pipe: process for process in self.processes if process.node is not None}
        return lost or [self.result(busy[pipe]) for pipe in wait(list(busy))]

    def result(self, process: Process) -> Ended:
        try:
            raw = process.pipe.recv_bytes()
        except (EOFError, OSError):
            return self.replace(process)
        node, process.node = process.node, None
        return node, "", raw

    def replace(self, process: Process) -> Ended:
        """Puts another process in the place of one that was ended."""
        process.end()
        self.processes[self.processes.index(process)] = Process()
        return process.node, "", None

    def leave_out(self, where: str, reason: str) -> None:
        raise Refusal("the recordings can't be gathered on %s" % reason)

    def end(self) -> None:
        for process in self.processes:
            process.end()


class Progress:
    """How many recordings were read: on a terminal always, and else in a line now and then."""

    def __init__(self, total: int) -> None:
        self.total, self.said, self.next_line = total, -1, time.monotonic() + BETWEEN_LINES
        self.is_terminal = sys.stderr is not None and sys.stderr.isatty()

    def __call__(self, read: int) -> None:
        words = "lockdep: %d of %d recordings" % (read, self.total)
        if self.is_terminal and read != self.said:
            complain(bytes_of("\r%s%s" % (words, "\n" * (read == self.total))))
        elif not self.is_terminal and time.monotonic() > self.next_line:
            self.next_line = time.monotonic() + BETWEEN_LINES
            complain(bytes_of(words + "\n"))
        self.said = read


# ---- Dask.

def need_dask() -> None:
    """Has the packages of Dask found. Another python3 takes over if this one doesn't have them, and the system's does."""
    import importlib.util
    import site
    site.main()  # (the tool is started without the packages of the system)
    if importlib.util.find_spec("distributed"):
        return
    has_it = subprocess.call([SYSTEM_PYTHON, "-c", IS_THERE], stdin=subprocess.DEVNULL, stdout=subprocess.DEVNULL, stderr=subprocess.DEVNULL) == 0 \
        if os.access(SYSTEM_PYTHON, os.X_OK) and os.path.realpath(sys.executable) != os.path.realpath(SYSTEM_PYTHON) else False
    if has_it:
        os.execv(SYSTEM_PYTHON, [SYSTEM_PYTHON, "-I", "-S"] + sys.argv)
    raise Refusal("--scheduler needs the package `distributed` of Dask, which neither %s nor %s has: install it (python3-distributed of Debian)" % (
        sys.executable, SYSTEM_PYTHON), 3)


def need_safe(address: str) -> None:
    """Refuses a scheduler that others could be reached by, or could answer for, unless each side shows a certificate."""
    import ipaddress
    import socket
    scheme, _, rest = address.rpartition("://")
    host = (rest.rpartition(":")[0] or rest).strip("[]")
    try:
        found = {info[4][0] for info in socket.getaddrinfo(host, None)} if host else set()
        is_here = bool(found) and all(ipaddress.ip_address(each.partition("%")[0]).is_loopback for each in found)
    except (OSError, UnicodeError):
        is_here = True  # (nothing can be reached at such an address, which is said)
    if scheme != "tls" and not is_here:
        raise Refusal("%s isn't of this machine alone, and isn't reached by TLS: whoever can reach that port can run code here and on each worker. Give the "
                      "scheduler certificates, and its address as tls://HOST:PORT; or say --insecure if only you can reach it" % visible(address))


def need_scheduler(address: str) -> None:
    """Refuses an address that nothing answers at. (A client that has reached none takes long to end, and isn't quiet.)"""
    import asyncio
    from distributed.core import connect
    from distributed.security import Security

    async def reach() -> None:
        comm = await connect(address, timeout=PATIENCE, **Security().get_connection_args("client"))
        await comm.close()
    try:
        asyncio.run(reach())
    except Exception as error:
        raise Refusal("no scheduler of Dask can be reached at %s: %s" % (visible(address), visible(str(error) or type(error).__name__)))


class OnDask:
    """The workers of a scheduler. One that lacks something gets nothing more to do."""

    def __init__(self, address: str) -> None:
        import logging
        logging.disable(logging.CRITICAL)
        self.address, self.source = address, text_in(os.path.join(HOME, "tool", "lockdep", "gather", "gather_on_worker.py"))
        self.unfit: dict[str, str] = {}
        self.futures: dict[object, tuple[Node, bytes, list[str]]] = {}  # each with its task, and the workers that may do it if not all may
        self.connect()
        if not self.workers():
            self.end()
            raise Refusal("the scheduler at %s has no workers" % visible(address))

    def connect(self) -> None:
        from distributed import Client
        need_scheduler(self.address)
        try:
            self.client = Client(self.address, timeout=PATIENCE, set_as_default=False, deserializers=["msgpack"])  # (no pickles: results are bytes)
        except Exception as error:  # (whatever Dask says of a scheduler that ends meanwhile)
            raise Refusal("the scheduler of Dask at %s has ended: %s" % (visible(self.address), visible(str(error) or type(error).__name__)))
        self.scheduler = self.said().get("id")

    def said(self) -> dict:
        """What the scheduler says of itself and its workers: nothing if it has ended."""
        try:
            return self.client.scheduler_info()
        except Exception:
            return {}

    def workers(self) -> dict[str, int]:
        """How many tasks each worker does at a time that is fit for them."""
        return {address: worker["nthreads"] for address, worker in self.said().get("workers", {}).items() if address not in self.unfit}

    def is_gone(self) -> bool:
        """Whether the scheduler has ended that was asked. The client may have gone to one in its place, which knows of nothing."""
        are_lost = any(future.status in ("cancelled", "lost") for future in self.futures)
        return are_lost or self.client.status != "running" or self.said().get("id") != self.scheduler

    def has_room(self) -> bool:
        return len(self.futures) < 2 * sum(self.workers().values())

    def start(self, node: Node, task: bytes) -> None:
        where = list(self.workers()) if self.unfit else []
        future = self.client.submit(eval, DO, {"source": self.source, "scope": {}, "home": HOME, "task": task}, pure=False, workers=where or None,
                                    key="gather-%s-%s-%s" % (*node, os.urandom(4).hex()))
        self.futures[future] = node, task, where

    def ended(self) -> list[Ended]:
        """What was done since. A scheduler that is gone may come back: then it is asked again for what wasn't done."""
        end = time.monotonic() + RETURN
        while time.monotonic() < end or self.workers():
            if self.is_gone():
                self.ask_again()
            done = [future for future in self.futures if future.status != "pending"]
            if done or not self.futures and self.workers():  # (in the latter case one has come that can be asked)
                return [self.result(future) for future in done]
            self.move_stranded()
            time.sleep(BETWEEN_LOOKS)
        raise Refusal("the scheduler at %s has no workers left that can do it%s" % (visible(self.address), self.why_unfit()))

    def move_stranded(self) -> None:
        """Gives what only workers might do that are gone to those that are there."""
        there = self.workers()
        for future in [future for future, (_, _, where) in self.futures.items() if where and there and not there.keys() & set(where)]:
            node, task, _ = self.futures.pop(future)
            future.release()
            self.start(node, task)

    def result(self, future: object) -> Ended:
        node = self.futures.pop(future)[0]
        with contextlib.suppress(Exception):  # (whatever Dask says of a worker that is gone, or that returned something else)
            where, _, raw = future.result(timeout=RETURN).partition(b"\n")
            return node, where.decode(), raw
        with contextlib.suppress(Exception):
            return node, self.client.who_has([future])[future.key][0], b""
        return node, "", None

    def ask_again(self) -> None:
        asked, self.futures = list(self.futures.values()), {}
        self.end()
        complain(bytes_of("lockdep: the scheduler at %s has ended; what it hadn't done is asked again\n" % visible(self.address)))
        end = time.monotonic() + RETURN
        while True:
            try:
                self.connect()
                break
            except (Refusal, OSError):
                if time.monotonic() > end:
                    raise
        for node, task, _ in asked:
            self.start(node, task)

    def leave_out(self, where: str, reason: str) -> None:
        if where not in self.unfit:
            self.unfit[where] = reason
            complain(bytes_of("lockdep: a worker gets nothing more to do: %s\n" % reason))
        if not self.workers():
            raise Refusal("no worker of the scheduler at %s can do it%s" % (visible(self.address), self.why_unfit()))

    def why_unfit(self) -> str:
        return ": " + "; ".join(dict.fromkeys(self.unfit.values())) if self.unfit else ""

    def end(self) -> None:
        with contextlib.suppress(Exception):
            self.client.close(timeout=PATIENCE)
