"""How tasks and processes end, and how processes begin."""
from . import forks, log, steps, tasks
from .log import TRY, Process, count, count_lines, here, put, write
from .recording import settle, write_parts
from .tasks import Held, Task, begin_main_thread, begin_running, running_one, runs
from .waits import broken_off_lines, keep_wait

MOST_ALIKE = 32


def end(task):
    """A task has ended. What several tasks have already done in exactly this way isn't written again."""
    if task.aside is not None and not task.aside.is_over:
        end(task.aside)
    count(task)
    if task.pending is not None and task.pending in task.held:
        keep_wait(task)  # a task of asyncio that is gone while it waits
    settle(task)
    write_parts(task)
    task.is_over = task.is_busy = True
    log.process.tasks.discard(task)
    if not task.number and not task.records:
        put(count_lines() if log.process.counts["operations"] >> 12 > log.process.written.get("operations", 0) >> 12 else "")
        return
    if not task.number and not task.held:
        like = hash(tuple(record[0] for record in task.records))
        log.process.like[like] = log.process.like.get(like, 0) + 1
        if log.process.like[like] > MOST_ALIKE:
            log.process.counts["alike"] += 1
            return
    write(task)
    put("E %d\n" % task.number)


at_end = []  # what else there is to write at the end of a process: functions that return lines


def end_process():
    """Writes what is left of all tasks, and that the running one has ended. Threads that still run aren't recorded from here on."""
    for task in list(log.process.tasks):
        count(task)
    log.process.note_unguarded()
    put(count_lines())
    for lines in at_end:
        try:
            put(lines())
        except Exception:  # (never the program's concern)
            pass
    running = tasks.current()
    for task in list(log.process.tasks):
        if not task.is_busy:
            task.is_busy = True
            if task is running:
                end(task)
                continue
            write_parts(task)
            if task.records:
                write(task)
    put(broken_off_lines() + run_lines())
    steps.end()
    log.process.is_off = True


def begin_in_child():
    """A forked process has its own file, and its thread holds what it held before."""
    if log.process is None:
        return
    running, loaded = running_one(), {name: log.process.counts[name] for name in ("gevent", "eventlet")}
    guard = here if running is None else getattr(running, "_lockdep_guard", None)
    old = getattr(guard, "task", None)
    held = held_in_child(old)
    for task in log.process.tasks:  # what of these runs here too begins another trace
        task.is_over = task.is_busy = True
    begin_process(log.process.folder)
    log.process.counts.update(loaded)
    begin_main_thread()
    begin_running(running)
    task = tasks.current()
    for entry, code in held:
        new = Held(entry.lock)
        new.task, new.code, new.before = task, code, task.way
        new.record = new.start = len(task.records)
        if entry.lock.entry is entry:
            entry.lock.entry = new
        task.records.append((code, None, None))
        task.held.append(new)
        task.way = task.way.to(code)
        task.way.is_taken = True
        task.fresh = len(task.records)
        if task.is_ordered:
            steps.note_taking(task, entry.lock, task.way, None, code & ~7 | TRY, (None, None))


def held_in_child(old):
    """What the thread held that forked, with the codes. A handler that forked goes on in the child, with what it interrupted below it: then
    what it holds itself counts as taken without waiting."""
    if old is None:
        return []
    below = [run.interrupted for run in runs if run.interrupted is not None]
    runs.clear()
    held = [(entry, entry.code) for task in below for entry in task.held if entry is not task.pending]
    return held + [(entry, entry.code & ~7 | TRY if below else entry.code) for entry in old.held if entry is not old.pending]


def run_lines():
    """How often handlers have run. `handlers` puts its own in the place of this."""
    return ""


def begin_process(folder, is_left_out=False):
    """From here on this process is recorded, or what is forked by it."""
    log.process = Process(folder, is_left_out)
    steps.begin()
    over = Task()
    over.is_over = over.is_busy = True
    log.process.tasks.discard(over)
    tasks.LEFT_OUT = Held(None)
    tasks.LEFT_OUT.task = over


forks.begin_in_child, tasks.end, tasks.enter, log.flush_steps = begin_in_child, end, steps.enter, steps.flush
