package java.lockdep;

/**
 * A wait for the end of a thread. To who joins it, a thread is a lock that it has from its start to its end, and that
 * is taken and given back at once. What of this can matter is found out when the traces are made
 * (tool/lockdep/finish/joins.py).
 */
final class Join {
    /** How long is waited before that is written, in milliseconds. */
    private static final long PATIENCE = 50;

    private final Task task;
    private final Known life;
    private final Modes.Manner manner;
    private final int site;
    private Held wanted;

    private Join(Task task, Known life, Modes.Manner manner, int site) {
        this.task = task;
        this.life = life;
        this.manner = manner;
        this.site = site;
    }

    /**
     * Null if it can't matter that the running task waits for a thread: it holds nothing, and is no thread that may be
     * joined itself; or nobody saw the other one start.
     */
    private static Join of(Thread thread, boolean isTimed, int site) {
        Task task = thread == null ? null : Task.begin();
        if (task == null) return null;
        Join join = null;
        try {
            Known life = task.depth() > 0 || task.life != null ? Known.ofThread(thread) : null;
            if (life != null && life.joiner != task) {
                join = new Join(task, life, isTimed ? Modes.Manner.WAITS_FOR_A_TIME : Modes.Manner.WAITS, site);
            }
        } catch (Throwable error) {
            task.abandon(error);
            return null;
        }
        task.leave();
        return join;
    }

    /**
     * Waits for a thread; 0 milliseconds and nanoseconds are no limit. The JDK does that by waits on the thread's own
     * monitor: if the caller holds it, it is released meanwhile.
     */
    static void join(Thread thread, long milliseconds, int nanoseconds, int site) throws InterruptedException {
        int levels = releasesMonitor(thread) ? Hooks.suspend(thread) : 0;
        if (levels == 0) {
            joinRecorded(thread, milliseconds, nanoseconds, site);
            return;
        }
        try {
            joinRecorded(thread, milliseconds, nanoseconds, site);
        } finally {
            Hooks.resume(thread, levels, site, milliseconds == 0 && nanoseconds == 0);
        }
    }

    /** Whether a join of a thread releases its monitor: neither an ended thread nor a virtual one is waited for by that. */
    private static boolean releasesMonitor(Thread thread) {
        return thread != null && Thread.holdsLock(thread) && thread.isAlive()
                && !thread.getClass().getName().equals("java.lang.VirtualThread");
    }

    private static void joinRecorded(Thread thread, long milliseconds, int nanoseconds, int site)
            throws InterruptedException {
        boolean isTimed = milliseconds != 0 || nanoseconds != 0;
        Join join = of(thread, isTimed, site);
        boolean isShort = isTimed && milliseconds <= PATIENCE;
        try {
            if (join == null || isShort) thread.join(milliseconds, nanoseconds);
            else thread.join(PATIENCE);
        } catch (InterruptedException brokenOff) {
            if (join != null && join.manner == Modes.Manner.WAITS) join.breakOff();
            throw brokenOff;
        }
        if (join != null) {
            if (!thread.isAlive()) join.pass();
            else if (!isShort) join.waitLong(thread, isTimed ? milliseconds - PATIENCE : 0, nanoseconds);
        }
        if (!thread.isAlive()) noteJoined(thread, Modes.of(false, isTimed ? Modes.Manner.WAITS_FOR_A_TIME : Modes.Manner.WAITS), site);
    }

    /** The running thread has waited for the end of another one, and never waits for that one again. */
    private static void noteJoined(Thread thread, int mode, int site) {
        Task task = Task.begin();
        if (task == null) return;
        try {
            Known life = Known.ofThread(thread);
            if (life != null && life.task != null && life.joiner != task) task.note(Steps.JOINS, life.task.member, site, mode);
            if (life != null) life.joiner = task;
        } catch (Throwable error) {
            task.abandon(error);
            return;
        }
        task.leave();
    }

    /** An interrupt ended it before it was written. It would have waited for ever, so its order is written even so. */
    private void breakOff() {
        want();
        end(false, true);
    }

    private void waitLong(Thread thread, long milliseconds, int nanoseconds) throws InterruptedException {
        want();
        boolean isBrokenOff = false;
        try {
            thread.join(milliseconds, nanoseconds);
        } catch (InterruptedException brokenOff) {
            isBrokenOff = manner == Modes.Manner.WAITS; // it would have waited for ever, so the order stays
            throw brokenOff;
        } finally {
            end(!thread.isAlive() && life.task != null, isBrokenOff);
        }
    }

    private void want() {
        if (Task.begin() == null) return;
        try {
            life.waitFor();
            wanted = task.want(life, manner, site);
        } catch (Throwable error) {
            task.abandon(error);
            return;
        }
        task.leave();
    }

    private void end(boolean isPassed, boolean isBrokenOff) {
        if (Task.begin() == null) return;
        try {
            if (isBrokenOff) task.breakOff(wanted);
            else if (isPassed) task.passed(wanted);
            else task.withdraw(wanted);
        } catch (Throwable error) {
            task.abandon(error);
            return;
        }
        task.leave();
    }

    /** The thread has ended, and may have taken locks. */
    private void pass() {
        if (life.task == null || Task.begin() == null) return;
        try {
            life.waitFor();
            task.passed(task.want(life, manner, site));
        } catch (Throwable error) {
            task.abandon(error);
            return;
        }
        task.leave();
    }
}
