package java.lockdep;

/** A call that waits for a lock and may fail. */
final class Pending {
    private static final Pending NONE = new Pending(null, null, null, null, 0);

    private final Task task;
    private final Known lock;
    private final Modes.Manner manner;
    /** What is already written; null if there is nothing to write, or if it is written after the lock was taken. */
    private final Held wanted;
    /** How much the task had taken before. */
    private final long taken;
    private boolean isBrokenOff;

    private Pending(Task task, Known lock, Modes.Manner manner, Held wanted, long taken) {
        this.task = task;
        this.lock = lock;
        this.manner = manner;
        this.wanted = wanted;
        this.taken = taken;
    }

    /**
     * What is to be waited for. A lock of the JDK is written before the wait. One of the program's own locks may call
     * others, so it is written after it was taken.
     */
    @Within
    static Pending of(Object lock, Modes.Manner manner, int site) {
        Task task = lock == null ? null : Task.begin();
        if (task == null) return NONE;
        Pending pending;
        try {
            Known known = task.lock(lock);
            long taken = task.taken();
            pending = new Pending(task, known, manner, known.isOfJdk ? task.want(known, manner, site) : null, taken);
        } catch (Throwable error) {
            task.abandon(error);
            return NONE;
        }
        task.leave();
        return pending;
    }

    /** An interrupt ended a wait that had no limit: its order stays, as if the lock was taken and given back at once. */
    void breakOff() {
        if (task == null || !task.beginAgain()) return;
        isBrokenOff = true;
        try {
            if (lock.isOfJdk) task.breakOff(wanted);
        } catch (Throwable error) {
            task.abandon(error);
            return;
        }
        task.leave();
    }

    @Within
    void end(boolean isTaken, int site) {
        if (isBrokenOff || task == null || !task.beginAgain()) return;
        try {
            if (!isTaken) task.withdraw(wanted);
            else if (lock.isOfJdk) task.grant(lock, wanted, manner, site);
            else task.took(lock, manner, site, taken);
        } catch (Throwable error) {
            task.abandon(error);
            return;
        }
        task.leave();
    }
}
