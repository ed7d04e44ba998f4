package java.lockdep;

import java.lang.invoke.VarHandle;
import java.util.concurrent.TimeUnit;

/**
 * A thread, and what it does with monitors and locks. Only the thread itself works on it, except at the end, when the
 * recording is over.
 */
final class Task extends Trace {
    private static final int MOST_RECENT = 15;

    private static final ThreadLocal<Task> here = new ThreadLocal<>();

    final int hashOfThread = System.identityHashCode(Thread.currentThread());
    final long startOfThread = System.nanoTime();

    /** Where the newest constructor that is told its place is called; 0 once it was asked. */
    int making;
    /** Words of the call that is being made, if Supers or Maybe keep them. */
    long word;
    TimeUnit unit;
    boolean isOver;
    /** While the task is being examined. */
    private boolean isBusy;
    /** Of which lock, or part of one, that was wanted. */
    private Known pendingOf;
    /** Its calls of the program's own locks; null if it never made one. */
    private Begun begun;
    /** Those that were looked up, by the last bits of their hashes. */
    private final Known[] recent = new Known[MOST_RECENT + 1];

    private Task() {
        if (life != null) life.task = this;
    }

    // ---- The running task.

    /** The running task, which is busy from here on; null if nothing is to be recorded now. */
    @Within
    static Task begin() {
        Task task = ofThisThreadOrNew();
        return task.beginAgain() ? task : null;
    }

    /** The running task is busy from here on, unless nothing is to be recorded now. */
    @Within
    boolean beginAgain() {
        if (isBusy) return false;
        isBusy = true;
        if (Recording.isOver) { // (which is read after that was written)
            isBusy = false;
            return false;
        }
        if (stand != null && stand.isAsking) Provoke.run(stand);
        return true;
    }

    @Apart
    private static Task add() {
        Task task = Recording.taskOf(Thread.currentThread());
        if (task != null) { // a pool of the JDK's has taken from its thread what is local to that
            here.set(task);
            return task;
        }
        task = new Task();
        task.isBusy = true;
        here.set(task);
        Recording.add(task);
        if (task.life != null) task.note(Steps.BEGINS, task.life.message, 0, 0);
        task.leave();
        return task;
    }

    @Within
    static Task ofThisThreadOrNew() {
        Task task = here.get();
        return task != null ? task : add();
    }

    /** The task of this thread, if it has one. */
    static Task ofThisThread() {
        return here.get();
    }

    /** The task is no longer being examined. */
    @Within
    void leave() {
        VarHandle.releaseFence();
        isBusy = false;
    }

    boolean isLookedAt() {
        boolean isStill = isBusy;
        VarHandle.acquireFence();
        return isStill;
    }

    /**
     * Something went wrong while the task was being examined, for example because the stack is full: its trace ends
     * here, and it stays busy. If there may be no room for anything, nothing is called.
     */
    @Apart
    void abandon(Throwable error) {
        isOver = true;
        Recording.broken++;
        if (error instanceof VirtualMachineError) return;
        if (error.getClass().getName().equals("java.lang.ThreadDeath")) throw (Error) error; // by Thread.stop
    }

    /** The class of an object whose constructor runs; null if the constructor wasn't told where it is called. */
    Made toldOf(Object object) {
        if (making == 0) return null;
        Site site = Site.of(making);
        if (!site.makes(object)) return null;
        making = 0;
        return site.made();
    }

    // ---- Monitors.

    @Within
    void enter(Object object, int site, boolean isAsked) {
        Held again = depth == 0 ? null : find(object);
        if (again != null) {
            again.levels++;
            return;
        }
        if (leftOut != null && leftOut.has(object)) {
            leftOut.add(object);
            return;
        }
        Known lock = monitor(object);
        if (isAsked && stand != null) {
            stand.isInterruptible = false;
            Provoke.ask(stand, lock, Modes.WRITE, held, depth, site, false);
        }
        take(lock, object, Modes.WRITE, site);
    }

    @Within
    void exit(Object object) {
        settle();
        Held entry = depth == 0 ? null : find(object);
        if (entry == null) exitUnseen(object);
        else if (entry.levels > 1) entry.levels--;
        else giveBack(entry);
    }

    @Apart
    private void exitUnseen(Object object) {
        if (leftOut == null || !leftOut.remove(object)) unseenReleases++;
        else if (!leftOut.has(object)) noteRelease(monitor(object));
    }

    /** The held entry of a monitor. */
    @Apart
    private Held find(Object object) {
        for (int at = depth - 1; at >= 0; at--) {
            if (held[at].object == object) return held[at];
        }
        return null;
    }

    @Within
    Known monitor(Object object) {
        int hash = System.identityHashCode(object); // (which takes longer for what is locked)
        Known known = recent[hash & MOST_RECENT];
        return known != null && known.get() == object && known.isMonitor ? known : lookUp(object, hash, true);
    }

    @Within
    Known lock(Object lock) {
        int hash = System.identityHashCode(lock);
        Known known = recent[hash & MOST_RECENT];
        return known != null && known.get() == lock && !known.isMonitor ? known : lookUp(lock, hash, false);
    }

    @Apart
    private Known lookUp(Object object, int hash, boolean asMonitor) {
        Known known = Table.find(object, hash, asMonitor);
        if (known == null) known = Known.add(object, hash, asMonitor);
        recent[hash & MOST_RECENT] = known;
        return known;
    }

    /** A monitor is released for a while: how often it was taken, 0 if that wasn't seen. */
    int suspend(Object object) {
        Held entry = find(object);
        if (entry != null) beginWait(entry.lock);
        return entry == null ? 0 : suspend(entry);
    }

    void resume(Object object, int levels, int site, boolean isWoken) {
        if (isWoken) endWait(monitor(object), site);
        Held entry = take(monitor(object), object, Modes.WRITE, site);
        if (entry != null) entry.levels = levels;
        for (int level = 1; entry == null && level < levels; level++) leftOut.add(object);
    }

    // ---- Locks of java.util.concurrent.locks.

    /** The newest held entry of a lock; as a reader, as a writer, or either. */
    @Apart
    private Held find(Known lock, boolean isEither, boolean isReader) {
        for (int at = depth - 1; at >= 0; at--) {
            Held entry = held[at];
            if (entry.lock == lock && (isEither || entry.isReader() == isReader)) return entry;
        }
        return null;
    }

    /** What the task already holds in such a way that another acquisition of the lock doesn't wait. */
    @Within
    private Held again(Known lock) {
        return lock.target.isReentrant ? find(lock.target, lock.isReader, false) : null;
    }

    /** The task is about to wait for a lock: it is written as if it were taken. Null if there is nothing to write. */
    @Within
    Held want(Known lock, Modes.Manner manner, int site) {
        settle();
        if (again(lock) != null) return null;
        if (Modes.isEndless(manner) && stand != null) {
            stand.isInterruptible = manner == Modes.Manner.WAITS_INTERRUPTIBLY;
            Provoke.ask(stand, lock.target, Modes.of(lock.isReader, manner), held, depth, site, lock != lock.target || !lock.isReentrant);
        }
        Held entry = push(lock.target, null, Modes.of(lock.isReader, manner), site);
        if (entry == null) return null;
        pending = entry;
        pendingOf = lock;
        if (isNew()) Recording.write(this);
        return entry;
    }

    @Within
    private boolean isNew() {
        return !way.isTaken && !way.common.isTaken;
    }

    /** What was wanted was taken. */
    @Within
    void grant(Known lock, Held wanted, Modes.Manner manner, int site) {
        failed = null;
        if (wanted == null) {
            takeAgain(lock);
            return;
        }
        if (pending != wanted) { // one of the program's own calls came in between
            took(lock, manner, site);
            return;
        }
        pending = null;
        operations++;
        if (Steps.isOn) noteTaking(lock.target, wanted, wanted.code & 7, site);
        if (!way.isTaken) see();
        if (!lock.target.isReentrant) lock.target.addHolder(this);
    }

    /** A lock was taken by a call that waits without a limit; it is what was wanted, unless other calls came in between. */
    @Within
    void got(Object object, int site) {
        if (pending != null && pendingOf.get() == object) grant(pendingOf, pending, Modes.Manner.WAITS, site);
        else gotAfterOthers(lock(object), site);
    }

    @Apart
    private void gotAfterOthers(Known lock, int site) {
        long callBegan = lock.isOfJdk || begun == null ? taken : begun.remove(lock, taken);
        took(lock, Modes.Manner.WAITS, site, callBegan);
    }

    /** A call of one of the program's own locks begins, which may take others. */
    @Apart
    void beginsCall(Known lock) {
        if (begun == null) begun = new Begun();
        begun.add(lock, taken);
    }

    long taken() {
        return taken;
    }

    /** What was wanted without a record was taken. */
    @Apart
    private void takeAgain(Known lock) {
        Held entry = again(lock);
        if (entry == null) leaveOut(lock.target);
        else if (entry.isReader() != lock.isReader) entry.reads++;
        else if (!lock.hasLevels(entry.levels)) entry.levels++;
    }

    /** How often a lock is known to be held in its own way. */
    int levels(Known lock) {
        Held entry = find(lock.target, false, lock.isReader);
        return entry == null ? 0 : entry.levels;
    }

    /** What was wanted wasn't taken. */
    void withdraw(Held wanted) {
        if (wanted != null && wanted == pending) withdraw();
    }

    /** What was wanted won't be waited for any longer, but would have been for ever: it is written as taken and given back. */
    void breakOff(Held wanted) {
        if (wanted != null && wanted == pending) note(Steps.BREAKS, wanted.code >>> 3, 0, 0);
        keep(wanted);
    }

    private void keep(Held wanted) {
        if (wanted == null || wanted != pending) return;
        pending = null;
        operations++;
        if (!way.isTaken) see();
        giveBack(wanted);
    }

    /** A thread whose end was wanted has ended: it is taken and given back, which isn't among the program's operations. */
    void passed(Held wanted) {
        long before = operations;
        keep(wanted);
        operations = before;
    }

    /** A lock was taken, by a try or by a call that other code makes. */
    void took(Known lock, Modes.Manner manner, int site) {
        took(lock, manner, site, taken);
    }

    /** The same, by a call that began when so much had been taken. */
    void took(Known lock, Modes.Manner manner, int site, long callBegan) {
        failed = null;
        if (again(lock) != null) {
            takeAgain(lock);
            return;
        }
        Held entry = take(lock.target, null, Modes.of(lock.isReader, manner), site);
        if (entry == null) return;
        entry.callBegan = callBegan;
        if (!lock.target.isReentrant) lock.target.addHolder(this);
    }

    /** A try failed. One that is repeated at once, with other locks held, is a way of waiting that no trace shows. */
    void failed(Known lock) {
        if (depth > 0 && failed == lock) retriedTries++;
        failed = lock;
    }

    /** A lock is about to be released. Returns whether it was seen to be taken. */
    @Within
    boolean gave(Known lock, int site) {
        settle();
        Known target = lock.target;
        Held entry = find(target, false, lock.isReader);
        if (entry == null && lock.isReader) entry = find(target, true, false);
        if (entry == null) return leftOut != null && removeLeftOut(target);
        if (entry.isReader() == lock.isReader) {
            if (--entry.levels == 0) giveAll(entry, site);
        } else {
            entry.reads--;
        }
        return true;
    }

    /** A task has released all that it held as a writer; what it holds as a reader stays, and waits for nobody. */
    @Apart
    private void giveAll(Held entry, int site) {
        Known lock = entry.lock;
        int reads = entry.reads;
        giveBack(entry);
        if (!lock.isReentrant) lock.removeHolder(this);
        if (reads > 0) {
            Held kept = take(lock, null, Modes.TRY_READ, site);
            if (kept != null) kept.levels = reads;
        }
    }

    private boolean removeLeftOut(Known lock) {
        operations++;
        if (!leftOut.remove(lock)) return false;
        if (!leftOut.has(lock)) noteRelease(lock);
        return true;
    }

    /** The task wasn't seen to take what it releases. */
    void gaveUnseen(Known lock) {
        unseenReleases++;
        noteRelease(lock.target);
        Task other = lock.target.otherHolder(this);
        if (other == null) return;
        lock.target.removeHolder(other);
        other.drop(lock);
    }

    /** Another task releases what this one took: that ends at this one's next operation. */
    private void drop(Known lock) {
        for (Held entry : held) {
            if (entry != null && entry.lock == lock.target && !entry.isDropped) {
                entry.isDropped = true;
                hasDropped = true;
                return;
            }
        }
    }

    /** What a wait for a condition releases; null if its lock wasn't seen to be taken. */
    Released suspendFor(Known condition) {
        Held entry = find(condition.target, false, false);
        if (entry == null) return null;
        beginWait(condition);
        Released last = null;
        long before = taken;
        for (int at = depth - 1; at >= 0; at--) {
            Held own = held[at];
            if (isTakenBy(own, entry) || own != entry && condition.isGivenOutBy(own.lock)) {
                last = new Released(own.lock, suspend(own), before, last);
            }
        }
        return new Released(condition.target, suspend(entry), before, last);
    }

    /** Whether one of the program's own locks was taken by a call that took another one for it. */
    private static boolean isTakenBy(Held own, Held other) {
        return !own.lock.isOfJdk && own.object == null && own.callBegan < other.number && other.number < own.number;
    }

    private int suspend(Held entry) {
        int levels = entry.levels;
        giveBack(entry);
        return levels;
    }

    void resume(Released released, int site) {
        Held entry = take(released.lock, null, Modes.WRITE, site);
        if (entry != null) {
            entry.levels = released.levels;
            entry.callBegan = released.taken;
        }
        for (int level = 1; entry == null && level < released.levels; level++) leftOut.add(released.lock);
    }

    // ---- The end.

    /** The thread has ended: what it waited for wasn't taken. */
    void end() {
        settle();
        isOver = true;
    }

    /** The thread waits for a monitor at the end, which is found out from outside. */
    void waitsFor(Known lock, int site) {
        push(lock, lock.get(), Modes.WRITE, site);
    }
}
