package java.lockdep;

import java.util.concurrent.TimeUnit;
import java.util.concurrent.locks.Condition;
import java.util.concurrent.locks.Lock;
import java.util.concurrent.locks.ReentrantLock;
import java.util.concurrent.locks.ReentrantReadWriteLock.ReadLock;
import java.util.concurrent.locks.ReentrantReadWriteLock.WriteLock;
import java.util.concurrent.locks.StampedLock;

/** What rewritten classes call of Hooks for locks. */
abstract class LockHooks {
    /** A lock is about to be taken by a call that waits. One of the JDK is written now, since the call may never end. */
    @Apart
    public static void locks(Lock lock, int site) {
        Task task = lock == null ? null : Task.begin();
        if (task == null) return;
        try {
            Known known = task.lock(lock);
            if (known.isOfJdk) task.want(known, Modes.Manner.WAITS, site);
            else task.beginsCall(known);
        } catch (Throwable error) {
            task.abandon(error);
            return;
        }
        task.leave();
    }

    /** That call has ended. */
    @Apart
    public static void locked(Lock lock, int site) {
        Task task = Task.begin();
        if (task == null) return;
        try {
            task.got(lock, site);
        } catch (Throwable error) {
            task.abandon(error);
            return;
        }
        task.leave();
    }

    /** A reference to it is called, which has no frame in the program. */
    static void lock(Lock lock, int site) {
        locks(lock, site);
        lock.lock();
        locked(lock, site);
    }

    public static void lockInterruptibly(Lock lock, int site) throws InterruptedException {
        Pending pending = Pending.of(lock, Modes.Manner.WAITS_INTERRUPTIBLY, site);
        boolean isTaken = false;
        try {
            lock.lockInterruptibly();
            isTaken = true;
        } catch (InterruptedException brokenOff) {
            pending.breakOff();
            throw brokenOff;
        } finally {
            pending.end(isTaken, site);
        }
    }

    /** A try without a limit of time was made. */
    public static boolean tried(Lock lock, boolean isTaken, int site) {
        tried((Object) lock, isTaken, site);
        return isTaken;
    }

    public static boolean tryLock(Lock lock, long time, TimeUnit unit, int site) throws InterruptedException {
        if (time <= 0) {
            boolean isTaken = lock.tryLock(time, unit);
            tried(lock, isTaken, site);
            return isTaken;
        }
        Pending pending = Pending.of(lock, Modes.Manner.WAITS_FOR_A_TIME, site);
        boolean isTaken = false;
        try {
            isTaken = lock.tryLock(time, unit);
        } finally {
            pending.end(isTaken, site);
        }
        return isTaken;
    }

    /** A lock is about to be released. */
    @Apart
    public static void unlocks(Lock lock, int site) {
        Task task = lock == null ? null : Task.begin();
        if (task == null) return;
        try {
            Known known = task.lock(lock);
            if (!task.gave(known, site) && mayRelease(lock, known)) task.gaveUnseen(known);
        } catch (Throwable error) {
            task.abandon(error);
            return;
        }
        task.leave();
    }

    /** Whether the running thread isn't known to be refused when it releases a lock. */
    private static boolean mayRelease(Lock lock, Known known) {
        if (lock.getClass() == ReentrantLock.class) return ((ReentrantLock) lock).isHeldByCurrentThread();
        if (lock instanceof WriteLock) return ((WriteLock) lock).isHeldByCurrentThread();
        if (lock instanceof ReadLock) return Known.mayRead((ReadLock) lock);
        Object whole = known.target.get();
        if (!(whole instanceof StampedLock)) return true;
        return known.isReader ? ((StampedLock) whole).isReadLocked() : ((StampedLock) whole).isWriteLocked();
    }

    /** A condition of a lock was made. */
    public static Condition made(Lock lock, Condition condition) {
        Task task = Task.begin();
        if (task == null) return condition;
        try {
            Known.addCondition(condition, task.lock(lock));
        } catch (Throwable error) {
            task.abandon(error);
            return condition;
        }
        task.leave();
        return condition;
    }

    /** A try of a lock, or of a part of it, was made. */
    @Apart
    static void tried(Object lock, boolean isTaken, int site) {
        Task task = Task.begin();
        if (task == null) return;
        try {
            if (isTaken) task.took(task.lock(lock), Modes.Manner.TRIES, site);
            else task.failed(task.lock(lock));
        } catch (Throwable error) {
            task.abandon(error);
            return;
        }
        task.leave();
    }

    /** A lock is about to be released. Returns whether it was seen to be taken, or isn't to be recorded. */
    @Apart
    static boolean gives(Object lock, int site) {
        Task task = lock == null ? null : Task.begin();
        if (task == null) return true;
        boolean isSeen = true;
        try {
            isSeen = task.gave(task.lock(lock), site);
        } catch (Throwable error) {
            task.abandon(error);
            return true;
        }
        task.leave();
        return isSeen;
    }

    /** A lock was released that the thread wasn't seen to take. */
    static void gaveUnseen(Object lock) {
        Task task = Task.begin();
        if (task == null) return;
        try {
            task.gaveUnseen(task.lock(lock));
        } catch (Throwable error) {
            task.abandon(error);
            return;
        }
        task.leave();
    }
}
