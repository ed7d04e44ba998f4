package java.lockdep;

import java.util.concurrent.locks.Lock;
import java.util.concurrent.locks.ReentrantLock;
import java.util.concurrent.locks.StampedLock;

/**
 * What is called before or after a call of an inherited method through `super`, which has to stay: a call by Hooks would
 * call what overrides it. Words of the call come first, and what the call gets or returns is returned.
 */
public final class Supers {
    private Supers() {
    }

    // ---- Locks.

    /** A lock is about to be released. If the release was recorded where its override was called, it isn't again. */
    public static void unlocks(Lock lock, int site) {
        if (!isRecorded(lock)) Hooks.unlocks(lock, site);
    }

    /** Whether fewer levels are recorded than the lock has, as after the record of a release that is still to come. */
    private static boolean isRecorded(Lock lock) {
        Task task = lock instanceof ReentrantLock ? Task.begin() : null;
        if (task == null) return false;
        boolean isRecorded = false;
        try {
            int levels = ((ReentrantLock) lock).getHoldCount();
            isRecorded = levels == 0 || task.levels(task.lock(lock)) < levels;
        } catch (Throwable error) {
            task.abandon(error);
            return false;
        }
        task.leave();
        return isRecorded;
    }

    /** How long the next try waits at most. */
    public static void limit(long time) {
        Task.ofThisThreadOrNew().word = time;
    }

    /** A try with a limit of time was made. */
    public static boolean tryLock(boolean isTaken, Lock lock, int site) {
        if (isTaken) tookInTime(lock, site);
        return isTaken;
    }

    private static void tookInTime(Object lock, int site) {
        Task task = Task.begin();
        if (task == null) return;
        try {
            task.took(task.lock(lock), task.word > 0 ? Modes.Manner.WAITS_FOR_A_TIME : Modes.Manner.TRIES, site);
        } catch (Throwable error) {
            task.abandon(error);
            return;
        }
        task.leave();
    }

    // ---- Stamped locks.

    /** A stamped lock is about to be waited for. */
    public static void writes(StampedLock lock, int site) {
        Pending.of(Part.of(lock, false), Modes.Manner.WAITS, site);
    }

    public static void reads(StampedLock lock, int site) {
        Pending.of(Part.of(lock, true), Modes.Manner.WAITS, site);
    }

    /** That call has ended. */
    public static long written(StampedLock lock, long stamp, int site) {
        Hooks.locked((Lock) Part.of(lock, false), site);
        return stamp;
    }

    public static long read(StampedLock lock, long stamp, int site) {
        Hooks.locked((Lock) Part.of(lock, true), site);
        return stamp;
    }

    /** A try without a limit of time was made. */
    public static long triedToWrite(StampedLock lock, long stamp, int site) {
        Hooks.tried(Part.of(lock, false), stamp != 0, site);
        return stamp;
    }

    public static long triedToRead(StampedLock lock, long stamp, int site) {
        Hooks.tried(Part.of(lock, true), stamp != 0, site);
        return stamp;
    }

    /** A try with a limit of time was made. */
    public static long tryWriteLock(long stamp, StampedLock lock, int site) {
        if (stamp != 0) tookInTime(Part.of(lock, false), site);
        return stamp;
    }

    public static long tryReadLock(long stamp, StampedLock lock, int site) {
        if (stamp != 0) tookInTime(Part.of(lock, true), site);
        return stamp;
    }

    /** A stamped lock is about to be released. */
    public static long unlockWrite(long stamp, StampedLock lock, int site) {
        return unlock(stamp, Part.of(lock, false), lock.isWriteLocked(), site);
    }

    public static long unlockRead(long stamp, StampedLock lock, int site) {
        return unlock(stamp, Part.of(lock, true), lock.isReadLocked(), site);
    }

    public static long unlock(long stamp, StampedLock lock, int site) {
        return StampedLock.isReadLockStamp(stamp) ? unlockRead(stamp, lock, site) : unlockWrite(stamp, lock, site);
    }

    /** (A lock that isn't held refuses to be released.) */
    private static long unlock(long stamp, Object part, boolean isHeld, int site) {
        if (!Hooks.gives(part, site) && isHeld) Hooks.gaveUnseen(part);
        return stamp;
    }

    /** Its release was tried. */
    public static boolean triedToUnlockWrite(StampedLock lock, boolean isGiven, int site) {
        if (isGiven) unlock(0, Part.of(lock, false), true, site);
        return isGiven;
    }

    public static boolean triedToUnlockRead(StampedLock lock, boolean isGiven, int site) {
        if (isGiven) unlock(0, Part.of(lock, true), true, site);
        return isGiven;
    }

    /** A stamp is about to become another one. */
    public static void converts(long stamp) {
        Task.ofThisThreadOrNew().word = stamp;
    }

    public static long converted(long stamp, StampedLock lock, int site) {
        return Hooks.changed(lock, Task.ofThisThreadOrNew().word, stamp, site);
    }

    /** A view of it is about to be given out. */
    public static void views(StampedLock lock, int site) {
        Part.of(lock, true);
        Part.of(lock, false);
    }
}
