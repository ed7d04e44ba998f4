package java.lockdep;

import java.util.concurrent.TimeUnit;
import java.util.concurrent.locks.Lock;
import java.util.concurrent.locks.ReadWriteLock;
import java.util.concurrent.locks.StampedLock;

/** What rewritten classes call of Hooks for stamped locks. Each acquisition of these is separate. */
abstract class StampedHooks extends LockHooks {
    public static long writeLock(StampedLock lock, int site) {
        Pending pending = Pending.of(Part.of(lock, false), Modes.Manner.WAITS, site);
        long stamp = 0;
        try {
            stamp = lock.writeLock();
        } finally {
            pending.end(stamp != 0, site);
        }
        return stamp;
    }

    public static long readLock(StampedLock lock, int site) {
        Pending pending = Pending.of(Part.of(lock, true), Modes.Manner.WAITS, site);
        long stamp = 0;
        try {
            stamp = lock.readLock();
        } finally {
            pending.end(stamp != 0, site);
        }
        return stamp;
    }

    public static long writeLockInterruptibly(StampedLock lock, int site) throws InterruptedException {
        Pending pending = Pending.of(Part.of(lock, false), Modes.Manner.WAITS_INTERRUPTIBLY, site);
        long stamp = 0;
        try {
            stamp = lock.writeLockInterruptibly();
        } catch (InterruptedException brokenOff) {
            pending.breakOff();
            throw brokenOff;
        } finally {
            pending.end(stamp != 0, site);
        }
        return stamp;
    }

    public static long readLockInterruptibly(StampedLock lock, int site) throws InterruptedException {
        Pending pending = Pending.of(Part.of(lock, true), Modes.Manner.WAITS_INTERRUPTIBLY, site);
        long stamp = 0;
        try {
            stamp = lock.readLockInterruptibly();
        } catch (InterruptedException brokenOff) {
            pending.breakOff();
            throw brokenOff;
        } finally {
            pending.end(stamp != 0, site);
        }
        return stamp;
    }

    public static long tryWriteLock(StampedLock lock, int site) {
        long stamp = lock.tryWriteLock();
        tried(Part.of(lock, false), stamp != 0, site);
        return stamp;
    }

    public static long tryReadLock(StampedLock lock, int site) {
        long stamp = lock.tryReadLock();
        tried(Part.of(lock, true), stamp != 0, site);
        return stamp;
    }

    public static long tryWriteLock(StampedLock lock, long time, TimeUnit unit, int site) throws InterruptedException {
        Pending pending = Pending.of(Part.of(lock, false), Modes.Manner.WAITS_FOR_A_TIME, site);
        long stamp = 0;
        try {
            stamp = lock.tryWriteLock(time, unit);
        } finally {
            pending.end(stamp != 0, site);
        }
        return stamp;
    }

    public static long tryReadLock(StampedLock lock, long time, TimeUnit unit, int site) throws InterruptedException {
        Pending pending = Pending.of(Part.of(lock, true), Modes.Manner.WAITS_FOR_A_TIME, site);
        long stamp = 0;
        try {
            stamp = lock.tryReadLock(time, unit);
        } finally {
            pending.end(stamp != 0, site);
        }
        return stamp;
    }

    public static void unlockWrite(StampedLock lock, long stamp, int site) {
        Object part = Part.of(lock, false);
        boolean isSeen = gives(part, site);
        lock.unlockWrite(stamp);
        if (!isSeen) gaveUnseen(part);
    }

    public static void unlockRead(StampedLock lock, long stamp, int site) {
        Object part = Part.of(lock, true);
        boolean isSeen = gives(part, site);
        lock.unlockRead(stamp);
        if (!isSeen) gaveUnseen(part);
    }

    public static void unlock(StampedLock lock, long stamp, int site) {
        Object part = Part.of(lock, StampedLock.isReadLockStamp(stamp));
        boolean isSeen = gives(part, site);
        lock.unlock(stamp);
        if (!isSeen) gaveUnseen(part);
    }

    public static boolean tryUnlockWrite(StampedLock lock, int site) {
        boolean isGiven = lock.tryUnlockWrite();
        if (isGiven) change(lock, true, false, false, false, site);
        return isGiven;
    }

    public static boolean tryUnlockRead(StampedLock lock, int site) {
        boolean isGiven = lock.tryUnlockRead();
        if (isGiven) change(lock, false, true, false, false, site);
        return isGiven;
    }

    public static long tryConvertToWriteLock(StampedLock lock, long stamp, int site) {
        return changed(lock, stamp, lock.tryConvertToWriteLock(stamp), site);
    }

    public static long tryConvertToReadLock(StampedLock lock, long stamp, int site) {
        return changed(lock, stamp, lock.tryConvertToReadLock(stamp), site);
    }

    public static long tryConvertToOptimisticRead(StampedLock lock, long stamp, int site) {
        return changed(lock, stamp, lock.tryConvertToOptimisticRead(stamp), site);
    }

    static long changed(StampedLock lock, long old, long stamp, int site) {
        if (stamp != 0) {
            change(lock, StampedLock.isWriteLockStamp(old), StampedLock.isReadLockStamp(old),
                    StampedLock.isWriteLockStamp(stamp),
                    StampedLock.isReadLockStamp(stamp), site);
        }
        return stamp;
    }

    /** A stamped lock is held in another way than before, without waiting. */
    private static void change(StampedLock lock, boolean wasWriter, boolean wasReader, boolean isWriter,
            boolean isReader, int site) {
        if (wasWriter == isWriter && wasReader == isReader) return;
        Object before = Part.of(lock, wasReader);
        if ((wasWriter || wasReader) && !gives(before, site)) gaveUnseen(before);
        if (isWriter || isReader) tried(Part.of(lock, isReader), true, site);
    }

    public static Lock asReadLock(StampedLock lock) {
        Part.of(lock, true);
        return lock.asReadLock();
    }

    public static Lock asWriteLock(StampedLock lock) {
        Part.of(lock, false);
        return lock.asWriteLock();
    }

    public static ReadWriteLock asReadWriteLock(StampedLock lock) {
        Part.of(lock, true);
        Part.of(lock, false);
        return lock.asReadWriteLock();
    }
}
