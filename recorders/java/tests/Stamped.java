import java.util.concurrent.TimeUnit;
import java.util.concurrent.locks.Lock;
import java.util.concurrent.locks.StampedLock;

/** Stamped locks: each way to take and to change one, and a lock that another thread releases. */
public class Stamped {
    static final StampedLock lock = new StampedLock();
    static long stamp;

    static void takes() throws InterruptedException {
        lock.unlockWrite(lock.writeLock());
        lock.unlockRead(lock.readLock());
        lock.unlock(lock.writeLockInterruptibly());
        lock.unlock(lock.readLockInterruptibly());
        lock.validate(lock.tryOptimisticRead());
    }

    static void tries() throws InterruptedException {
        long writer = lock.tryWriteLock();
        lock.tryReadLock();
        lock.unlock(writer);
        lock.unlock(lock.tryReadLock());
        lock.unlock(lock.tryWriteLock(1, TimeUnit.SECONDS));
        lock.unlock(lock.tryReadLock(1, TimeUnit.SECONDS));
    }

    static void changes() {
        long reader = lock.tryConvertToReadLock(lock.writeLock());
        long writer = lock.tryConvertToWriteLock(reader);
        lock.tryConvertToOptimisticRead(writer);
        lock.tryConvertToReadLock(lock.tryOptimisticRead());
        lock.tryUnlockRead();
    }

    static void views() {
        Lock reader = lock.asReadLock();
        Lock writer = lock.asReadWriteLock().writeLock();
        reader.lock();
        reader.unlock();
        writer.lock();
        writer.unlock();
    }

    static void takesForOther() {
        stamp = lock.writeLock();
        Thread other = new Thread(() -> lock.unlockWrite(stamp));
        other.start();
        try {
            other.join();
        } catch (InterruptedException error) {
            throw new Error(error);
        }
        synchronized (Stamped.class) {
        }
    }

    interface Failing {
        void run() throws InterruptedException;
    }

    public static void main(String[] words) throws InterruptedException {
        for (Failing what : new Failing[] {Stamped::takes, Stamped::tries, Stamped::changes, Stamped::views, Stamped::takesForOther}) {
            Thread thread = new Thread(() -> {
                try {
                    what.run();
                } catch (InterruptedException error) {
                    throw new Error(error);
                }
            });
            thread.start();
            thread.join();
        }
    }
}
