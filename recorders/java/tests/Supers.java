import java.util.concurrent.TimeUnit;
import java.util.concurrent.locks.ReentrantLock;
import java.util.concurrent.locks.StampedLock;

/** Calls through `super`: in methods of other names, in overrides, and in what overrides call. */
public class Supers {
    static class Own extends ReentrantLock {
        void in() {
            super.lock();
        }

        void out() {
            super.unlock();
        }

        void tries() throws InterruptedException {
            if (super.tryLock()) monitor();
            super.unlock();
            if (super.tryLock(0, TimeUnit.SECONDS)) super.unlock();
            if (super.tryLock(1, TimeUnit.SECONDS)) super.unlock();
            super.lockInterruptibly();
            super.unlock();
        }

        void refers() {
            Runnable in = super::lock;
            Runnable out = super::unlock;
            in.run();
            monitor();
            out.run();
            monitor();
        }
    }

    /** Its overrides call inherited ones: by themselves, by another method, and twice. */
    static class Overrides extends Own {
        @Override
        public void lock() {
            if (!super.tryLock()) super.lock();
        }

        @Override
        public boolean tryLock() {
            if (super.tryLock()) super.unlock();
            in();
            return true;
        }

        @Override
        public void lockInterruptibly() {
            in();
        }
    }

    static class OverridesUnlock extends Own {
        @Override
        public void unlock() {
            out();
        }
    }

    static class Stamped extends StampedLock {
        void takes() throws InterruptedException {
            long stamp = super.writeLock();
            monitor();
            super.unlockWrite(stamp);
            stamp = super.readLock();
            monitor();
            super.unlockRead(stamp);
            super.unlock(super.writeLockInterruptibly());
            super.unlock(super.readLockInterruptibly());
        }

        void tries() throws InterruptedException {
            super.unlock(super.tryWriteLock());
            super.unlock(super.tryReadLock());
            super.tryWriteLock(1, TimeUnit.SECONDS);
            super.tryUnlockWrite();
            super.tryReadLock(1, TimeUnit.SECONDS);
            super.tryUnlockRead();
            monitor();
        }

        void changes() {
            long reader = super.tryConvertToReadLock(super.writeLock());
            long writer = super.tryConvertToWriteLock(reader);
            super.tryConvertToOptimisticRead(writer);
            try {
                super.unlockWrite(writer);
            } catch (IllegalMonitorStateException expected) {
                super.asWriteLock().lock();
            }
            super.asWriteLock().unlock();
            monitor();
        }

        @Override
        public long writeLock() {
            return super.writeLock();
        }
    }

    /** Its methods have names of those of a Lock, which it is not. */
    static class Like extends StampedLock {
        private long stamp;

        void lock() {
            stamp = super.writeLock();
        }

        void unlock() {
            super.unlockWrite(stamp);
        }
    }

    static final Object monitor = new Object();
    static final Own own = new Own();
    static final Overrides overrides = new Overrides();
    static final OverridesUnlock overridesUnlock = new OverridesUnlock();
    static final Stamped stamped = new Stamped();
    static final Like like = new Like();

    static void monitor() {
        synchronized (monitor) {
        }
    }

    static void takes() {
        own.in();
        monitor();
        own.out();
        monitor();
    }

    static void takesHere() {
        own.in();
        own.unlock();
        monitor();
        own.lock();
        own.out();
        monitor();
    }

    static void takesOverridden() {
        overrides.lock();
        overrides.lockInterruptibly();
        overrides.tryLock();
        overrides.unlock();
        overrides.unlock();
        monitor();
        overrides.unlock();
        monitor();
    }

    static void takesOverriddenAtOnce() {
        overrides.tryLock();
        monitor();
        overrides.unlock();
        monitor();
        overrides.lockInterruptibly();
        overrides.unlock();
    }

    static void releasesOverridden() {
        overridesUnlock.lock();
        overridesUnlock.lock();
        overridesUnlock.unlock();
        monitor();
        overridesUnlock.unlock();
        monitor();
    }

    static void takesStamped() {
        stamped.unlockWrite(stamped.writeLock());
        monitor();
    }

    static void takesLike() {
        like.lock();
        monitor();
        like.unlock();
        monitor();
    }

    void waits() throws InterruptedException {
        synchronized (this) {
            synchronized (monitor) {
                super.wait(1);
            }
        }
    }

    interface Failing {
        void run() throws InterruptedException;
    }

    public static void main(String[] words) throws InterruptedException {
        Supers waiting = new Supers();
        for (Failing what : new Failing[] {Supers::takes, Supers::takesHere, own::tries, own::refers, Supers::takesOverridden,
            Supers::takesOverriddenAtOnce, Supers::releasesOverridden, Supers::takesStamped, stamped::takes, stamped::tries, stamped::changes,
            waiting::waits, Supers::takesLike}) {
            Thread thread = new Thread(() -> {
                try {
                    what.run();
                } catch (InterruptedException error) {
                    throw new Error(error);
                }
            });
            thread.start();
            thread.join();
        }
    }
}
