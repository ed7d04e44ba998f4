import java.util.concurrent.TimeUnit;
import java.util.concurrent.atomic.AtomicBoolean;
import java.util.concurrent.locks.Condition;
import java.util.concurrent.locks.Lock;
import java.util.concurrent.locks.ReentrantLock;

/** The program's own locks that are built on another one: a wait for a condition of that one releases both, and nothing else. */
public class Delegates {
    static class Built implements Lock {
        final Lock inner;
        final Condition changed;

        Built(Lock inner) {
            this.inner = inner;
            changed = inner.newCondition();
        }

        @Override
        public void lock() {
            inner.lock();
        }

        @Override
        public void lockInterruptibly() throws InterruptedException {
            inner.lockInterruptibly();
        }

        @Override
        public boolean tryLock() {
            return inner.tryLock();
        }

        @Override
        public boolean tryLock(long time, TimeUnit unit) throws InterruptedException {
            return inner.tryLock(time, unit);
        }

        @Override
        public void unlock() {
            inner.unlock();
        }

        @Override
        public Condition newCondition() {
            return inner.newCondition();
        }

        void pause() throws InterruptedException {
            changed.await(1, TimeUnit.MILLISECONDS);
        }
    }

    /** A lock that takes no other one. */
    static class Alone extends Built {
        private final AtomicBoolean isTaken = new AtomicBoolean();

        Alone(Lock other) {
            super(other);
        }

        @Override
        public void lock() {
            while (!isTaken.compareAndSet(false, true)) Thread.onSpinWait();
        }

        @Override
        public void unlock() {
            isTaken.set(false);
        }
    }

    static final Lock inner = new ReentrantLock();
    static final Built built = new Built(inner);
    static final Built outer = new Built(built);
    static final Built alone = new Alone(inner);

    interface Taking {
        void run() throws InterruptedException;
    }

    /** A thread takes a lock in some way, waits twice, and releases it. */
    static void runs(Taking takes, Taking waits, Lock lock) throws InterruptedException {
        Thread thread = new Thread(() -> {
            try {
                takes.run();
                waits.run();
                waits.run();
                lock.unlock();
            } catch (InterruptedException error) {
                throw new Error(error);
            }
        });
        thread.start();
        thread.join();
    }

    static void takesTwice() throws InterruptedException {
        built.lock();
        built.lock();
        built.pause();
        built.unlock();
    }

    static void keepsOther() throws InterruptedException {
        inner.lock();
        alone.lock();
        built.pause();
        alone.unlock();
    }

    public static void main(String[] words) throws InterruptedException {
        Condition changed = built.newCondition();
        runs(built::lock, built::pause, built);
        runs(Delegates::takesTwice, built::pause, built);
        runs(() -> built.lockInterruptibly(), built::pause, built);
        runs(() -> built.tryLock(1, TimeUnit.SECONDS), built::pause, built);
        runs(() -> built.tryLock(), () -> changed.await(1, TimeUnit.MILLISECONDS), built);
        runs(outer::lock, outer::pause, outer);
        runs(Delegates::keepsOther, () -> { }, inner);
    }
}
