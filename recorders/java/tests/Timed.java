import java.util.concurrent.TimeUnit;
import java.util.concurrent.atomic.AtomicBoolean;
import java.util.concurrent.locks.Condition;
import java.util.concurrent.locks.Lock;
import java.util.concurrent.locks.ReentrantLock;
import java.util.concurrent.locks.ReentrantReadWriteLock;
import java.util.concurrent.locks.StampedLock;

/**
 * A lock of a kind is taken under a monitor by a wait that gives up at a time, and the monitor under the lock. With
 * another word it is also taken without a limit.
 */
public class Timed {
    private static final Object held = new Object();
    private static final ReentrantLock plain = new ReentrantLock();
    private static final ReentrantReadWriteLock shared = new ReentrantReadWriteLock();
    private static final StampedLock stamped = new StampedLock();
    private static final Lock own = new Own();

    /** A lock of the program's own, which nobody waits for in these programs. */
    static class Own implements Lock {
        private final AtomicBoolean isTaken = new AtomicBoolean();

        @Override
        public void lock() {
            if (!take()) throw new IllegalStateException();
        }

        private boolean take() {
            return isTaken.compareAndSet(false, true);
        }

        @Override
        public void lockInterruptibly() {
            throw new UnsupportedOperationException();
        }

        @Override
        public boolean tryLock() {
            return take();
        }

        @Override
        public boolean tryLock(long time, TimeUnit unit) {
            return take();
        }

        @Override
        public void unlock() {
            isTaken.set(false);
        }

        @Override
        public Condition newCondition() {
            throw new UnsupportedOperationException();
        }
    }

    interface Action {
        void run() throws InterruptedException;
    }

    static Lock taken(String kind) {
        return kind.equals("plain") ? plain : kind.equals("reader") ? shared.readLock()
                : kind.equals("writer") ? shared.writeLock() : own;
    }

    static void takeForATime(String kind) throws InterruptedException {
        if (kind.equals("stamped-reader")) {
            stamped.unlockRead(stamped.tryReadLock(5, TimeUnit.SECONDS));
        } else if (kind.equals("stamped-writer")) {
            stamped.unlockWrite(stamped.tryWriteLock(5, TimeUnit.SECONDS));
        } else if (taken(kind).tryLock(5, TimeUnit.SECONDS)) {
            taken(kind).unlock();
        }
    }

    static void take(String kind) {
        if (kind.startsWith("stamped")) {
            stamped.unlockWrite(stamped.writeLock());
        } else {
            taken(kind).lock();
            taken(kind).unlock();
        }
    }

    static void takeOther(String kind) {
        Lock lock = kind.endsWith("er") ? shared.writeLock() : taken(kind);
        if (kind.startsWith("stamped")) lock = stamped.asWriteLock();
        lock.lock();
        synchronized (held) {
            System.out.println("other");
        }
        lock.unlock();
    }

    static void inThread(Action action) throws InterruptedException {
        Thread thread = new Thread(() -> {
            try {
                action.run();
            } catch (InterruptedException error) {
                System.out.println(error);
            }
        });
        thread.start();
        thread.join();
    }

    public static void main(String[] words) throws InterruptedException {
        inThread(() -> {
            synchronized (held) {
                takeForATime(words[0]);
                if (words.length > 1) take(words[0]);
            }
        });
        inThread(() -> takeOther(words[0]));
    }
}
