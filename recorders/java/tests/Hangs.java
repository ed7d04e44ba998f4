import java.util.concurrent.CyclicBarrier;
import java.util.concurrent.locks.Lock;
import java.util.concurrent.locks.ReentrantLock;
import java.util.concurrent.locks.ReentrantReadWriteLock;

/** Programs that hang, and say so once they do: on blocks, methods, locks, and with a reader that wants to be a writer. */
public class Hangs {
    static final CyclicBarrier both = new CyclicBarrier(2);

    static void meet() {
        try {
            both.await();
        } catch (Exception error) {
            throw new Error(error);
        }
    }

    static class Blocks {
        static void takes(Object first, Object second) {
            synchronized (first) {
                meet();
                synchronized (second) {
                    first.notify();
                }
            }
        }
    }

    static class Friend {
        synchronized void bows(Friend to) {
            meet();
            to.bowsBack();
        }

        synchronized void bowsBack() {
        }
    }

    static void takes(Lock first, Lock second) {
        first.lock();
        meet();
        second.lock();
    }

    static void reads(ReentrantReadWriteLock lock) {
        lock.readLock().lock();
        meet();
        while (!lock.hasQueuedThreads()) Thread.onSpinWait();
        lock.writeLock().lock();
    }

    static void writes(ReentrantReadWriteLock lock) {
        meet();
        lock.writeLock().lock();
    }

    /** A reader waits behind a waiting writer, although the lock isn't fair: neither goes on. */
    static void readsThenLocks(ReentrantReadWriteLock lock, Object other) {
        lock.readLock().lock();
        meet();
        synchronized (other) {
            lock.readLock().unlock();
        }
    }

    static void locksThenReads(ReentrantReadWriteLock lock, Object other) {
        synchronized (other) {
            meet();
            new Thread(() -> lock.writeLock().lock()).start();
            while (!lock.hasQueuedThreads()) Thread.onSpinWait();
            lock.readLock().lock();
        }
    }

    public static void main(String[] words) throws InterruptedException {
        Runnable[] two = null;
        if (words[0].equals("blocks")) {
            Object left = new Object();
            Object right = new Object();
            two = new Runnable[] {() -> Blocks.takes(left, right), () -> Blocks.takes(right, left)};
        } else if (words[0].equals("methods")) {
            Friend alphonse = new Friend();
            Friend gaston = new Friend();
            two = new Runnable[] {() -> alphonse.bows(gaston), () -> gaston.bows(alphonse)};
        } else if (words[0].equals("locks")) {
            Lock left = new ReentrantLock();
            Lock right = new ReentrantLock();
            two = new Runnable[] {() -> takes(left, right), () -> takes(right, left)};
        } else if (words[0].equals("upgrade")) {
            ReentrantReadWriteLock lock = new ReentrantReadWriteLock();
            two = new Runnable[] {() -> reads(lock), () -> writes(lock)};
        } else {
            ReentrantReadWriteLock lock = new ReentrantReadWriteLock(false);
            Object other = new Object();
            two = new Runnable[] {() -> readsThenLocks(lock, other), () -> locksThenReads(lock, other)};
        }
        Thread[] threads = {new Thread(two[0]), new Thread(two[1])};
        for (Thread thread : threads) thread.start();
        while (isRunning(threads[0]) || isRunning(threads[1])) Thread.sleep(10);
        System.out.println("hung");
        threads[0].join();
    }

    private static boolean isRunning(Thread thread) {
        Thread.State state = thread.getState();
        return state != Thread.State.BLOCKED && !(state == Thread.State.WAITING && isInLock(thread));
    }

    private static boolean isInLock(Thread thread) {
        for (StackTraceElement frame : thread.getStackTrace()) {
            if (frame.getMethodName().equals("lock")) return true;
        }
        return false;
    }
}
