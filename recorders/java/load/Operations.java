import java.util.concurrent.locks.ReentrantLock;
import java.util.concurrent.locks.ReentrantReadWriteLock;

/** Uncontended operations, in loops: prints the nanoseconds of one operation of each, the least of several rounds. */
public class Operations {
    private static final int COUNT = 1000000;
    private static final int ROUNDS = 10;

    private static final Object lock = new Object();
    private static final Object inner = new Object();
    private static final ReentrantLock reentrant = new ReentrantLock();
    private static final ReentrantReadWriteLock readWrite = new ReentrantReadWriteLock();
    private static int count;
    private static Object kept;

    private static synchronized void method() {
        count++;
    }

    private static void measure(String name, Runnable what) {
        long least = Long.MAX_VALUE;
        for (int round = 0; round < ROUNDS; round++) {
            long begin = System.nanoTime();
            for (int at = 0; at < COUNT; at++) what.run();
            least = Math.min(least, System.nanoTime() - begin);
        }
        System.out.println(name + " " + Math.round((double) least / COUNT));
    }

    public static void main(String[] words) {
        measure("block", () -> {
            synchronized (lock) {
                count++;
            }
        });
        measure("method", Operations::method);
        measure("block-in-block", () -> {
            synchronized (lock) {
                synchronized (inner) {
                    count++;
                }
            }
        });
        measure("lock", () -> {
            reentrant.lock();
            count++;
            reentrant.unlock();
        });
        measure("tryLock", () -> {
            if (reentrant.tryLock()) reentrant.unlock();
        });
        measure("read-lock", () -> {
            readWrite.readLock().lock();
            readWrite.readLock().unlock();
        });
        measure("new-lock", () -> {
            Object own = new Object();
            kept = own;
            synchronized (own) {
                count++;
            }
        });
    }
}
