import java.util.concurrent.locks.Lock;
import java.util.concurrent.locks.ReentrantLock;

/** Three locks, which their holder may take again, in a circle of three threads. */
final class Locks {
    private static final Lock rows = new ReentrantLock();
    private static final Lock index = new ReentrantLock(true);
    private static final Lock cache = new ReentrantLock();

    static void insert() {
        rows.lock();
        rows.lock();
        index.lock();
        index.unlock();
        rows.unlock();
        rows.unlock();
    }

    static void search() throws InterruptedException {
        index.lockInterruptibly();
        cache.lockInterruptibly();
        cache.unlock();
        index.unlock();
    }

    static void fill() {
        cache.lock();
        try {
            rows.lock();
            rows.unlock();
        } finally {
            cache.unlock();
        }
    }

    public static void main(String[] words) throws InterruptedException {
        Apart.run(Locks::insert, Locks::search, Locks::fill);
    }
}
