import java.util.concurrent.locks.ReentrantReadWriteLock;

/** A reader that waits for another one, behind a writer that waits. */
final class Behind {
    private static final ReentrantReadWriteLock table = new ReentrantReadWriteLock();
    private static final Object journal = new Object();

    static void look() {
        table.readLock().lock();
        synchronized (journal) {
            table.readLock().unlock();
        }
    }

    static void report() {
        synchronized (journal) {
            table.readLock().lock();
            table.readLock().unlock();
        }
    }

    static void write() {
        table.writeLock().lock();
        table.writeLock().unlock();
    }

    public static void main(String[] words) throws InterruptedException {
        Apart.run(Behind::look, Behind::report, Behind::write);
    }
}
