import java.util.concurrent.locks.ReentrantReadWriteLock;

/** A reader that takes a monitor, and a writer that has it. */
final class Readers {
    private static final ReentrantReadWriteLock table = new ReentrantReadWriteLock();
    private static final Object journal = new Object();

    static void look() {
        table.readLock().lock();
        synchronized (journal) {
            table.readLock().unlock();
        }
    }

    static void write() {
        synchronized (journal) {
            table.writeLock().lock();
            table.writeLock().unlock();
        }
    }

    public static void main(String[] words) throws InterruptedException {
        Apart.run(Readers::look, Readers::write);
    }
}
