import java.util.concurrent.locks.ReadWriteLock;
import java.util.concurrent.locks.ReentrantReadWriteLock;

/** Read-write locks: readers, writers, both at once, and one that becomes a reader. */
public class ReadWrite {
    static final Object inner = new Object();
    static final ReadWriteLock lock = new ReentrantReadWriteLock();

    static void takesInner() {
        synchronized (inner) {
        }
    }

    static void reads() {
        lock.readLock().lock();
        lock.readLock().lock();
        takesInner();
        lock.readLock().unlock();
        lock.readLock().unlock();
    }

    static void writes() {
        lock.writeLock().lock();
        lock.writeLock().lock();
        lock.readLock().lock();
        takesInner();
        lock.readLock().unlock();
        lock.writeLock().unlock();
        lock.writeLock().unlock();
    }

    static void becomesReader() {
        ReentrantReadWriteLock.WriteLock writer = (ReentrantReadWriteLock.WriteLock) lock.writeLock();
        writer.lock();
        lock.readLock().lock();
        writer.unlock();
        takesInner();
        lock.readLock().unlock();
    }

    static void tries() {
        if (lock.readLock().tryLock()) {
            lock.writeLock().tryLock();
            lock.readLock().unlock();
        }
        if (lock.writeLock().tryLock()) {
            takesInner();
            lock.writeLock().unlock();
        }
    }

    public static void main(String[] words) throws InterruptedException {
        for (Runnable what : new Runnable[] {ReadWrite::reads, ReadWrite::writes, ReadWrite::becomesReader, ReadWrite::tries}) {
            Thread thread = new Thread(what);
            thread.start();
            thread.join();
        }
    }
}
