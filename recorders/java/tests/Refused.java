import java.util.concurrent.locks.Lock;
import java.util.concurrent.locks.ReentrantLock;
import java.util.concurrent.locks.ReentrantReadWriteLock;
import java.util.concurrent.locks.StampedLock;

/**
 * Releases of locks that nobody holds, or only another thread (refused), which the locks refuse; and of locks that were
 * taken by reflection (unseen), which release them.
 */
public class Refused {
    private static final ReentrantReadWriteLock shared = new ReentrantReadWriteLock();
    private static final StampedLock stamped = new StampedLock();
    private static final Lock[] locks = {new ReentrantLock(), shared.readLock(), shared.writeLock(), stamped.asReadLock(),
        stamped.asWriteLock(), stamped.asReadWriteLock().readLock()};

    static void refuses(Lock lock) {
        try {
            lock.unlock();
        } catch (IllegalMonitorStateException error) {
            System.out.println("refused");
        }
    }

    static void whileAnotherReads() throws InterruptedException {
        shared.readLock().lock();
        Thread thread = new Thread(() -> refuses(shared.readLock()));
        thread.start();
        thread.join();
        shared.readLock().unlock();
    }

    public static void main(String[] words) throws Exception {
        for (Lock lock : locks) {
            if (words[0].equals("unseen")) Lock.class.getMethod("lock").invoke(lock);
            refuses(lock);
        }
        if (words[0].equals("refused")) whileAnotherReads();
    }
}
