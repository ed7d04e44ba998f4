import java.util.concurrent.locks.ReentrantLock;
import java.util.concurrent.locks.StampedLock;

/** A stamped lock, and one that is taken with it held and before it. */
final class Stamped {
    private static final StampedLock state = new StampedLock();
    private static final ReentrantLock log = new ReentrantLock();

    static void change() {
        long stamp = state.writeLock();
        log.lock();
        log.unlock();
        state.unlockWrite(stamp);
    }

    static void report() {
        log.lock();
        long stamp = state.readLock();
        state.unlockRead(stamp);
        log.unlock();
    }

    public static void main(String[] words) throws InterruptedException {
        Apart.run(Stamped::change, Stamped::report);
    }
}
