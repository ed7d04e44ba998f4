import java.util.concurrent.CountDownLatch;
import java.util.concurrent.TimeUnit;
import java.util.concurrent.locks.ReentrantLock;
import java.util.concurrent.locks.StampedLock;

/** Waits that an interrupt ends: those without a time limit leave their order, the others don't. */
public class Interrupted {
    static final ReentrantLock left = new ReentrantLock(), right = new ReentrantLock();
    static final StampedLock stamped = new StampedLock();
    static final ReentrantLock timed = new ReentrantLock();

    interface Wait {
        void begin() throws InterruptedException;
    }

    /** One thread has a first lock and waits for what this one holds, until it is interrupted. */
    static void breakOff(ReentrantLock first, Wait wait) throws InterruptedException {
        CountDownLatch hasFirst = new CountDownLatch(1);
        Thread thread = new Thread(() -> {
            first.lock();
            hasFirst.countDown();
            try {
                wait.begin();
                System.out.println("taken");
            } catch (InterruptedException error) {
                System.out.println("interrupted");
            } finally {
                first.unlock();
            }
        });
        thread.start();
        hasFirst.await();
        while (thread.getState() != Thread.State.WAITING && thread.getState() != Thread.State.TIMED_WAITING) Thread.sleep(1);
        thread.interrupt();
        thread.join();
    }

    public static void main(String[] words) throws InterruptedException {
        right.lock();
        breakOff(left, () -> right.lockInterruptibly());
        breakOff(left, right::lockInterruptibly);
        right.unlock();
        left.lock();
        breakOff(right, () -> left.lockInterruptibly());
        left.unlock();
        long stamp = stamped.writeLock();
        breakOff(left, () -> stamped.writeLockInterruptibly());
        breakOff(left, () -> stamped.readLockInterruptibly());
        stamped.unlockWrite(stamp);
        timed.lock();
        breakOff(left, () -> timed.tryLock(1000, TimeUnit.SECONDS));
        timed.unlock();
        System.out.println(right.isLocked() + " " + left.isLocked());
    }
}
