import java.util.Date;
import java.util.concurrent.TimeUnit;
import java.util.concurrent.locks.Condition;
import java.util.concurrent.locks.Lock;
import java.util.concurrent.locks.ReentrantLock;

/** Waiting: a release of all levels, and an acquisition with whatever else is held. */
public class Waits {
    static final Object monitor = new Object();
    static final Lock lock = new ReentrantLock();
    static final Condition condition = lock.newCondition();

    interface Waiting {
        void run() throws InterruptedException;
    }

    static void ofMonitor(Waiting waits) throws InterruptedException {
        synchronized (monitor) {
            synchronized (Waits.class) {
                synchronized (monitor) {
                    waits.run();
                }
                synchronized (monitor) {
                }
            }
        }
    }

    static void ofLock(Waiting waits) throws InterruptedException {
        lock.lock();
        synchronized (Waits.class) {
            lock.lock();
            waits.run();
            lock.unlock();
        }
        lock.unlock();
    }

    static void isInterrupted() throws InterruptedException {
        Thread.currentThread().interrupt();
        try {
            monitor.wait();
        } catch (InterruptedException expected) {
            monitor.notifyAll();
        }
    }

    static void runs(Waiting what) throws InterruptedException {
        Thread thread = new Thread(() -> {
            try {
                what.run();
            } catch (InterruptedException error) {
                throw new Error(error);
            }
        });
        thread.start();
        thread.join();
    }

    public static void main(String[] words) throws InterruptedException {
        for (Waiting waits : new Waiting[] {() -> monitor.wait(1), () -> monitor.wait(0, 1000), Waits::isInterrupted}) {
            runs(() -> ofMonitor(waits));
        }
        for (Waiting waits : new Waiting[] {() -> condition.await(1, TimeUnit.MILLISECONDS), () -> condition.awaitNanos(1000),
            () -> condition.awaitUntil(new Date(0))}) {
            runs(() -> ofLock(waits));
        }
        try {
            monitor.wait();
        } catch (IllegalMonitorStateException expected) {
            System.out.println("not held");
        }
    }
}
