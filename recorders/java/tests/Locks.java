import java.util.concurrent.CountDownLatch;
import java.util.concurrent.TimeUnit;
import java.util.concurrent.locks.Lock;
import java.util.concurrent.locks.ReentrantLock;

/** The calls of a lock. */
public class Locks {
    static class Own extends ReentrantLock {
        @Override
        public void lock() {
            super.lock();
        }
    }

    static final Lock first = new ReentrantLock();
    static final ReentrantLock second = new ReentrantLock(true);

    static void takes() {
        first.lock();
        second.lock();
        second.unlock();
        first.unlock();
    }

    static void takesAgain() {
        second.lock();
        second.lock();
        second.tryLock();
        second.unlock();
        second.unlock();
        first.lock();
        second.unlock();
        first.unlock();
    }

    static void tries() throws InterruptedException {
        if (first.tryLock()) {
            if (second.tryLock(0, TimeUnit.SECONDS)) second.unlock();
            second.tryLock(1, TimeUnit.SECONDS);
            second.unlock();
            first.unlock();
        }
    }

    static void fails() throws InterruptedException {
        CountDownLatch hasTried = new CountDownLatch(1);
        Thread thread = new Thread(() -> {
            for (int i = 0; i < 2; i++) first.tryLock();
            try {
                first.tryLock(1, TimeUnit.MILLISECONDS);
                hasTried.countDown();
                Thread.currentThread().interrupt();
                first.lockInterruptibly();
            } catch (InterruptedException expected) {
                second.lock();
                second.unlock();
            }
        });
        first.lock();
        thread.start();
        hasTried.await();
        thread.join();
        first.unlock();
    }

    static void isMonitor() throws InterruptedException {
        Own own = new Own();
        own.lockInterruptibly();
        synchronized (own) {
            own.unlock();
        }
    }

    static void refers() {
        Runnable takes = second::lock;
        Runnable gives = second::unlock;
        takes.run();
        gives.run();
    }

    static void isWrong() {
        try {
            first.unlock();
        } catch (IllegalMonitorStateException expected) {
            first.lock();
            first.unlock();
        }
    }

    static void run(Runnable what) {
        Thread thread = new Thread(what);
        thread.start();
        try {
            thread.join();
        } catch (InterruptedException error) {
            throw new Error(error);
        }
    }

    interface Failing {
        void run() throws InterruptedException;
    }

    static Runnable of(Failing what) {
        return () -> {
            try {
                what.run();
            } catch (InterruptedException error) {
                throw new Error(error);
            }
        };
    }

    public static void main(String[] words) {
        run(Locks::takes);
        run(Locks::takesAgain);
        run(of(Locks::tries));
        run(of(Locks::fails));
        run(of(Locks::isMonitor));
        run(Locks::refers);
        run(Locks::isWrong);
    }
}
