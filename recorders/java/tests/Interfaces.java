import java.util.concurrent.TimeUnit;
import java.util.concurrent.locks.Condition;
import java.util.concurrent.locks.ReentrantLock;
import java.util.function.Consumer;

/** Calls through an interface of the program's own, whose methods a class below a lock of the JDK inherits; and another class has. */
public class Interfaces {
    interface Mutex {
        void lock();

        void lockInterruptibly() throws InterruptedException;

        boolean tryLock();

        boolean tryLock(long time, TimeUnit unit) throws InterruptedException;

        void unlock();

        Condition newCondition();

        default void takes() {
            lock();
            monitor();
            unlock();
            monitor();
        }
    }

    static class Own extends ReentrantLock implements Mutex {
    }

    static class Other implements Mutex {
        private String calls = "";

        @Override
        public void lock() {
            calls += "lock ";
        }

        @Override
        public void lockInterruptibly() {
            calls += "lockInterruptibly ";
        }

        @Override
        public boolean tryLock() {
            calls += "tryLock ";
            return true;
        }

        @Override
        public boolean tryLock(long time, TimeUnit unit) {
            calls += time + " " + unit + " ";
            return true;
        }

        @Override
        public void unlock() {
            calls += "unlock ";
        }

        @Override
        public Condition newCondition() {
            calls += "newCondition ";
            return new ReentrantLock().newCondition();
        }
    }

    static final Object monitor = new Object();
    static final Own own = new Own();
    static final Mutex mutex = own;
    static final Other other = new Other();

    static void monitor() {
        synchronized (monitor) {
        }
    }

    static void takesHere() {
        own.lock();
        mutex.unlock();
        monitor();
        mutex.lock();
        own.unlock();
        monitor();
    }

    static void tries(Mutex tried) throws InterruptedException {
        if (tried.tryLock()) monitor();
        tried.unlock();
        if (tried.tryLock(0, TimeUnit.SECONDS)) tried.unlock();
        if (tried.tryLock(1, TimeUnit.SECONDS)) tried.unlock();
        tried.lockInterruptibly();
        tried.unlock();
    }

    static void waits() throws InterruptedException {
        Condition condition = mutex.newCondition();
        mutex.lock();
        synchronized (monitor) {
            condition.awaitNanos(1);
        }
        mutex.unlock();
    }

    static void isOther() throws InterruptedException {
        other.takes();
        tries(other);
        ((Mutex) other).newCondition();
        String wanted = "lock unlock tryLock unlock 0 SECONDS unlock 1 SECONDS unlock lockInterruptibly unlock newCondition ";
        if (!other.calls.equals(wanted)) throw new AssertionError(other.calls);
    }

    static void refers(Mutex mutex) {
        Consumer<Mutex> in = Mutex::lock;
        Runnable out = mutex::unlock;
        in.accept(mutex);
        monitor();
        out.run();
        monitor();
    }

    static void refersToOther() {
        Other referred = new Other();
        refers(referred);
        if (!referred.calls.equals("lock unlock ")) throw new AssertionError(referred.calls);
    }

    interface Failing {
        void run() throws InterruptedException;
    }

    public static void main(String[] words) throws InterruptedException {
        for (Failing what : new Failing[] {mutex::takes, Interfaces::takesHere, () -> tries(mutex), Interfaces::waits, Interfaces::isOther,
            () -> refers(mutex), Interfaces::refersToOther}) {
            Thread thread = new Thread(() -> {
                try {
                    what.run();
                } catch (InterruptedException error) {
                    throw new Error(error);
                }
            });
            thread.start();
            thread.join();
        }
    }
}
