import java.util.concurrent.TimeUnit;
import java.util.concurrent.locks.Condition;
import java.util.concurrent.locks.Lock;
import java.util.concurrent.locks.ReentrantLock;

/** Prints what a program sees of its own calls: the errors of calls for null, and the frames within its own locks and threads. */
public class Traces {
    private Lock none;
    private ReentrantLock[] nones = new ReentrantLock[1];

    interface Part {
        void run() throws Exception;
    }

    static class Own implements Lock {
        private final ReentrantLock inner = new ReentrantLock();

        @Override
        public void lock() {
            show("lock");
            inner.lock();
        }

        @Override
        public void lockInterruptibly() throws InterruptedException {
            inner.lockInterruptibly();
        }

        @Override
        public boolean tryLock() {
            show("tryLock");
            return inner.tryLock();
        }

        @Override
        public boolean tryLock(long time, TimeUnit unit) throws InterruptedException {
            return inner.tryLock(time, unit);
        }

        @Override
        public void unlock() {
            show("unlock");
            inner.unlock();
        }

        @Override
        public Condition newCondition() {
            show("newCondition");
            return inner.newCondition();
        }
    }

    static class Starter extends Thread {
        @Override
        public void start() {
            show("start");
            super.start();
        }
    }

    static void show(String what) {
        System.out.println(what);
        StackWalker.getInstance().forEach(frame -> System.out.println("  " + frame));
        for (StackTraceElement each : new Throwable().getStackTrace()) System.out.println("  " + each);
    }

    static void fails(Part part) {
        try {
            part.run();
        } catch (Exception | Error error) {
            error.printStackTrace(System.out);
        }
    }

    static Thread missing() {
        return null;
    }

    void failAll(ReentrantLock given) {
        Lock local = given;
        fails(() -> none.lock());
        fails(() -> nones[0].unlock());
        fails(() -> given.tryLock());
        fails(() -> missing().start());
        fails(() -> local.newCondition());
        fails(() -> new ReentrantLock().unlock());
        fails(() -> {
            Thread thread = new Thread(() -> { });
            thread.start();
            thread.start();
        });
        local.lock();
    }

    public static void main(String[] words) throws InterruptedException {
        fails(() -> new Traces().failAll(null));
        Lock own = new Own();
        own.lock();
        own.newCondition();
        own.unlock();
        if (own.tryLock()) own.unlock();
        Thread thread = new Starter();
        thread.start();
        thread.join();
        new Traces().failAll(null);
    }
}
