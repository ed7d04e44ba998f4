import java.util.concurrent.TimeUnit;

/**
 * Threads that are joined by who holds their own monitor, which is released while they are waited for. The ways differ
 * by the call, by what is held, and by the thread, which has ended (ended), or is virtual (virtual), or takes its
 * monitor itself and is told to stop under it (stops, closes).
 */
public class Rejoins {
    private static final Object log = new Object();
    private static final Object rest = new Object();
    private static final Thread main = Thread.currentThread();
    private static volatile boolean isJoined, isOver;

    /** A thread that lives for a while after it is joined, or until it is told to stop. */
    static class Worker extends Thread {
        private final boolean isShort;
        private boolean isStopping;

        Worker(boolean isShort) {
            this.isShort = isShort;
        }

        @Override
        public void run() {
            if (isShort) awaitJoin();
            else work();
        }

        private synchronized void work() {
            try {
                while (!isStopping) wait(10);
            } catch (InterruptedException error) {
                throw new Error(error);
            }
        }

        synchronized void shutDown() throws InterruptedException {
            isStopping = true;
            notifyAll();
            join();
        }

        synchronized void close() throws InterruptedException {
            isStopping = true;
            while (isAlive()) join(20);
        }
    }

    static void await(long time) {
        try {
            Thread.sleep(time);
        } catch (InterruptedException error) {
            throw new Error(error);
        }
    }

    /** Until a while after the main thread has begun to wait for this one, or until that is over. */
    static void awaitJoin() {
        while (!isOver && !(isJoined && main.getState().name().endsWith("WAITING"))) await(1);
        if (!isOver) await(100);
    }

    interface Joining {
        void run() throws InterruptedException;
    }

    static void joinUnderLog(Thread thread, Joining joins) throws InterruptedException {
        synchronized (thread) {
            synchronized (thread) {
                synchronized (log) {
                    isJoined = true;
                    joins.run();
                }
            }
            synchronized (rest) {
                rest.notifyAll();
            }
        }
    }

    static Thread started(boolean isShort) throws InterruptedException {
        Thread thread = new Worker(isShort);
        thread.start();
        Thread.sleep(20);
        return thread;
    }

    static void isInterrupted(Thread thread) throws InterruptedException {
        Thread.currentThread().interrupt();
        try {
            thread.join();
        } catch (InterruptedException expected) {
            thread.notifyAll();
        }
    }

    public static void main(String[] words) throws Exception {
        String way = words[0];
        if (way.equals("stops")) ((Worker) started(false)).shutDown();
        if (way.equals("closes")) ((Worker) started(false)).close();
        if (way.equals("virtual")) {
            Runnable task = () -> awaitJoin();
            Thread thread = (Thread) Thread.class.getMethod("startVirtualThread", Runnable.class).invoke(null, task);
            joinUnderLog(thread, () -> thread.join());
        }
        if (way.equals("stops") || way.equals("closes") || way.equals("virtual")) return;
        Thread thread = started(true);
        if (way.equals("alone")) joinUnderLog(thread, () -> thread.join());
        if (way.equals("timed")) joinUnderLog(thread, () -> thread.join(1000));
        if (way.equals("short")) joinUnderLog(thread, () -> thread.join(1, 1));
        if (way.equals("unit")) joinUnderLog(thread, () -> TimeUnit.MICROSECONDS.timedJoin(thread, 1001));
        if (way.equals("no time")) joinUnderLog(thread, () -> TimeUnit.SECONDS.timedJoin(thread, 0));
        if (way.equals("wait")) joinUnderLog(thread, () -> TimeUnit.MILLISECONDS.timedWait(thread, 1));
        if (way.equals("no wait")) joinUnderLog(thread, () -> TimeUnit.MILLISECONDS.timedWait(thread, -1));
        if (way.equals("interrupted")) joinUnderLog(thread, () -> isInterrupted(thread));
        isOver = true;
        while (way.equals("ended") && thread.isAlive()) Thread.sleep(10);
        if (way.equals("ended")) joinUnderLog(thread, () -> thread.join());
    }
}
