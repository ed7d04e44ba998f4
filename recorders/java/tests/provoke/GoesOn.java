import java.io.IOException;
import java.util.concurrent.locks.LockSupport;
import java.util.concurrent.locks.ReentrantLock;
import java.util.concurrent.locks.StampedLock;

/** Threads that wait for one another, until something ends that, or the whole program: GoesOn WAY. */
final class GoesOn {
    private static final int LOOKS = 1200; // which are never over: the run is judged long before
    private static final int MILLISECONDS = 50;
    private static final int CROWD = 1100;
    private static final String SECONDS = "600"; // as well
    private static final Object accounts = new Object();
    private static final Object journal = new Object();
    private static final ReentrantLock first = new ReentrantLock();
    private static final ReentrantLock second = new ReentrantLock();
    private static final StampedLock one = new StampedLock();
    private static final StampedLock other = new StampedLock();
    private static volatile Thread waiting;
    private static volatile int over;
    private static volatile int inside;

    static void forwards() {
        first.lock();
        second.lock();
        second.unlock();
        first.unlock();
        over++;
    }

    static void backwards() throws InterruptedException {
        waiting = Thread.currentThread();
        second.lock();
        try {
            first.lockInterruptibly();
            first.unlock();
        } finally {
            second.unlock();
            over++;
        }
    }

    static void take(StampedLock outer, StampedLock inner) {
        long stamp = outer.writeLock();
        inner.unlockWrite(inner.writeLock());
        if (outer.isWriteLocked()) outer.tryUnlockWrite();
        over++;
    }

    static void enter(Object outer, Object inner) {
        synchronized (outer) {
            inside++;
            synchronized (inner) {
                inside--;
            }
        }
        over++;
    }

    /** Waits as an interrupt could end it, and then as none does. */
    static void enterLater(Object outer, Object inner) throws InterruptedException {
        first.lockInterruptibly();
        first.unlock();
        enter(outer, inner);
    }

    /** Waits for the end of a thread with a monitor held that this one takes. */
    static void join() throws InterruptedException {
        Thread joined = new Thread(() -> enter(accounts, journal));
        if (System.getenv("LOCKDEP_PROVOKE_PLAN") == null) joined.start();
        while (joined.isAlive()) Thread.sleep(1);
        synchronized (accounts) {
            if (joined.getState() == Thread.State.NEW) joined.start();
            waiting = Thread.currentThread();
            joined.join();
        }
        over++;
    }

    static boolean doStandStill() {
        return (first.hasQueuedThreads() && second.hasQueuedThreads()) || (one.isWriteLocked() && other.isWriteLocked()) || inside == 2;
    }

    /** A thread that does something if it has seen so many times that the others stand still. */
    static void lookOn(Runnable end) {
        for (int seen = 0; seen < LOOKS && over < 2; seen += doStandStill() ? 1 : 0) {
            try {
                Thread.sleep(MILLISECONDS);
            } catch (InterruptedException interrupted) {
                return;
            }
        }
        if (over < 2) end.run();
    }

    /** More threads than a recorder has room for, which wait for nobody. */
    static void startCrowd() {
        if (System.getenv("LOCKDEP_PROVOKE_PLAN") == null) return;
        for (int at = 0; at < CROWD; at++) {
            Thread one = new Thread(() -> {
                while (true) LockSupport.park();
            });
            one.setDaemon(true);
            one.start();
        }
    }

    /** Waits as neither an interrupt nor another thread could end it. */
    static void take(ReentrantLock outer, ReentrantLock inner) {
        waiting = Thread.currentThread();
        outer.lock();
        try {
            inner.lock();
            inner.unlock();
        } finally {
            outer.unlock();
            over++;
        }
    }

    /** A class that is there only where a thread may be stopped. */
    private static final class Stopping {
        static Runnable prepare() {
            return Stopping::stop;
        }

        @SuppressWarnings({"deprecation", "removal"})
        static void stop() {
            waiting.stop();
        }
    }

    static void end(String way) {
        if (way.equals("release")) other.tryUnlockWrite();
        else if (way.equals("halt")) Runtime.getRuntime().halt(7);
        else waiting.interrupt();
    }

    /** Another process runs, whose end a thread of the JDK's waits for, to interrupt one then. */
    static void runBeside() throws IOException, InterruptedException {
        Process beside = new ProcessBuilder("sleep", SECONDS).start();
        beside.onExit().thenRun(() -> waiting.interrupt());
        Apart.run(GoesOn::forwards, GoesOn::backwards);
        beside.destroyForcibly();
    }

    public static void main(String[] words) throws IOException, InterruptedException {
        String way = words[0];
        if (way.equals("crowd")) startCrowd();
        Runnable stop = way.equals("stop") ? Stopping.prepare() : null;
        ThreadGroup beside = new ThreadGroup(Thread.currentThread().getThreadGroup().getParent(), "beside");
        Thread watch = new Thread(way.equals("interrupt") ? beside : null, () -> lookOn(stop != null ? stop : () -> end(way)));
        watch.setDaemon(way.equals("halt"));
        if (!way.equals("exit")) watch.start();
        if (way.equals("interrupt") || way.equals("crowd")) Apart.run(GoesOn::forwards, GoesOn::backwards);
        else if (way.equals("exit")) runBeside();
        else if (way.equals("stop")) Apart.run(() -> take(first, second), () -> take(second, first));
        else if (way.equals("join")) join();
        else if (way.equals("halt")) Apart.run(() -> enterLater(accounts, journal), () -> enterLater(journal, accounts));
        else Apart.run(() -> take(one, other), () -> take(other, one));
        watch.join();
    }
}
