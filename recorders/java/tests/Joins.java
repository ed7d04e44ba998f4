import java.util.concurrent.locks.ReentrantLock;

/**
 * Threads that are joined, in ways that differ by what is held meanwhile: the lock that the thread takes (held, timed,
 * unit, hangs, ended, whose thread has ended before, and again, whose thread the same thread has joined before), one that it doesn't take (other), none (none); by a thread that
 * joins the one that takes it (passed); and threads that take none (idle), of which there are many before one that
 * does (many). An interrupt may end the wait: pending before it, soon after it began, or pending before a timed one.
 * No thread goes on by the time: each waits until the other one is where it has to be.
 */
public class Joins {
    private static final ReentrantLock state = new ReentrantLock();
    private static final Object log = new Object();
    private static final Thread main = Thread.currentThread();
    private static volatile boolean goesOn, isLast = true, hasTaken;
    private static String way;

    /** A thread with a class of its own. */
    static class Worker extends Thread {
        @Override
        public void run() {
            work();
        }
    }

    static void work() {
        while (way.equals("hangs") && !isWaiting(main)) pause();
        state.lock();
        state.unlock();
        hasTaken = true;
        while (goesOn && !(isLast && isWaiting(main))) pause();
    }

    static void idle() {
        while (!isWaiting(main)) pause();
    }

    static boolean isWaiting(Thread thread) {
        return thread.getState() == Thread.State.WAITING;
    }

    static void pause() {
        try {
            Thread.sleep(10);
        } catch (InterruptedException error) {
            throw new Error(error);
        }
    }

    static Thread started(Runnable what) {
        Thread thread = new Thread(what);
        thread.setDaemon(true);
        thread.start();
        while (!hasTaken && !way.equals("hangs") && !way.equals("idle")) pause();
        return thread;
    }

    static void joinWithState(Thread thread) throws InterruptedException {
        state.lock();
        thread.join();
        state.unlock();
    }

    static void joinQuietly(Thread thread) {
        try {
            thread.join();
        } catch (InterruptedException error) {
            throw new Error(error);
        }
    }

    static void joinForEver() throws InterruptedException {
        Thread thread = started(Joins::work);
        Thread watch = new Thread(() -> {
            while (!isWaiting(main) || !isWaiting(thread)) pause();
            System.out.println("hung");
        });
        watch.setDaemon(true);
        watch.start();
        joinWithState(thread);
    }

    static void joinMany() throws InterruptedException {
        isLast = false;
        Thread last = started(Joins::work);
        for (int count = 0; count < 39; count++) {
            Thread thread = new Thread(() -> { });
            thread.start();
            joinWithState(thread);
        }
        isLast = true;
        joinWithState(last);
    }

    static void joinEnded() throws InterruptedException {
        Thread thread = started(Joins::work);
        while (thread.isAlive()) pause();
        joinWithState(thread);
    }

    static void joinAgain() throws InterruptedException {
        Thread thread = started(Joins::work);
        thread.join();
        joinWithState(thread);
    }

    static void joinForATime() throws InterruptedException {
        Thread thread = started(Joins::work);
        state.lock();
        thread.join(5000);
        state.unlock();
    }

    static void joinOther(Thread thread) throws InterruptedException {
        synchronized (log) {
            thread.join();
        }
    }

    public static void main(String[] words) throws InterruptedException {
        way = words[0];
        goesOn = way.equals("held") || way.equals("many") || way.equals("passed") || way.equals("own");
        if (way.equals("ended")) joinEnded();
        if (way.equals("again")) joinAgain();
        if (way.equals("held")) joinWithState(started(Joins::work));
        if (way.equals("hangs")) joinForEver();
        if (way.equals("timed")) joinForATime();
        if (way.equals("other")) joinOther(started(Joins::work));
        if (way.equals("none")) started(Joins::work).join();
        if (way.equals("idle")) joinWithState(started(Joins::idle));
        if (way.equals("many")) joinMany();
        if (way.equals("passed")) {
            Thread first = started(Joins::work);
            Thread second = new Thread(() -> joinQuietly(first));
            second.start();
            while (!isWaiting(second)) pause();
            joinWithState(second);
        }
        if (way.equals("own")) {
            Worker worker = new Worker();
            worker.start();
            while (!hasTaken) pause();
            joinWithState(worker);
        }
        if (way.equals("unit")) {
            Thread thread = started(Joins::work);
            state.lock();
            java.util.concurrent.TimeUnit.SECONDS.timedJoin(thread, 5);
            state.unlock();
        }
        if (way.startsWith("interrupted")) joinInterrupted();
    }

    static void joinInterrupted() throws InterruptedException {
        goesOn = true;
        Thread thread = started(Joins::work);
        if (way.equals("interrupted soon")) {
            new Thread(Joins::interruptMain).start();
        } else {
            main.interrupt();
        }
        state.lock();
        try {
            thread.join(way.equals("interrupted timed") ? 5000 : 0);
        } catch (InterruptedException expected) {
            state.unlock();
        }
        goesOn = false;
        thread.join();
    }

    static void interruptMain() {
        while (main.getState() != Thread.State.TIMED_WAITING && !isWaiting(main)) Thread.onSpinWait();
        main.interrupt();
    }
}
