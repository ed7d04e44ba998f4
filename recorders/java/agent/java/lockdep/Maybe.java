package java.lockdep;

import java.util.concurrent.TimeUnit;
import java.util.concurrent.locks.Condition;
import java.util.concurrent.locks.Lock;

/**
 * What is called before or after a call whose object may be a lock or a thread, as nobody knows before it is made: its
 * type is an interface of the program that a class below one of the JDK's may implement, or a class whose file isn't found.
 */
public final class Maybe {
    private Maybe() {
    }

    // ---- Locks.

    public static void locks(Object object, int site) {
        if (object instanceof Lock) Hooks.locks((Lock) object, site);
    }

    public static void locked(Object object, int site) {
        if (object instanceof Lock) Hooks.locked((Lock) object, site);
    }

    public static void unlocks(Object object, int site) {
        if (object instanceof Lock) Hooks.unlocks((Lock) object, site);
    }

    public static boolean tried(Object object, boolean isTaken, int site) {
        if (object instanceof Lock) Hooks.tried((Lock) object, isTaken, site);
        return isTaken;
    }

    public static Condition made(Object object, Condition condition) {
        return object instanceof Lock ? Hooks.made((Lock) object, condition) : condition;
    }

    /** A try with a limit of time is about to be made: its object is returned, and its words are kept for the next two. */
    public static Object tries(Object object, long time, TimeUnit unit) {
        Task task = Task.ofThisThreadOrNew();
        task.word = time;
        task.unit = unit;
        return object;
    }

    public static long time() {
        return Task.ofThisThreadOrNew().word;
    }

    public static TimeUnit unit() {
        Task task = Task.ofThisThreadOrNew();
        TimeUnit unit = task.unit;
        task.unit = null;
        return unit;
    }

    /** That try was made. */
    public static boolean timed(Object object, boolean isTaken, int site) {
        return object instanceof Lock ? Supers.tryLock(isTaken, (Lock) object, site) : isTaken;
    }

    // ---- Threads.

    public static void begins(Object object, int site) {
        if (object instanceof Thread) Hooks.begins(object, site);
    }

    /** A thread is waited for here. The call that follows finds that it has ended. */
    public static void joins(Object object, int site) throws InterruptedException {
        if (object instanceof Thread) Hooks.join(object, site);
    }

    /** The same with a limit of time. Returns that of the call that follows, for which there is hardly any left. */
    public static long joins(long milliseconds, Object object, int site) throws InterruptedException {
        if (!(object instanceof Thread)) return milliseconds;
        Hooks.join(object, milliseconds, site);
        return 1; // (0 would be no limit)
    }
}
