package java.lockdep;

import java.io.File;
import java.time.Duration;
import java.util.Date;
import java.util.List;
import java.util.concurrent.CountDownLatch;
import java.util.concurrent.FutureTask;
import java.util.concurrent.TimeUnit;
import java.util.concurrent.locks.Condition;

/**
 * What rewritten classes call. The package begins with `java` since there are class loaders, such as those of OSGi,
 * that find nothing else outside. The recorder itself never throws anything here; what Thread.stop throws passes.
 */
public final class Hooks extends StampedHooks {
    private Hooks() {
    }

    // ---- Monitors.

    /** A monitor is about to be entered. */
    public static void enter(Object object, int site) {
        enter(object, site, true);
    }

    /** A monitor was entered by a synchronized method. */
    public static void entered(Object object, int site) {
        enter(object, site, false);
    }

    @Apart
    private static void enter(Object object, int site, boolean isAsked) {
        Task task = object == null ? null : Task.begin();
        if (task == null) return;
        try {
            task.enter(object, site, isAsked);
        } catch (Throwable error) {
            task.abandon(error);
            return;
        }
        task.leave();
    }

    /** A monitor is about to be exited. */
    @Apart
    public static void exit(Object object) {
        Task task = object == null ? null : Task.begin();
        if (task == null) return;
        try {
            task.exit(object);
        } catch (Throwable error) {
            task.abandon(error);
            return;
        }
        task.leave();
    }

    public static void notify(Object object, int site) {
        notifies(object, site);
        object.notify();
    }

    public static void notifyAll(Object object, int site) {
        notifies(object, site);
        object.notifyAll();
    }

    /** Who waits for an object's monitor is woken. (Whether it may be is found out by the call that follows.) */
    private static void notifies(Object object, int site) {
        Task task = !Steps.isOn || object == null || !Thread.holdsLock(object) ? null : Task.begin();
        if (task == null) return;
        try {
            task.monitor(object).message = task.giveMessage(site);
        } catch (Throwable error) {
            task.abandon(error);
            return;
        }
        task.leave();
    }

    public static void wait(Object object, int site) throws InterruptedException {
        int levels = suspend(object);
        try {
            object.wait();
        } finally {
            resume(object, levels, site, true);
        }
    }

    public static void wait(Object object, long milliseconds, int site) throws InterruptedException {
        int levels = suspend(object);
        try {
            object.wait(milliseconds);
        } finally {
            resume(object, levels, site, milliseconds == 0);
        }
    }

    public static void wait(Object object, long milliseconds, int nanoseconds, int site) throws InterruptedException {
        int levels = suspend(object);
        try {
            object.wait(milliseconds, nanoseconds);
        } finally {
            resume(object, levels, site, milliseconds == 0 && nanoseconds == 0);
        }
    }

    /** Of TimeUnit, which waits on the object. */
    public static void timedWait(TimeUnit unit, Object object, long time, int site) throws InterruptedException {
        int levels = time > 0 ? suspend(object) : 0;
        try {
            unit.timedWait(object, time);
        } finally {
            resume(object, levels, site, false);
        }
    }

    static int suspend(Object object) {
        Task task = object == null ? null : Task.begin();
        if (task == null) return 0;
        int levels = 0;
        try {
            levels = task.suspend(object);
        } catch (Throwable error) {
            task.abandon(error);
            return 0;
        }
        task.leave();
        return levels;
    }

    /** A wait for a monitor has ended. If it had a limit, nothing says whether somebody woke it or the time did: then no message is got. */
    static void resume(Object object, int levels, int site, boolean isWoken) {
        Task task = levels == 0 ? null : Task.begin();
        if (task == null) return;
        try {
            task.resume(object, levels, site, isWoken);
        } catch (Throwable error) {
            task.abandon(error);
            return;
        }
        task.leave();
    }

    // ---- Objects that are made.

    /** An object was made at a place. */
    @Apart
    public static void made(Object object, int site) {
        Task task = object == null ? null : Task.begin();
        if (task == null) return;
        try {
            Known.made(object, Site.of(site).made());
        } catch (Throwable error) {
            task.abandon(error);
            return;
        }
        task.leave();
    }

    /** A constructor is called next, at a place. */
    public static void makes(int site) {
        Task.ofThisThreadOrNew().making = site;
    }

    /** The constructor begins for an object whose own class takes its monitor, or that is a lock. */
    @Apart
    public static void born(Object object) {
        Task task = Task.begin();
        if (task == null) return;
        try {
            Made made = task.toldOf(object);
            if (made == null && !Known.isMade(object)) made = Site.madeByCaller(object);
            if (made != null) Known.made(object, made);
        } catch (Throwable error) {
            task.abandon(error);
            return;
        }
        task.leave();
    }

    // ---- Threads.

    /** A thread is about to start. */
    public static void begins(Object thread, int site) {
        Task task = thread == null ? null : Task.begin();
        if (task == null) return;
        try {
            Known life = Known.started((Thread) thread, Site.of(site).ofThreads());
            life.message = task.giveMessage(site);
            Provoke.starts(life, site);
        } catch (Throwable error) {
            task.abandon(error);
            return;
        }
        task.leave();
    }

    public static void join(Object thread, int site) throws InterruptedException {
        Join.join((Thread) thread, 0, 0, site);
    }

    public static void join(Object thread, long milliseconds, int site) throws InterruptedException {
        Join.join((Thread) thread, milliseconds, 0, site);
    }

    public static void join(Object thread, long milliseconds, int nanoseconds, int site) throws InterruptedException {
        Join.join((Thread) thread, milliseconds, nanoseconds, site);
    }

    /** As Thread has it, in Java 11 not yet. */
    public static boolean join(Object thread, Duration time, int site) throws InterruptedException {
        long nanoseconds = TimeUnit.NANOSECONDS.convert(time);
        Thread joined = (Thread) thread;
        Thread.State state = joined.getState();
        if (state == Thread.State.NEW) throw new IllegalThreadStateException("Thread not started");
        if (state == Thread.State.TERMINATED || nanoseconds <= 0) return state == Thread.State.TERMINATED;
        Join.join(joined, nanoseconds / 1000000, (int) (nanoseconds % 1000000), site);
        return joined.getState() == Thread.State.TERMINATED;
    }

    /** Of TimeUnit, which splits the time as here. */
    public static void timedJoin(TimeUnit unit, Thread thread, long time, int site) throws InterruptedException {
        if (unit == null || time <= 0) {
            unit.timedJoin(thread, time);
            return;
        }
        long milliseconds = unit.toMillis(time);
        boolean isExact = unit != TimeUnit.NANOSECONDS && unit != TimeUnit.MICROSECONDS;
        long rest = isExact ? 0 : unit.toNanos(time - unit.convert(milliseconds, TimeUnit.MILLISECONDS));
        Join.join(thread, milliseconds, (int) rest, site);
    }

    // ---- What threads tell one another by objects of the JDK's.

    /** Something is told by an object: about another one, or for all who ask. */
    @Apart
    public static void tells(Object by, Object about, int site) {
        Task task = Steps.isOn && !isOver(by) ? Task.begin() : null;
        if (task == null) return;
        try {
            Known.by(by).messages().add(System.identityHashCode(about), task.member, task.giveMessage(Site.ofCall(site)));
        } catch (Throwable error) {
            task.abandon(error);
            return;
        }
        task.leave();
    }

    /** Whether nobody waits any more for what an object tells. (What a class of the program's overrides isn't called.) */
    private static boolean isOver(Object by) {
        if (by.getClass() == CountDownLatch.class) return ((CountDownLatch) by).getCount() == 0;
        return by.getClass() == FutureTask.class && ((FutureTask<?>) by).isDone();
    }

    /** A thread goes on by what was told about an object, which it may get there, or by all that was, if that is the object that tells it. */
    @Apart
    public static void hears(Object by, Object about, int site) {
        Task task = Steps.isOn && about != null ? Task.begin() : null;
        if (task == null) return;
        try {
            Messages messages = Known.by(by).messages();
            int[] heard = about == by ? messages.all() : messages.take(System.identityHashCode(about));
            for (int message : heard) task.note(Steps.GETS, message, Site.ofCall(site), 0);
        } catch (Throwable error) {
            task.abandon(error);
            return;
        }
        task.leave();
    }

    /** The same if that is so. */
    public static void hears(boolean isSo, Object by, int site) {
        if (isSo) hears(by, by, site);
    }

    // ---- Programs that are started.

    /** A program is started by a builder, or several by a list of these, or one by its words. */
    public static void starts(Object by) {
        starts(null, by);
    }

    /** The same in a folder; null is the current one, or the builder's own. Errors never reach the program. */
    public static void starts(Object folder, Object by) {
        try {
            if (by instanceof ProcessBuilder) {
                ProcessBuilder builder = (ProcessBuilder) by;
                Recording.starts(builder.command().toArray(new String[0]), builder.directory());
            } else if (by instanceof List) {
                for (Object each : (List<?>) by) starts(each);
            } else if (by instanceof String[]) {
                Recording.starts(((String[]) by).clone(), (File) folder);
            } else if (by instanceof String) {
                Recording.starts(((String) by).trim().split("\\s+"), (File) folder);
            }
        } catch (Throwable error) {
            return;
        }
    }

    // ---- Conditions.

    public static void signal(Condition condition, int site) {
        Pause.signals(condition, site);
        condition.signal();
    }

    public static void signalAll(Condition condition, int site) {
        Pause.signals(condition, site);
        condition.signalAll();
    }

    public static void await(Condition condition, int site) throws InterruptedException {
        Pause pause = Pause.of(condition);
        try {
            condition.await();
        } finally {
            pause.end(site, true);
        }
    }

    public static boolean await(Condition condition, long time, TimeUnit unit, int site) throws InterruptedException {
        Pause pause = Pause.of(condition);
        boolean isWoken = false;
        try {
            isWoken = condition.await(time, unit);
            return isWoken;
        } finally {
            pause.end(site, isWoken);
        }
    }

    public static long awaitNanos(Condition condition, long time, int site) throws InterruptedException {
        Pause pause = Pause.of(condition);
        long left = 0;
        try {
            left = condition.awaitNanos(time);
            return left;
        } finally {
            pause.end(site, left > 0);
        }
    }

    public static boolean awaitUntil(Condition condition, Date date, int site) throws InterruptedException {
        Pause pause = Pause.of(condition);
        boolean isWoken = false;
        try {
            isWoken = condition.awaitUntil(date);
            return isWoken;
        } finally {
            pause.end(site, isWoken);
        }
    }

    public static void awaitUninterruptibly(Condition condition, int site) {
        Pause pause = Pause.of(condition);
        try {
            condition.awaitUninterruptibly();
        } finally {
            pause.end(site, true);
        }
    }

    // ---- The end.

    public static void halt(Runtime runtime, int status) {
        Recording.end();
        runtime.halt(status);
    }
}
