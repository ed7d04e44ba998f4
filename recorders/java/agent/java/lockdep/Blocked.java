package java.lockdep;

import java.lang.management.LockInfo;
import java.lang.management.ManagementFactory;
import java.lang.management.ThreadInfo;

/**
 * What a thread waits for at the end. A lock of java.util.concurrent.locks, and a monitor that a block takes, is its
 * newest record already. The monitor of a synchronized method isn't, since nothing of the method has run: the virtual
 * machine says which one it is.
 */
final class Blocked {
    private Blocked() {
    }

    /** Whether the newest record of a task is one that its thread waits for. */
    static boolean waits(Task task, Thread thread) {
        Thread.State state = thread.getState();
        if (task.waits()) return state != Thread.State.RUNNABLE;
        if (state != Thread.State.BLOCKED) return false;
        try {
            return waitsForMonitor(task, thread);
        } catch (RuntimeException | LinkageError unknown) { // for example without the module java.management
            return task.top() != null && task.top().object != null;
        }
    }

    private static boolean waitsForMonitor(Task task, Thread thread) {
        ThreadInfo info = ManagementFactory.getThreadMXBean().getThreadInfo(thread.getId(), 1);
        Held top = task.top();
        if (info == null) return top != null && top.object != null; // for example for a virtual thread
        LockInfo wanted = info.getLockInfo();
        if (wanted == null || info.getThreadState() != Thread.State.BLOCKED) return false;
        int hash = wanted.getIdentityHashCode();
        if (top != null && top.object != null && System.identityHashCode(top.object) == hash) return true;
        Known lock = Table.monitorByHash(hash, wanted.getClassName());
        if (lock == null) return false;
        task.waitsFor(lock, siteOf(info));
        return true;
    }

    private static int siteOf(ThreadInfo info) {
        if (info.getStackTrace().length == 0) return 0;
        StackTraceElement frame = info.getStackTrace()[0];
        return Site.add(Source.of(frame.getClassName()), frame.getMethodName(), Math.max(0, frame.getLineNumber()), 1);
    }
}
