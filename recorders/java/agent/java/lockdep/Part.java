package java.lockdep;

import java.util.concurrent.locks.StampedLock;

/** The two ways to take a stamped lock, represented by its views, which it makes once. */
final class Part {
    private Part() {
    }

    static Object of(StampedLock lock, boolean isReader) {
        Task task = Task.begin();
        Object view = isReader ? lock.asReadLock() : lock.asWriteLock();
        if (task == null) return view;
        try {
            Known.addView(view, isReader, task.lock(lock));
        } catch (Throwable error) {
            task.abandon(error);
            return view;
        }
        task.leave();
        return view;
    }
}
