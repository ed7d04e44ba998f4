package java.lockdep;

import java.util.concurrent.locks.Condition;

/** A wait for a condition: all levels of its lock are released, and taken again, and so are those of what belongs to it. */
final class Pause {
    private static final Pause NONE = new Pause(null, null, null);

    private final Task task;
    private final Known known;
    private final Released released;

    private Pause(Task task, Known known, Released released) {
        this.task = task;
        this.known = known;
        this.released = released;
    }

    static Pause of(Condition condition) {
        Task task = condition == null ? null : Task.begin();
        if (task == null) return NONE;
        Pause pause = NONE;
        try {
            Known known = Known.ofCondition(condition);
            Released released = known == null ? null : task.suspendFor(known);
            if (released != null) pause = new Pause(task, known, released);
        } catch (Throwable error) {
            task.abandon(error);
            return NONE;
        }
        task.leave();
        return pause;
    }

    /** Who waits for a condition is woken. */
    static void signals(Condition condition, int site) {
        Task task = !Steps.isOn || condition == null ? null : Task.begin();
        if (task == null) return;
        try {
            Known known = Known.ofCondition(condition);
            if (known != null) known.message = task.giveMessage(site);
        } catch (Throwable error) {
            task.abandon(error);
            return;
        }
        task.leave();
    }

    void end(int site, boolean isWoken) {
        if (task == null || Task.begin() == null) return;
        try {
            if (isWoken) task.endWait(known, site);
            for (Released each = released; each != null; each = each.next) task.resume(each, site);
        } catch (Throwable error) {
            task.abandon(error);
            return;
        }
        task.leave();
    }
}
