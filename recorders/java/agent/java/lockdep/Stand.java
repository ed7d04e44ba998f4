package java.lockdep;

/** What a task stands at or waits for, with what it holds then. Other threads read it while it does. */
final class Stand {
    /** Where the table of Provoke has it, 0 if nowhere; and where the second file has its thread's name. */
    final int place;
    final long name;
    /** The thread as a lock, if others may wait for its end. */
    final Known life;
    private final Thread thread = Thread.currentThread();

    Known awaited;
    boolean isReader;
    Held[] held = {};
    int depth;
    long[] stack = {};
    /** The order that it stood at, from 1 on; 0 if there is none. */
    int order;
    int changes;
    boolean isInterruptible;
    volatile boolean isAsking;
    /** Whether it was let go, into a cycle. */
    volatile boolean goes;

    Stand(int place, long name, Known life) {
        this.place = place;
        this.name = name;
        this.life = life;
    }

    void asks(Known lock, boolean asReader, Held[] holds, int count, long[] callers) {
        awaited = lock;
        isReader = asReader;
        held = holds;
        depth = count;
        stack = callers;
    }

    /** Whether its task holds what the other one asks for, of which it is known whether a writer waits for that. (It may go on meanwhile.) */
    boolean isInTheWay(Stand other, boolean isBehindWriter) {
        if (life != null && life == other.awaited) return true;
        Held[] holds = held;
        for (int at = 0; at < depth && at < holds.length; at++) {
            Held each = holds[at];
            if (each != null && each.lock == other.awaited && !(other.isReader && each.isReader() && !isBehindWriter)) return true;
        }
        return false;
    }

    /** Whether its task waits as a writer, so that readers wait behind it. */
    boolean isAhead(Stand reader) {
        return isAsking && !isReader && awaited == reader.awaited && thread.getState() == Thread.State.WAITING;
    }
}
