package java.lockdep;

/** A lock that a task holds: in which mode, its record, and the records and the way before its place was taken. */
final class Held {
    Known lock;
    /** For a monitor: the object, which is alive while the monitor is held. */
    Object object;
    int code;
    int record;
    int start;
    Way before;
    /** How often its holder has taken it, and how often as a reader while holding it as a writer. */
    int levels;
    int reads;
    /** How much its task had taken with it, and before the call began by which it was taken. */
    long number;
    long callBegan;
    /** Its callers, for Provoke. */
    long[] stack = {};
    /** Another thread released it. */
    volatile boolean isDropped;

    void clear() {
        lock = null;
        object = null;
        before = null;
        isDropped = isInSteps = false;
        levels = reads = 0;
    }

    /** Whether the order of steps has that it was taken. */
    boolean isInSteps;

    boolean isReader() {
        return Modes.isOfReader(code);
    }
}
