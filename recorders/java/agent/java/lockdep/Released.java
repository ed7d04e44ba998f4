package java.lockdep;

/**
 * What a wait for a condition released, in the order in which it is taken again: the condition's lock, and then the
 * program's own locks that are taken by taking that one.
 */
final class Released {
    final Known lock;
    final int levels;
    /** How much the task had taken by then. */
    final long taken;
    final Released next;

    Released(Known lock, int levels, long taken, Released next) {
        this.lock = lock;
        this.levels = levels;
        this.taken = taken;
        this.next = next;
    }
}
