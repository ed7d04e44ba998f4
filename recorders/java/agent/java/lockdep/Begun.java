package java.lockdep;

/** A task's calls of the program's own locks that haven't ended, and how much it had taken when each began. */
final class Begun {
    private static final int MOST = 16;

    private final Known[] locks = new Known[MOST];
    private final long[] taken = new long[MOST];
    private int count;

    /** A call begins. If there is no room for it, the oldest one is dropped, which an error may have ended long ago. */
    void add(Known lock, long before) {
        if (count == MOST) {
            count--;
            System.arraycopy(locks, 1, locks, 0, count);
            System.arraycopy(taken, 1, taken, 0, count);
        }
        locks[count] = lock;
        taken[count++] = before;
    }

    /** The newest call of a lock has ended, and with it those that began later. Returns `unknown` if it isn't known. */
    long remove(Known lock, long unknown) {
        int at = count - 1;
        while (at >= 0 && locks[at] != lock) at--;
        if (at < 0) return unknown;
        count = at;
        return taken[at];
    }
}
