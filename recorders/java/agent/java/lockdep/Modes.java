package java.lockdep;

/** How a lock is taken: the last three bits of a code, as recorders/log.md has them. */
final class Modes {
    static final int WRITE = 0;
    static final int TRY_WRITE = 1;
    static final int RELEASE = 2;
    static final int READ = 3;
    static final int TRY_READ = 4;
    /** By a wait that gives up at a time. */
    static final int TIMED_READ = 5;
    static final int TIMED_WRITE = 6;

    /** In which manner a lock is taken, by a reader or a writer. */
    enum Manner { WAITS, WAITS_INTERRUPTIBLY, TRIES, WAITS_FOR_A_TIME }

    private Modes() {
    }

    /** Whether a lock is waited for without a limit of time. */
    static boolean isEndless(Manner manner) {
        return manner == Manner.WAITS || manner == Manner.WAITS_INTERRUPTIBLY;
    }

    static int of(boolean isReader, Manner manner) {
        if (isEndless(manner)) return isReader ? READ : WRITE;
        if (manner == Manner.TRIES) return isReader ? TRY_READ : TRY_WRITE;
        return isReader ? TIMED_READ : TIMED_WRITE;
    }

    static boolean isOfReader(int code) {
        return (code & 7) >= READ && (code & 7) <= TIMED_READ;
    }
}
