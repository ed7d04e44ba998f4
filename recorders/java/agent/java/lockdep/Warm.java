package java.lockdep;

/** What is rewritten first, before any class of the program, so that the rewriter is loaded by then. */
final class Warm {
    private final Object lock = new Object();

    private Warm() {
    }

    synchronized void takes() throws InterruptedException {
        synchronized (lock) {
            lock.wait(1);
        }
    }
}
