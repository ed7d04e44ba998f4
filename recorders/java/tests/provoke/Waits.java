/** A monitor that is waited in with another one held, and that one taken with it held. */
final class Waits {
    private static final Object journal = new Object();
    private static final Object queue = new Object();
    private static boolean isReady;

    static void work() throws InterruptedException {
        synchronized (journal) {
            synchronized (queue) {
                while (!isReady) queue.wait(20);
            }
        }
    }

    static void give() {
        synchronized (queue) {
            isReady = true;
            queue.notifyAll();
            synchronized (journal) {
                return;
            }
        }
    }

    public static void main(String[] words) throws InterruptedException {
        isReady = true;
        Apart.run(Waits::work, Waits::give);
    }
}
