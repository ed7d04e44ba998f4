/** Two monitors in opposite orders. */
final class Monitors {
    private static final Object accounts = new Object();
    private static final Object journal = new Object();

    static void pay() {
        synchronized (accounts) {
            synchronized (journal) {
                return;
            }
        }
    }

    static void audit() {
        synchronized (journal) {
            synchronized (accounts) {
                return;
            }
        }
    }

    public static void main(String[] words) throws InterruptedException {
        Apart.run(Monitors::pay, Monitors::audit);
    }
}
