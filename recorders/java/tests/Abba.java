/** Two locks, in both orders, by two threads one after the other. */
public class Abba {
    private static final Object accounts = new Object();
    private static final Object journal = new Object();

    static void pays() {
        synchronized (accounts) {
            synchronized (journal) {
                System.out.println("paid");
            }
        }
    }

    static void audits() {
        synchronized (journal) {
            synchronized (accounts) {
                System.out.println("audited");
            }
        }
    }

    public static void main(String[] words) throws InterruptedException {
        for (Runnable what : new Runnable[] {Abba::pays, Abba::audits}) {
            Thread thread = new Thread(what);
            thread.start();
            thread.join();
        }
    }
}
