/** Threads that take a lock again and again, and are stopped. */
public class Stops {
    private static final Object LOCK = new Object();
    private static int count;

    private static void run() {
        while (true) {
            synchronized (LOCK) {
                count++;
            }
        }
    }

    @SuppressWarnings({"deprecation", "removal"})
    public static void main(String[] words) throws InterruptedException {
        int ended = 0;
        for (int each = 0; each < 10; each++) {
            Thread thread = new Thread(Stops::run);
            thread.setDaemon(true);
            thread.start();
            Thread.sleep(20);
            thread.stop();
            thread.join(60000);
            if (!thread.isAlive()) ended++;
        }
        System.out.println(ended);
    }
}
