/** Ten threads at once, each with its own lock and one that all share. */
public class Ten {
    private static final Object shared = new Object();
    private static int count;

    public static void main(String[] words) throws InterruptedException {
        Thread[] threads = new Thread[10];
        for (int number = 0; number < threads.length; number++) {
            Object own = new Object();
            threads[number] = new Thread(() -> {
                for (int round = 0; round < 1000; round++) {
                    synchronized (own) {
                        synchronized (shared) {
                            count++;
                        }
                    }
                }
            });
            threads[number].start();
        }
        for (Thread thread : threads) thread.join();
        System.out.println(count);
    }
}
