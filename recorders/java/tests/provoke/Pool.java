import java.util.concurrent.ExecutorService;
import java.util.concurrent.Executors;
import java.util.concurrent.TimeUnit;

/** Threads of a pool: a static synchronized method, and the monitor of a list. */
final class Pool {
    private static final StringBuilder text = new StringBuilder();
    private static volatile boolean isAdded;

    static synchronized void add(String word) {
        synchronized (text) {
            text.append(word);
        }
    }

    static synchronized int length() {
        return text.length();
    }

    static void show() {
        synchronized (text) {
            length();
        }
    }

    public static void main(String[] words) throws InterruptedException {
        ExecutorService pool = Executors.newFixedThreadPool(2);
        pool.execute(() -> {
            add("word");
            isAdded = true;
        });
        if (System.getenv("LOCKDEP_PROVOKE_PLAN") != null) Thread.sleep(150);
        else while (!isAdded) Thread.sleep(1);
        pool.execute(Pool::show);
        pool.shutdown();
        pool.awaitTermination(1, TimeUnit.HOURS);
        System.out.println("done");
    }
}
