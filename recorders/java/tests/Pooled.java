import java.util.concurrent.CompletableFuture;

/** Tasks of the common pool, one after the other: the pool takes from its threads what is local to them after each. */
public class Pooled {
    private static final Object LOCK = new Object();
    private static int count;

    private static void add() {
        synchronized (LOCK) {
            count++;
        }
    }

    public static void main(String[] words) {
        for (int each = 0; each < 2000; each++) CompletableFuture.runAsync(Pooled::add).join();
        System.out.println(count);
    }
}
