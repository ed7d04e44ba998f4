import java.util.Collections;
import java.util.Hashtable;
import java.util.List;
import java.util.ArrayList;

/** Where locks are made: objects of several kinds, releases out of order, and what is left out since it repeats. */
public class Order {
    private final List<String> names = new ArrayList<>();
    private final int[] none = {};
    private final List<String> safe = Collections.synchronizedList(new ArrayList<>());

    static class Counter {
        private final Object guard = new Object();
        private int count;

        Counter() {
            this(5);
        }

        Counter(int count) {
            next();
            this.count = count;
        }

        synchronized int next() {
            return ++count;
        }
    }

    static class Longer extends Counter {
    }

    void takes() {
        synchronized (names) {
            synchronized (none) {
                synchronized (safe) {
                    synchronized (Collections.EMPTY_LIST) {
                        names.add("");
                    }
                }
            }
        }
    }

    public static void main(String[] words) {
        new Order().takes();
        Counter first = new Counter();
        Counter second = new Longer();
        synchronized (new Hashtable<>()) {
            for (int round = 0; round < 1000; round++) {
                first.next();
                second.next();
            }
        }
        Runnable own = () -> { };
        synchronized (own.getClass()) {
            synchronized (Order.class) {
                first.next();
            }
        }
    }
}
