/** Sixty locks at once: the first 48 are recorded. */
public class Deep {
    private static void takes(int depth) {
        Object lock = new Object();
        synchronized (lock) {
            if (depth > 1) takes(depth - 1);
        }
    }

    public static void main(String[] words) {
        takes(60);
        synchronized (Deep.class) {
            takes(1);
        }
    }
}
