/** Ways to end, with a lock held: by System.exit, by Runtime.halt, by an error, and by a hook that takes another lock. */
public class Exits {
    private static final Object lock = new Object();
    private static final Object last = new Object();

    public static void main(String[] words) {
        Runtime.getRuntime().addShutdownHook(new Thread(() -> {
            synchronized (last) {
                System.out.println("hook");
            }
        }));
        synchronized (lock) {
            if (words[0].equals("exit")) System.exit(7);
            if (words[0].equals("halt")) Runtime.getRuntime().halt(8);
            throw new IllegalStateException("an error");
        }
    }
}
