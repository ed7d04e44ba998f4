import java.util.concurrent.CountDownLatch;

/** As many threads as the first argument says, virtual ones if the second says so, which take two locks. */
public class Many {
    private static final Object first = new Object();
    private static final Object second = new Object();

    private static Thread start(Runnable what, boolean isVirtual) throws Exception {
        if (isVirtual) return (Thread) Thread.class.getMethod("startVirtualThread", Runnable.class).invoke(null, what);
        Thread thread = new Thread(what);
        thread.start();
        return thread;
    }

    public static void main(String[] words) throws Exception {
        int count = Integer.parseInt(words[0]);
        CountDownLatch ended = new CountDownLatch(count);
        for (int number = 0; number < count; number++) {
            boolean isEven = number % 2 == 0;
            start(() -> {
                synchronized (isEven ? first : second) {
                    synchronized (isEven ? second : first) {
                        ended.countDown();
                    }
                }
            }, words[1].equals("virtual")).join();
        }
        ended.await();
        System.out.println("ended");
    }
}
