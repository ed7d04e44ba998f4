import java.util.concurrent.locks.ReentrantLock;

/** A thread that ends with a lock held. */
public class Keeps {
    private static final ReentrantLock lock = new ReentrantLock();

    public static void main(String[] words) throws InterruptedException {
        Thread thread = new Thread(() -> lock.lock());
        thread.start();
        thread.join();
        System.out.println(lock.isLocked());
    }
}
