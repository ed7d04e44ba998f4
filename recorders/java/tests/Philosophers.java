import java.util.concurrent.locks.Lock;
import java.util.concurrent.locks.ReentrantLock;

/** Five philosophers, of whom one dines at a time. */
public class Philosophers {
    static class Fork {
        final Lock lock = new ReentrantLock();
    }

    static void dines(Fork left, Fork right) {
        left.lock.lock();
        try {
            right.lock.lock();
            right.lock.unlock();
        } finally {
            left.lock.unlock();
        }
    }

    public static void main(String[] words) throws InterruptedException {
        Fork[] forks = new Fork[5];
        for (int seat = 0; seat < 5; seat++) forks[seat] = new Fork();
        for (int seat = 0; seat < 5; seat++) {
            Fork left = forks[seat];
            Fork right = forks[(seat + 1) % 5];
            Thread thread = new Thread(() -> dines(left, right));
            thread.start();
            thread.join();
        }
    }
}
