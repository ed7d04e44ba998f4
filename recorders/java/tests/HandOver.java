import java.util.concurrent.locks.Lock;
import java.util.concurrent.locks.ReentrantLock;

/** A lock that is released before two that were taken later, in an order that was seen before. */
public class HandOver {
    private static final Lock a = new ReentrantLock();
    private static final Lock b = new ReentrantLock();
    private static final Lock c = new ReentrantLock();
    private static final Lock d = new ReentrantLock();

    public static void main(String[] words) {
        a.lock();
        b.lock();
        c.lock();
        c.unlock();
        b.unlock();
        a.unlock();
        a.lock();
        d.lock();
        d.unlock();
        b.lock();
        c.lock();
        a.unlock();
        c.unlock();
        b.unlock();
    }
}
