import java.util.concurrent.locks.Condition;
import java.util.concurrent.locks.ReentrantLock;
import java.util.concurrent.locks.ReentrantReadWriteLock;

public final class Same {
    private static final ReentrantLock a = new ReentrantLock(); // lock A
    private static final ReentrantLock b = new ReentrantLock(); // lock B
    private static final ReentrantReadWriteLock c = new ReentrantReadWriteLock(); // lock C
    private static final ReentrantLock g = new ReentrantLock(); // lock G
    private static boolean isSet;
    private static volatile boolean isSaid;

    private Same() {
    }

    private static Thread run(Runnable work) {
        Thread thread = new Thread(work);
        thread.start();
        return thread;
    }

    private static void inOrder(ReentrantLock first, ReentrantLock second) {
        first.lock();
        second.lock();
        second.unlock();
        first.unlock();
    }

    private static void abba() throws InterruptedException {
        run(() -> inOrder(a, b)).join();
        run(() -> inOrder(b, a)).join();
    }

    private static void awaitSaid() {
        while (!isSaid) Thread.onSpinWait();
    }

    private static void both(Runnable first, Runnable second) throws InterruptedException {
        Thread one = run(first);
        Thread other = run(second);
        one.join();
        other.join();
    }

    private static void crossed(Runnable back) throws InterruptedException {
        both(() -> {
            inOrder(a, b);
            isSaid = true;
        }, () -> {
            awaitSaid();
            back.run();
        });
    }

    private static void tried() throws InterruptedException {
        crossed(() -> {
            b.lock();
            if (a.tryLock()) a.unlock();
            b.unlock();
        });
    }

    private static void inside(ReentrantLock first, ReentrantLock second) {
        g.lock();
        inOrder(first, second);
        g.unlock();
    }

    private static void held() throws InterruptedException {
        Thread thread = run(() -> {
            a.lock();
            a.unlock();
            isSaid = true;
        });
        awaitSaid();
        a.lock();
        thread.join();
        a.unlock();
    }

    private static void notified() throws InterruptedException {
        Condition condition = g.newCondition();
        Thread thread = run(() -> {
            g.lock();
            isSaid = true;
            while (!isSet) condition.awaitUninterruptibly();
            g.unlock();
            inOrder(b, a);
        });
        inOrder(a, b);
        awaitSaid();
        g.lock();
        isSet = true;
        condition.signal();
        g.unlock();
        thread.join();
    }

    private static void longAbba() throws InterruptedException {
        for (int at = 0; at < 70000; at++) {
            a.lock();
            a.unlock();
        }
        abba();
    }

    private static void trySecond() {
        a.lock();
        if (b.tryLock()) b.unlock();
        a.unlock();
    }

    private static void waitFor(Condition condition) {
        b.lock();
        a.lock();
        isSaid = true;
        while (!isSet) condition.awaitUninterruptibly();
        a.unlock();
        b.unlock();
    }

    private static void waitForCondition() throws InterruptedException {
        Condition condition = a.newCondition();
        Thread waiting = run(() -> waitFor(condition));
        awaitSaid();
        run(() -> {
            a.lock();
            isSet = true;
            condition.signal();
            a.unlock();
        }).join();
        waiting.join();
    }

    private static void join() throws InterruptedException {
        a.lock();
        Thread thread = new Thread(() -> {
            b.lock();
            b.unlock();
        });
        thread.start();
        thread.join();
        a.unlock();
    }

    private static void reader() {
        a.lock();
        c.readLock().lock();
        c.readLock().unlock();
        a.unlock();
    }

    private static void fifty() {
        ReentrantLock[] locks = new ReentrantLock[50];
        for (int at = 0; at < 50; at++) locks[at] = new ReentrantLock(); // lock L
        for (int at = 0; at < 50; at++) locks[at].lock();
        for (int at = 0; at < 50; at++) locks[at].unlock();
    }

    public static void main(String[] words) throws InterruptedException {
        switch (words[0]) {
            case "abba": abba(); break;
            case "crossed": crossed(() -> inOrder(b, a)); break;
            case "tried": tried(); break;
            case "gate": both(() -> inside(a, b), () -> inside(b, a)); break;
            case "held": held(); break;
            case "notified": notified(); break;
            case "long": longAbba(); break;
            case "try": trySecond(); break;
            case "condition": waitForCondition(); break;
            case "join": join(); break;
            case "reader": reader(); break;
            default: fifty();
        }
    }
}
