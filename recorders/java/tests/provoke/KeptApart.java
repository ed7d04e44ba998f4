import java.util.concurrent.BlockingQueue;
import java.util.concurrent.CountDownLatch;
import java.util.concurrent.ExecutionException;
import java.util.concurrent.ExecutorService;
import java.util.concurrent.Executors;
import java.util.concurrent.LinkedBlockingQueue;
import java.util.concurrent.TimeUnit;
import java.util.concurrent.locks.Lock;
import java.util.concurrent.locks.ReentrantLock;

/** Programs that can't hang, though locks are taken in opposite orders: KeptApart WAY. */
final class KeptApart {
    private static final Lock first = new ReentrantLock();
    private static final Lock second = new ReentrantLock();
    private static final Object gate = new Object();

    static void forwards() {
        both(first, second);
    }

    static void backwards() {
        both(second, first);
    }

    private static void both(Lock outer, Lock inner) {
        outer.lock();
        inner.lock();
        inner.unlock();
        outer.unlock();
    }

    private static void withinGate(Runnable work) {
        synchronized (gate) {
            work.run();
        }
    }

    private static void inTurn(Runnable... works) throws InterruptedException {
        for (Runnable work : works) {
            Thread thread = new Thread(work);
            thread.start();
            thread.join();
        }
    }

    private static void tries(boolean isForATime) throws InterruptedException {
        second.lock();
        if (isForATime ? first.tryLock(100, TimeUnit.MILLISECONDS) : first.tryLock()) first.unlock();
        second.unlock();
    }

    private static void byHash(Lock one, Lock other) {
        boolean isLess = System.identityHashCode(one) < System.identityHashCode(other);
        both(isLess ? one : other, isLess ? other : one);
    }

    /** Both at once, the second one when it is told to. */
    private static void told(Apart.Work tell, Apart.Work wait) throws InterruptedException {
        Thread second = new Thread(() -> {
            try {
                wait.run();
            } catch (InterruptedException interrupted) {
                return;
            }
            backwards();
        });
        second.start();
        Thread first = new Thread(() -> {
            try {
                forwards();
                tell.run();
            } catch (InterruptedException interrupted) {
                return;
            }
        });
        first.start();
        first.join();
        second.join();
        System.out.println("done");
    }

    private static void byPool(ExecutorService pool) throws InterruptedException {
        try {
            pool.submit(KeptApart::forwards).get();
            pool.submit(KeptApart::backwards).get();
        } catch (ExecutionException failed) {
            throw new Error(failed);
        }
        pool.shutdown();
    }

    public static void main(String[] words) throws InterruptedException {
        CountDownLatch latch = new CountDownLatch(1);
        BlockingQueue<String> queue = new LinkedBlockingQueue<>();
        if (words[0].equals("latch")) told(latch::countDown, latch::await);
        if (words[0].equals("queue")) told(() -> queue.put("said"), queue::take);
        if (words[0].equals("pool")) byPool(Executors.newFixedThreadPool(2));
        if (words[0].equals("gate")) {
            Apart.run(() -> withinGate(KeptApart::forwards), () -> withinGate(KeptApart::backwards));
        }
        if (words[0].equals("in-turn")) inTurn(KeptApart::forwards, KeptApart::backwards);
        if (words[0].equals("try")) Apart.run(KeptApart::forwards, () -> tries(false));
        if (words[0].equals("timed")) Apart.run(KeptApart::forwards, () -> tries(true));
        Lock[] locks = new Lock[2];
        for (int at = 0; at < 2; at++) locks[at] = new ReentrantLock();
        if (words[0].equals("hash")) Apart.run(() -> byHash(locks[0], locks[1]), () -> byHash(locks[1], locks[0]));
    }
}
