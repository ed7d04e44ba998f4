import java.lang.management.ManagementFactory;
import java.util.concurrent.locks.ReentrantLock;

/** Holds many locks at once, and then two in a new order. The objects don't let themselves be compared: HoldsMany COUNT. */
public class HoldsMany {
    static final Object first = new Object(), second = new Object();
    static int inside;

    static class Single {
        @Override
        public boolean equals(Object other) {
            throw new AssertionError("compared");
        }

        @Override
        public int hashCode() {
            throw new AssertionError("hashed");
        }
    }

    static void nest(Object[] objects, int at) {
        if (at == objects.length) return;
        synchronized (objects[at]) {
            synchronized (objects[at / 2]) {
                inside++;
            }
            nest(objects, at + 1);
        }
    }

    static void hold(ReentrantLock[] locks, boolean isReversed) {
        for (ReentrantLock lock : locks) lock.lock();
        for (int at = 0; at < locks.length; at++) locks[isReversed ? locks.length - 1 - at : at].unlock();
    }

    static void holdAll(int count) {
        Single[] objects = new Single[count];
        ReentrantLock[] locks = new ReentrantLock[count];
        for (int at = 0; at < count; at++) {
            objects[at] = new Single();
            locks[at] = new ReentrantLock();
        }
        long begin = ManagementFactory.getThreadMXBean().getCurrentThreadCpuTime();
        nest(objects, 0);
        hold(locks, false);
        hold(locks, true);
        System.out.println((ManagementFactory.getThreadMXBean().getCurrentThreadCpuTime() - begin) / 1000000);
    }

    public static void main(String[] words) {
        holdAll(Integer.parseInt(words[0]));
        synchronized (first) {
            synchronized (second) {
                inside++;
            }
        }
    }
}
