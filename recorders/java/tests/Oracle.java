import java.util.ArrayList;
import java.util.List;
import java.util.Random;
import java.util.TreeSet;
import java.util.concurrent.locks.ReentrantLock;

/** Takes locks at random, releases them in any order, and prints which orders there were: SEED. */
public class Oracle {
    private static final ReentrantLock a = new ReentrantLock();
    private static final ReentrantLock b = new ReentrantLock();
    private static final ReentrantLock c = new ReentrantLock();
    private static final ReentrantLock d = new ReentrantLock();
    private static final ReentrantLock e = new ReentrantLock();
    private static final ReentrantLock f = new ReentrantLock();
    private static final ReentrantLock[] LOCKS = {a, b, c, d, e, f};
    private static final int FIRST_LINE = 9;
    private static final int STEPS = 400;

    private final Random random;
    private final TreeSet<String> orders;
    private final List<Integer> held = new ArrayList<>();

    private Oracle(Random random, TreeSet<String> orders) {
        this.random = random;
        this.orders = orders;
    }

    private void takes(int lock) {
        if (random.nextInt(4) == 0) {
            LOCKS[lock].tryLock();
        } else {
            LOCKS[lock].lock();
            for (int other : held) orders.add((FIRST_LINE + other) + " " + (FIRST_LINE + lock));
        }
        held.add(lock);
    }

    private void works() {
        int favourite = random.nextInt(LOCKS.length);
        for (int step = 0; step < STEPS; step++) {
            int lock = (favourite + random.nextInt(3)) % LOCKS.length;
            if (random.nextInt(5) > held.size() && !held.contains(lock)) takes(lock);
            else if (!held.isEmpty()) LOCKS[held.remove(random.nextInt(held.size()))].unlock();
        }
        while (!held.isEmpty()) LOCKS[held.remove(held.size() - 1)].unlock();
    }

    public static void main(String[] words) throws InterruptedException {
        Random random = new Random(Integer.parseInt(words[0]));
        TreeSet<String> orders = new TreeSet<>();
        for (int number = 0; number < 3; number++) {
            Thread thread = new Thread(new Oracle(random, orders)::works);
            thread.start();
            thread.join();
        }
        for (String order : orders) System.out.println(order);
    }
}
