import java.util.concurrent.locks.ReentrantLock;

/** Five locks in a circle. */
final class Philosophers {
    private static final int SEATS = 5;
    private static final ReentrantLock[] forks = new ReentrantLock[SEATS];

    static void dine(int seat) {
        forks[seat].lock();
        forks[(seat + 1) % SEATS].lock();
        forks[(seat + 1) % SEATS].unlock();
        forks[seat].unlock();
    }

    public static void main(String[] words) throws InterruptedException {
        Apart.Work[] works = new Apart.Work[SEATS];
        for (int at = 0; at < SEATS; at++) {
            int seat = at;
            forks[at] = new ReentrantLock();
            works[at] = () -> dine(seat);
        }
        Apart.run(works);
    }
}
