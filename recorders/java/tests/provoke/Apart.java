/**
 * Threads that begin one after the other. In a run that is recorded each has done its work before the next one begins, however busy the machine is;
 * in the runs of `provoke`, which hold threads back, they begin by the time.
 */
final class Apart {
    private static final int MILLISECONDS = 150;
    private static volatile int ended;

    private Apart() {
    }

    interface Work {
        void run() throws InterruptedException;
    }

    static void run(Work... works) throws InterruptedException {
        Thread[] threads = new Thread[works.length];
        for (int at = 0; at < works.length; at++) {
            int number = at;
            threads[at] = new Thread(() -> begin(number, works[number]), "worker " + at);
            threads[at].start();
        }
        for (Thread thread : threads) thread.join();
        System.out.println("done");
    }

    private static void begin(int number, Work work) {
        try {
            await(number);
            work.run();
        } catch (InterruptedException interrupted) {
            System.out.println("interrupted");
        }
        ended = number + 1;
    }

    private static void await(int number) throws InterruptedException {
        if (System.getenv("LOCKDEP_PROVOKE_PLAN") != null) Thread.sleep(MILLISECONDS * number);
        else while (ended < number) Thread.sleep(1);
    }
}
