/** A main thread that joins another one with a monitor held that this takes. */
final class Joins {
    private static final int MILLISECONDS = 100;
    private static final Object state = new Object();

    static void work() {
        try {
            if (System.getenv("LOCKDEP_PROVOKE_PLAN") != null) Thread.sleep(MILLISECONDS);
        } catch (InterruptedException interrupted) {
            return;
        }
        synchronized (state) {
            state.hashCode();
        }
    }

    public static void main(String[] words) throws InterruptedException {
        Thread thread = new Thread(Joins::work);
        thread.start();
        while (System.getenv("LOCKDEP_PROVOKE_PLAN") == null && thread.isAlive()) Thread.sleep(1);
        synchronized (state) {
            thread.join();
        }
        System.out.println("done");
    }
}
