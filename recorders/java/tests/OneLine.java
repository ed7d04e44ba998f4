/** Several objects that are made on one line, most of which take their own monitor. */
public class OneLine {
    static class Store {
        synchronized void put() {
            getClass();
        }
    }

    static class Service {
        private final Store store;

        Service(Store store) {
            this.store = store;
        }

        synchronized void run() {
            store.put();
        }
    }

    enum Level {
        LOW, HIGH;

        synchronized void raise() {
            if (this == LOW) HIGH.raise();
        }
    }

    static class Pair {
        private final Store first = new Store(), second = new Store();

        Pair() {
        }

        Pair(int number) {
        }

        void takes() {
            synchronized (second) {
                first.put();
            }
        }
    }

    public static void main(String[] words) {
        new Service(new Store()).run();
        Store store = new Store(); Object guard = new Object(); Store[] more = {new Store(), new Store()};
        synchronized (guard) {
            store.put();
            more[1].put();
        }
        Level.LOW.raise();
        new Pair().takes();
        new Pair(1).takes();
        for (int round = 0; round < 2; round++) {
            Store one = new Store(), other = new Store();
            synchronized (one) {
                other.put();
            }
        }
    }
}
