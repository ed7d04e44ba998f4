/** Monitors: blocks, synchronized methods, class objects, errors that leave them, and reentered monitors. */
public class Monitors {
    private final Object inner = new Object();

    synchronized void method() {
        synchronized (inner) {
            again();
        }
    }

    synchronized void again() {
    }

    synchronized int fails(int[] none) {
        return none[0];
    }

    static synchronized long ofClass(long first, double second) {
        return first;
    }

    static void leaves(Object lock) {
        synchronized (lock) {
            throw new IllegalStateException();
        }
    }

    public static void main(String[] words) {
        Monitors own = new Monitors();
        own.method();
        try {
            own.fails(null);
        } catch (NullPointerException expected) {
            ofClass(1, 2);
        }
        Object left = new Object(), right = new Object();
        try {
            leaves(left);
        } catch (IllegalStateException expected) {
            synchronized (right) {
                synchronized (Monitors.class) {
                    ofClass(1, 2);
                }
            }
        }
        try {
            leaves(null);
        } catch (NullPointerException expected) {
            synchronized (words) {
                for (int count = 0; count < 100; count++) own.method();
            }
        }
    }
}
