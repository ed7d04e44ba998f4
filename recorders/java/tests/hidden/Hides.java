import java.lang.invoke.MethodHandles;
import java.lang.invoke.MethodHandles.Lookup;
import java.lang.invoke.MethodHandles.Lookup.ClassOption;
import java.nio.file.Files;
import java.nio.file.Path;
import java.util.Arrays;
import java.util.concurrent.locks.Lock;
import java.util.concurrent.locks.ReentrantLock;

/** Defines the class of a file as a hidden one, in one of several ways, and runs it: Hides FILE WAY. */
public class Hides {
    private static int runs;

    /** (Private, so that only a nestmate may call it.) */
    private static void tells() {
        System.out.println("ran " + ++runs);
    }

    public static void main(String[] words) throws Exception {
        String way = words[1];
        byte[] file = Files.readAllBytes(Path.of(words[0]));
        if (way.equals("cut")) file = Arrays.copyOf(file, file.length / 2);
        if (way.equals("old")) file[7] = 48;
        byte[] before = file.clone();
        Lookup lookup = way.equals("nowhere") ? null : way.equals("public") ? MethodHandles.publicLookup() : MethodHandles.lookup();
        for (int left = way.equals("twice") ? 2 : 1; left > 0; left--) {
            try {
                run(way.equals("data") ? lookup.defineHiddenClassWithClassData(file, "data", true, ClassOption.NESTMATE)
                        : lookup.defineHiddenClass(way.equals("nothing") ? null : file, true, ClassOption.NESTMATE, ClassOption.STRONG));
            } catch (Exception | LinkageError error) {
                System.out.println(error);
                for (StackTraceElement frame : error.getStackTrace()) System.out.println(frame);
            }
        }
        System.out.println("unchanged: " + Arrays.equals(before, file));
    }

    private static void run(Lookup made) throws Exception {
        Class<?> type = made.lookupClass();
        System.out.println(type.isHidden() + " " + type.getName().replaceAll("/.*", "/") + " " + type.getDeclaredMethods().length);
        System.out.println(type.getNestHost() + " " + (MethodHandles.classData(made, "_", Object.class)));
        ((Runnable) type.getDeclaredConstructor().newInstance()).run();
    }

    static class Blocks implements Runnable {
        static final Object first = new Object();
        static final Object second = new Object();

        public void run() {
            synchronized (first) {
                synchronized (second) { tells(); }
            }
            synchronized (second) {
                synchronized (first) { tells(); }
            }
        }
    }

    static class Locks implements Runnable {
        final ReentrantLock first = new ReentrantLock();
        final Lock second = new ReentrantLock();

        public void run() {
            first.lock();
            second.lock();
            second.unlock();
            first.unlock();
            Runnable take = second::lock, give = second::unlock;
            take.run();
            first.lock();
            first.unlock();
            give.run();
            tells();
        }
    }

    interface Taker {
        void takes();
        void takes(Taker other);
    }

    /** (A hidden class can't name itself in the words of a method, but as an interface.) */
    static class Methods implements Runnable, Taker {
        public synchronized void takes() { tells(); }
        public synchronized void takes(Taker other) { other.takes(); }
        static synchronized void takesAll(Taker one) { one.takes(); }
        synchronized void holds() { takesAll(this); }

        public void run() {
            Taker first = new Methods();
            Taker second = new Methods();
            first.takes(second);
            second.takes(first);
            takesAll(this);
            holds();
        }
    }

    /** Makes objects that lock themselves, and whose class is in another folder. */
    static class Maker implements Runnable {
        public void run() {
            Apart first = new Apart();
            Apart second = new Apart();
            first.takes(second);
            second.takes(first);
            tells();
        }
    }
}

class Apart {
    synchronized void takes(Apart other) {
        if (other != null) other.takes(null);
    }
}
