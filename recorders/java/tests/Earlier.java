import java.io.File;
import java.net.MalformedURLException;
import java.net.URL;
import java.net.URLClassLoader;
import java.security.Permission;

/**
 * Classes that the JVM loads before any recorder: a system class loader, a security manager, and an agent. Each takes its
 * own monitor and another lock in both orders.
 */
public class Earlier {
    private static final Object log = new Object();

    /** The system class loader. */
    public static class Loader extends URLClassLoader {
        public Loader(ClassLoader parent) {
            super(new URL[0], parent);
        }

        void appendToClassPathForInstrumentation(String path) throws MalformedURLException {
            addURL(new File(path).toURI().toURL());
        }

        static synchronized void write(Object to) {
            synchronized (to) {
                to.notifyAll();
            }
        }

        static void flush(Object from) {
            synchronized (from) {
                write(from);
            }
        }
    }

    /** One with which the JVM doesn't start if there is an agent. */
    public static class Bare extends ClassLoader {
        public Bare(ClassLoader parent) {
            super(parent);
        }
    }

    /** The security manager, which allows everything. */
    public static class Manager extends SecurityManager {
        @Override
        public void checkPermission(Permission asked) {
        }

        static synchronized void write(Object to) {
            synchronized (to) {
                to.notifyAll();
            }
        }

        static void flush(Object from) {
            synchronized (from) {
                write(from);
            }
        }
    }

    /** An agent of the program's own. */
    public static class Agent {
        public static void premain(String words) {
        }

        static synchronized void write(Object to) {
            synchronized (to) {
                to.notifyAll();
            }
        }

        static void flush(Object from) {
            synchronized (from) {
                write(from);
            }
        }
    }

    public static void main(String[] words) {
        if (words[0].equals("Loader")) {
            Loader.write(log);
            Loader.flush(log);
        } else if (words[0].equals("Manager")) {
            Manager.write(log);
            Manager.flush(log);
        } else {
            Agent.write(log);
            Agent.flush(log);
        }
    }
}
