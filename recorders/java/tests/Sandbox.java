import java.io.IOException;
import java.io.InputStream;

/** A class loader whose classes find nothing but each other and what some packages of the JDK have. */
public class Sandbox extends ClassLoader {
    public static class Plugin implements Runnable {
        @Override
        public synchronized void run() {
            System.out.println("ran");
        }
    }

    @Override
    protected Class<?> loadClass(String name, boolean resolve) throws ClassNotFoundException {
        if (name.startsWith("java.lang.") || name.startsWith("java.io.")) return super.loadClass(name, resolve);
        Class<?> found = findLoadedClass(name);
        if (found != null) return found;
        try (InputStream file = getSystemResourceAsStream(name.replace('.', '/') + ".class")) {
            if (file == null || !name.startsWith("Sandbox")) throw new ClassNotFoundException(name);
            byte[] bytes = file.readAllBytes();
            return defineClass(name, bytes, 0, bytes.length);
        } catch (IOException error) {
            throw new ClassNotFoundException(name, error);
        }
    }

    public static void main(String[] words) throws ReflectiveOperationException {
        ((Runnable) new Sandbox().loadClass("Sandbox$Plugin").getDeclaredConstructor().newInstance()).run();
    }
}
