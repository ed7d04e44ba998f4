import java.io.File;
import java.net.URL;
import java.net.URLClassLoader;
import java.nio.file.Files;

/** Runs Abba with class loaders of other kinds: one whose parent is the boot loader, one that finds nothing outside but `java`. */
public class Loaders {
    static class Strict extends ClassLoader {
        private final File folder;

        Strict(File folder) {
            super(null);
            this.folder = folder;
        }

        @Override
        protected Class<?> loadClass(String name, boolean resolve) throws ClassNotFoundException {
            if (name.startsWith("java.")) return Object.class.getClassLoader() == null ? Class.forName(name, false, null) : null;
            Class<?> loaded = findLoadedClass(name);
            if (loaded != null) return loaded;
            try {
                byte[] file = Files.readAllBytes(new File(folder, name + ".class").toPath());
                return defineClass(name, file, 0, file.length);
            } catch (java.io.IOException error) {
                throw new ClassNotFoundException(name, error);
            }
        }
    }

    public static void main(String[] words) throws Exception {
        File folder = new File(words[0]);
        ClassLoader[] loaders = {new URLClassLoader(new URL[] {folder.toURI().toURL()}, null), new Strict(folder)};
        for (ClassLoader loader : loaders) {
            loader.loadClass("Abba").getMethod("main", String[].class).invoke(null, (Object) new String[0]);
        }
    }
}
