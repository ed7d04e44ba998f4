package java.lockdep;

import java.io.File;
import java.util.ArrayList;
import java.util.List;
import java.util.Locale;
import java.util.concurrent.ConcurrentHashMap;

/** The file that a class was compiled from. Its location is looked up when it is first needed. */
public final class Source {
    /** So many classes have room before the table grows. */
    private static final int FIRST_ROOM = 1 << 10;

    private static final ConcurrentHashMap<String, Source> all = new ConcurrentHashMap<>(FIRST_ROOM);
    /** Where sources are below a folder, and how far above a class file's folder or a jar they are looked for. */
    private static final String[] BELOW = {"", "src/main/java", "src/test/java", "src", "java", "test",
            "app/src/main/java",
        "src/main/kotlin", "src/main/scala", "src/main/groovy"};
    private static final int MOST_ABOVE = 4;
    private static final ConcurrentHashMap<String, Places> places = new ConcurrentHashMap<>();

    public final String className;
    public final boolean isOfJdk;
    public final boolean isHidden;
    private final String fileName;
    private final String location;
    private final int firstLine;
    private String path;

    private Source(String className, String fileName, String location, int firstLine, boolean isOfJdk, boolean isHidden) {
        this.className = className;
        this.fileName = fileName;
        this.location = location;
        this.firstLine = firstLine;
        this.isOfJdk = isOfJdk;
        this.isHidden = isHidden;
    }

    /**
     * A class that is rewritten: its name with dots, its file's name, and the folder or jar that it was loaded from, or
     * null. A hidden one may have the name of another class, or of many.
     */
    public static Source add(String className, String fileName, String location, int firstLine, boolean isOfJdk, boolean isHidden) {
        Source source = new Source(className, fileName == null ? outermost(className) + ".java" : fileName, location,
                firstLine, isOfJdk, isHidden);
        if (isHidden) all.putIfAbsent(className, source);
        else all.put(className, source);
        return source;
    }

    static Source of(String name) {
        String className = nameInFile(name);
        Source found = all.get(className);
        return found != null ? found : new Source(className, outermost(className) + ".java", null, 0, true, false);
    }

    /** The name of a class without what the JVM adds to that of a hidden one, which is another number in each run. */
    static String nameInFile(String className) {
        int hidden = className.indexOf('/');
        return hidden < 0 ? className : className.substring(0, hidden);
    }

    private static String outermost(String className) {
        String name = className.substring(className.lastIndexOf('.') + 1);
        int end = name.indexOf('$', 1);
        return end < 0 ? name : name.substring(0, end);
    }

    /** A text without what ends a line or a field of the file: for such a letter there is a `%`, and its number. */
    static String onOneLine(String text) {
        StringBuilder changed = null;
        for (int at = 0; at < text.length(); at++) {
            char letter = text.charAt(at);
            boolean isKept = !Character.isISOControl(letter) && letter != '\u2028' && letter != '\u2029';
            if (isKept && changed == null) continue;
            if (changed == null) changed = new StringBuilder(text.substring(0, at));
            if (isKept) changed.append(letter);
            else changed.append(letter < 16 ? "%0" : "%").append(Integer.toHexString(letter).toUpperCase(Locale.ROOT));
        }
        return changed == null ? text : changed.toString();
    }

    /** The name of the class without its package. */
    String shortName() {
        return className.substring(className.lastIndexOf('.') + 1);
    }

    /** A place in this file, as `where` reads it. */
    String place(int line, String function) {
        return path() + ":" + (line > 0 ? line : firstLine) + " " + function;
    }

    private synchronized String path() {
        if (path == null) {
            String inPackage = className.substring(0, className.lastIndexOf('.') + 1).replace('.', '/') + fileName;
            String found = isOfJdk ? null : find(inPackage);
            path = onOneLine(found == null ? inPackage : found);
        }
        return path;
    }

    private String find(String inPackage) {
        try {
            return Places.of(location == null ? "" : location).find(inPackage, fileName);
        } catch (RuntimeException mayNotLook) {
            return null;
        }
    }

    /** Where the sources of what a folder or jar has may be, which is looked for once. */
    private static final class Places {
        private final List<String> roots = new ArrayList<>();
        /** The folders below the roots that are there. */
        private final List<File> folders = new ArrayList<>();

        static Places of(String location) {
            Places found = places.get(location);
            if (found == null) places.put(location, found = new Places(location));
            return found;
        }

        /**
         * The roots are the folders that were named, those above the class files, and the current one; of no folder or
         * jar, an empty text, only the first and the last.
         */
        Places(String location) {
            for (String named : Recording.sources) roots.add(new File(named).getAbsolutePath());
            File above = location.isEmpty() ? null : new File(location).getAbsoluteFile();
            for (int count = 0; above != null && above.getParentFile() != null && count <= MOST_ABOVE; count++) {
                if (above.isDirectory()) roots.add(above.getPath());
                above = above.getParentFile();
            }
            roots.add(new File("").getAbsolutePath());
            for (String root : roots) addFolders(root);
        }

        private void addFolders(String root) {
            for (String below : BELOW) {
                File folder = below.isEmpty() ? new File(root) : new File(root, below);
                if (folder.isDirectory()) folders.add(folder);
            }
        }

        /** The path of a file in one of the folders, or alone in a root; null if it isn't there. */
        String find(String inPackage, String fileName) {
            for (File folder : folders) {
                File file = new File(folder, inPackage);
                if (file.isFile()) return file.getPath();
            }
            for (String root : roots) {
                File file = new File(root, fileName);
                if (file.isFile()) return file.getPath();
            }
            return null;
        }
    }
}
