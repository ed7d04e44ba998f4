package java.lockdep;

import java.io.File;
import java.io.FileInputStream;
import java.io.IOException;
import java.nio.charset.StandardCharsets;
import java.util.LinkedHashSet;
import java.util.Set;

/** The libraries that the program has loaded, of which the end of the recording looks whether they have locks. */
final class Libraries {
    private static final String[] SYSTEM = {"/lib/", "/lib32/", "/lib64/", "/libx32/", "/usr/lib/", "/usr/lib32/", "/usr/lib64/", "/usr/libx32/"};

    private static final String PRELOADED = "/out/preload.so"; // ends the path of the recorder of pthreads

    private Libraries() {
    }

    /** Adds a line for each library that is neither the system's nor the JVM's own: V if their locks of pthreads are recorded, else D. */
    static void add(StringBuilder lines) {
        try (FileInputStream file = new FileInputStream("/proc/self/maps")) {
            Set<String> found = new LinkedHashSet<>();
            boolean isPreloaded = false;
            for (String line : new String(file.readAllBytes(), StandardCharsets.UTF_8).split("\n")) {
                int at = line.indexOf('/');
                isPreloaded |= line.endsWith(PRELOADED);
                boolean isCode = line.indexOf('x', line.indexOf(' ') + 1) == line.indexOf(' ') + 3;
                if (at >= 0 && isCode && isOfProgram(line.substring(at))) found.add(line.substring(at));
            }
            String kind = isPreloaded && areWatched() ? "V " : "D ";
            for (String path : found) lines.append(kind).append(path).append('\n');
        } catch (IOException | RuntimeException unknown) {
            // Without /proc nothing is known of them.
        }
    }

    /** Whether the recorder of pthreads, if it is preloaded, looks at libraries: by the rule of recorders/pthread/preload/libraries.c. */
    private static boolean areWatched() throws IOException {
        String folder = Variables.get("LOCKDEP_LIBRARIES");
        return folder != null && !folder.isEmpty() && new File("/proc/self/exe").getCanonicalFile().getName().equals("java");
    }

    private static boolean isOfProgram(String path) {
        for (String folder : SYSTEM) {
            if (path.startsWith(folder)) return false;
        }
        String own = System.getProperty("java.home");
        return !path.endsWith(PRELOADED) && (own == null || !path.startsWith(own));
    }
}
