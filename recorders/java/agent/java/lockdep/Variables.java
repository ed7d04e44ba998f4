package java.lockdep;

import java.io.FileInputStream;
import java.io.IOException;
import java.nio.charset.Charset;
import java.nio.charset.StandardCharsets;

/** The variables of the environment, whatever letters the program's text is in. */
public final class Variables {
    private Variables() {
    }

    /**
     * A variable; null if it isn't set. Before Java 18 the JDK finds none if its default charset writes ASCII in other
     * bytes, as UTF-16 does.
     */
    public static String get(String name) {
        String value = System.getenv(name);
        return value != null || isAscii() ? value : fromSystem(name);
    }

    private static boolean isAscii() {
        byte[] bytes = "A".getBytes(Charset.defaultCharset());
        return bytes.length == 1 && bytes[0] == 'A';
    }

    private static String fromSystem(String name) {
        String beginning = name + "=";
        try (FileInputStream file = new FileInputStream("/proc/self/environ")) {
            String all = new String(file.readAllBytes(), StandardCharsets.ISO_8859_1);
            for (String each : all.split("\0")) {
                if (each.startsWith(beginning)) return decoded(each.substring(beginning.length()));
            }
        } catch (IOException notThere) {
            return null;
        }
        return null;
    }

    /** The text as the JDK takes paths. */
    private static String decoded(String bytes) {
        return new String(bytes.getBytes(StandardCharsets.ISO_8859_1), Charset.forName(System.getProperty("sun.jnu.encoding", "UTF-8")));
    }
}
