package java.lockdep;

import java.util.Arrays;
import java.util.HashMap;
import java.util.Map;
import java.util.concurrent.ConcurrentHashMap;

/**
 * What makes locks on one line of a method. Objects that are noted after their constructor have numbers as soon as the
 * class is rewritten; others get the next ones, in the order in which their constructors are first called.
 */
public final class OnLine {
    private static final ConcurrentHashMap<String, OnLine> all = new ConcurrentHashMap<>();

    /** The numbers of noted objects, or in a method without lines places, by where in the code their constructors are called. */
    private final Map<Integer, Integer> noted = new HashMap<>();
    private int mostNoted;
    private int[] seen = new int[0];

    private OnLine() {
    }

    private static OnLine of(String className, String method, String descriptor, int line) {
        String key = Source.nameInFile(className) + "." + method + descriptor + ":" + line;
        OnLine found = all.get(key);
        if (found != null) return found;
        OnLine added = new OnLine();
        found = all.putIfAbsent(key, added);
        return found != null ? found : added;
    }

    /** An object with this number is noted, whose constructor is called there in the code, or -1 if it has none. */
    public static void note(Source source, String method, String descriptor, int line, int ordinal, int at) {
        of(source.className, method, descriptor, line).note(ordinal, at);
    }

    private synchronized void note(int ordinal, int at) {
        mostNoted = Math.max(mostNoted, ordinal);
        if (at >= 0) noted.put(at, ordinal);
    }

    /** Of a method without lines: where a constructor is called in the code, and where that was before the method was rewritten. */
    public static void notePlace(Source source, String method, String descriptor, int at, int before) {
        of(source.className, method, descriptor, 0).note(before, at);
    }

    /** Where in its code a frame without a line is, as it was before the method was rewritten. */
    static int placeOf(StackWalker.StackFrame frame) {
        return of(frame.getClassName(), frame.getMethodName(), frame.getDescriptor(), 0).placeAt(frame.getByteCodeIndex());
    }

    private synchronized int placeAt(int at) {
        return noted.getOrDefault(at, at);
    }

    /** Which of the objects of its line a frame makes. */
    static int ordinalOf(StackWalker.StackFrame frame) {
        return ordinalOf(frame.getClassName(), frame.getMethodName(), frame.getDescriptor(), frame.getLineNumber(),
                frame.getByteCodeIndex());
    }

    static int ordinalOf(String className, String method, String descriptor, int line, int at) {
        return of(className, method, descriptor, line).ordinalAt(at);
    }

    private synchronized int ordinalAt(int at) {
        Integer known = noted.get(at);
        if (known != null) return known;
        int number = 0;
        while (number < seen.length && seen[number] != at) number++;
        if (number == seen.length) {
            seen = Arrays.copyOf(seen, number + 1);
            seen[number] = at;
        }
        return mostNoted + number + 1;
    }
}
