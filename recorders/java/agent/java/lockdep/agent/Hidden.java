package java.lockdep.agent;

import java.lang.invoke.MethodHandles;
import java.lockdep.Site;

/**
 * What rewritten code calls before it defines a hidden class, which the JVM shows to no agent. The words of the call stay on
 * the stack, where they may have to be one to get at the others.
 */
public final class Hidden {
    private static volatile Rewriter rewriter;

    private Hidden() {
    }

    static void begin(Rewriter ofAgent) {
        rewriter = ofAgent;
    }

    /** What is to be defined in place of the bytes that the program has, which stay as they are. */
    public static byte[] rewritten(byte[] file, MethodHandles.Lookup lookup) {
        if (file == null || lookup == null) return file;
        Site.showHidden();
        byte[] written = rewriter.rewriteHidden(lookup.lookupClass(), file);
        return written == null ? file : written;
    }

    public static Object[] both(boolean isInitialized, Object[] options) {
        return new Object[] {isInitialized, options};
    }

    public static boolean isInitialized(Object[] both) {
        return (boolean) both[0];
    }

    public static Object[] options(Object[] both) {
        return (Object[]) both[1];
    }
}
