package java.lockdep.agent;

import java.io.IOException;
import java.io.InputStream;
import java.lang.instrument.ClassFileTransformer;
import java.lockdep.Recording;
import java.lockdep.Source;
import java.lockdep.Variables;
import java.net.URL;
import java.security.CodeSource;
import java.security.ProtectionDomain;
import java.util.ArrayList;
import java.util.List;

/** Rewrites the program's classes when they are loaded. What can't be rewritten is left unchanged, and counted. */
final class Rewriter implements ClassFileTransformer {
    /** What the recorder itself uses, or what is below it, whatever is requested. */
    private static final String[] NEVER = {"java/lang/Object", "java/lang/Thread", "java/lang/VirtualThread",
            "java/lang/BaseVirtualThread",
        "java/lang/Class", "java/lang/ref/", "java/lang/invoke/", "java/lang/System", "java/lang/Shutdown",
                "java/lang/ApplicationShutdown",
        "java/lang/StackWalker", "java/lang/StackStreamFactory", "java/lang/StackFrame", "java/lang/StringBuilder",
        "java/lang/AbstractStringBuilder", "java/lang/String", "java/util/concurrent/ConcurrentHashMap",
        "java/util/concurrent/locks/", "java/io/FileOutputStream", "java/io/FileDescriptor", "java/lockdep/",
                "jdk/internal/",
        "sun/instrument/", "sun/launcher/"};
    private static final String[] ALWAYS = {"java/lang/StringBuffer"};
    /** What other loaders have for reflection, and who loads the recorder. */
    private static final String[] NOT_OF_PROGRAM = {"jdk/internal/reflect/", "sun/reflect/misc/", "lockdep_java_agent/"};
    private static final String[] OF_JDK = {"java/", "jdk/", "sun/"};
    private static final ClassLoader PLATFORM = ClassLoader.getPlatformClassLoader();

    private final String[] jdk;
    private volatile Location last;

    Rewriter(String[] jdk) {
        this.jdk = jdk;
        for (int at = 0; at < jdk.length; at++) jdk[at] = jdk[at].trim().replace('.', '/');
    }

    /** Loads what rewriting needs, so that none of it is loaded in the middle of it. */
    void warmUp() throws IOException {
        try (InputStream file = ClassLoader.getSystemResourceAsStream("java/lockdep/Warm.class")) {
            if (file != null) rewrite(null, file.readAllBytes(), null, false, false);
        }
    }

    @Override
    public byte[] transform(Module module, ClassLoader loader, String named, Class<?> redefined,
            ProtectionDomain domain, byte[] file) {
        if (file == null) return null;
        String name = named != null ? named : isMadeByJdk(loader) ? null : nameIn(file);
        if (name == null) return null;
        boolean isOfJdk = isOfJdk(module, loader, name);
        if (isOfJdk ? !isAsked(name) : begins(name, NOT_OF_PROGRAM)) return null;
        return rewriteOrTell(name, loader, file, domain, isOfJdk, false);
    }

    /** Whether a loader is one that the JDK has for what it makes itself, as from style sheets, and defines without a name. */
    private static boolean isMadeByJdk(ClassLoader loader) {
        Module own = loader == null ? Object.class.getModule() : loader.getClass().getModule();
        return own != Object.class.getModule() && isOfJdk(own);
    }

    /** The name of a class that a loader defines without saying it; null if the file has none, and so can't be rewritten. */
    private static String nameIn(byte[] file) {
        try {
            return new ClassFile(file).name;
        } catch (RuntimeException unreadable) {
            Recording.unrewritten();
            tellWhy("a class without a name", unreadable);
            return null;
        }
    }

    /** The file of a hidden class that the JVM shows to no agent, as it is to be defined beside a class; null if it stays as it is. */
    byte[] rewriteHidden(Class<?> beside, byte[] file) {
        String name = beside.getName().replace('.', '/');
        boolean isOfJdk = isOfJdk(beside.getModule(), beside.getClassLoader(), name);
        if (isOfJdk ? !isAsked(name) : begins(name, NOT_OF_PROGRAM)) return null;
        return rewriteOrTell("a hidden class beside " + name, beside.getClassLoader(), file, domainOf(beside), isOfJdk, true);
    }

    private static ProtectionDomain domainOf(Class<?> type) {
        try {
            return type.getProtectionDomain();
        } catch (SecurityException mayNotLook) {
            return null;
        }
    }

    private byte[] rewriteOrTell(String name, ClassLoader loader, byte[] file, ProtectionDomain domain, boolean isOfJdk, boolean isHidden) {
        try {
            return rewrite(loader, file, domain, isOfJdk, isHidden);
        } catch (Throwable error) {
            tellLeft(name, error);
            return null;
        }
    }

    static void tellLeft(String name, Throwable why) {
        Recording.unrewritten();
        tellWhy(name, why);
    }

    /**
     * Whether a loaded class is to be recorded: one of the program's, or of those of the JDK that were requested. Hidden
     * classes can't be changed, and arrays have no code.
     */
    boolean isAsked(Class<?> type) {
        boolean isOfProgram = isOfProgram(type.getClassLoader());
        if (!isOfProgram && jdk.length == 0 && !type.getName().startsWith("java.util.concurrent.")) return false;
        if (type.isArray() || type.isPrimitive() || type.getName().indexOf('/') >= 0) return false;
        String name = type.getName().replace('.', '/');
        if (isOfJdk(type.getModule(), type.getClassLoader(), name)) return isAsked(name);
        return isOfProgram && !begins(name, NOT_OF_PROGRAM);
    }

    private static boolean isOfProgram(ClassLoader loader) {
        return loader != null && loader != PLATFORM;
    }

    private boolean isAsked(String name) {
        return hasLocksAsked(name) || !Telling.of(name).isEmpty();
    }

    /** Whether a class of the JDK is one whose locks were requested. */
    private boolean hasLocksAsked(String name) {
        return begins(name, jdk) && (!begins(name, NEVER) || begins(name, ALWAYS));
    }

    /**
     * Whether a class is the JDK's. Some of its modules have the program's own loader. Without a module, it is one of the
     * recorder or of what was added to the boot loader's path, and of the JDK by its package; other loaders have only the
     * program's classes, whatever their packages are called.
     */
    private static boolean isOfJdk(Module module, ClassLoader loader, String name) {
        if (module != null && module.isNamed()) return isOfJdk(module);
        return (loader == null || loader == PLATFORM) && begins(name, OF_JDK);
    }

    private static boolean isOfJdk(Module module) {
        return module.isNamed() && (module.getName().startsWith("java.") || module.getName().startsWith("jdk."));
    }

    private static boolean begins(String name, String[] beginnings) {
        for (String beginning : beginnings) {
            if (name.startsWith(beginning)) return true;
        }
        return false;
    }

    private byte[] rewrite(ClassLoader loader, byte[] file, ProtectionDomain domain, boolean isOfJdk, boolean isHidden)
            throws IOException {
        ClassFile type = new ClassFile(file);
        String location = location(domain);
        Source source = Source.add(type.name.replace('/', '.'), type.sourceFile, location, type.firstLine, isOfJdk, isHidden);
        try (Hierarchy hierarchy = new Hierarchy(loader, location)) {
            if (!isOfJdk && hierarchy.isSynchronizer(type.name, type.superName)) Recording.synchronizer();
            Locking locking = new Locking(type);
            hierarchy.add(type, locking, isHidden);
            boolean isOfProgram = !isOfJdk && isOfProgram(loader);
            Wanted wanted = new Wanted(type, hierarchy, locking, isOfProgram, begins(Locking.BUFFER, jdk), isOfJdk && !hasLocksAsked(type.name));
            if (!wanted.hasAny()) return null;
            if (!hierarchy.findsHooks()) throw new IllegalStateException("its class loader doesn't find java.lockdep.Hooks");
            return rewrite(type, source, wanted);
        }
    }

    /** The class with those of its methods rewritten that have something to rewrite; null if none has. */
    private static byte[] rewrite(ClassFile type, Source source, Wanted wanted) {
        Constants constants = new Constants(type);
        List<MethodRewriter> changed = new ArrayList<>();
        List<IllegalStateException> left = new ArrayList<>();
        Bytes methods = new Bytes(2 * type.bytes.length);
        int copied = type.endOfConstants;
        for (ClassFile.Method method : type.methods) {
            if (!method.isWanted || method.end == method.start) continue;
            MethodRewriter rewriter = new MethodRewriter(type, method, source, wanted, constants);
            if (!isRewritten(rewriter, left)) continue;
            rewriter.write(methods.put(type.bytes, copied, method.begin));
            copied = method.finish;
            changed.add(rewriter);
        }
        for (IllegalStateException why : left) tellMethodLeft(type, why);
        if (changed.isEmpty()) return null;
        methods.put(type.bytes, copied, type.endOfMethods);
        Bytes written = new Bytes(methods.length() + type.bytes.length).put(type.bytes, 0, 8);
        constants.write(written);
        constants.writeAttributes(written.put(methods));
        for (MethodRewriter method : changed) method.tellNoted();
        return written.toArray();
    }

    /**
     * Rewrites a method. One that can't be rewritten stays as it is: what it does with monitors ends in it. If it may release a
     * lock that another method takes, that would count as held from there on, so the whole class stays.
     */
    private static boolean isRewritten(MethodRewriter rewriter, List<IllegalStateException> left) {
        try {
            return rewriter.rewrite();
        } catch (IllegalStateException why) {
            if (rewriter.mayRelease()) throw why;
            left.add(why);
            return false;
        }
    }

    private static void tellMethodLeft(ClassFile type, IllegalStateException why) {
        Recording.unrewrittenMethod();
        tellWhy("a method of " + type.name, why);
    }

    private static void tellWhy(String what, Throwable why) {
        if (Variables.get("LOCKDEP_JAVA_WHY") != null) new Error("record: " + what + " stays as it is", why).printStackTrace();
    }

    /** The folder or jar of a class; null if it is of none. */
    private String location(ProtectionDomain domain) {
        CodeSource source = domain == null ? null : domain.getCodeSource();
        if (source == null) return null;
        Location known = last;
        if (known == null || known.source != source) last = known = new Location(source);
        return known.path;
    }

    /** Where the classes of one source of code are. Most are of the same one as the class before. */
    private static final class Location {
        final CodeSource source;
        final String path;

        Location(CodeSource source) {
            URL url = source.getLocation();
            boolean isFile = url != null && url.getProtocol().equals("file");
            this.source = source;
            path = isFile ? url.getPath().replace("%20", " ") : null;
        }
    }
}
