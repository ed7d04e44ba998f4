package java.lockdep;

import java.util.Arrays;
import java.util.Set;
import java.util.Spliterator;
import java.util.concurrent.ConcurrentHashMap;
import java.util.function.Consumer;
import java.util.function.Function;
import java.util.stream.Stream;

/** A place of the program that does something with locks: a line of a method. Rewritten code names it by its number. */
public final class Site {
    /** How many bytes the name of a class of locks may have, so that there is room for a single lock's number. */
    private static final int MOST_NAME = 53;
    /** How often all callers are looked at, at one place. */
    static final int MOST_WALKS = 2000;
    /** Before what a thread is known by. */
    private static final String THREAD = "thread:";
    /** On the stack of a constructor that looks for its caller. */
    private static final int FRAMES_OF_RECORDER = 2;
    private static volatile StackWalker walker = StackWalker.getInstance(Set.of(StackWalker.Option.RETAIN_CLASS_REFERENCE,
            StackWalker.Option.SHOW_REFLECT_FRAMES));

    /** The same for who doesn't look far. */
    private static volatile StackWalker near = StackWalker.getInstance(Set.of(StackWalker.Option.RETAIN_CLASS_REFERENCE,
            StackWalker.Option.SHOW_REFLECT_FRAMES), FRAMES_OF_RECORDER + 3);
    /** Whether they also show the frames of hidden classes, among which are those of references and of handles to methods. */
    private static volatile boolean isHiddenShown;

    private static volatile Site[] all = new Site[1024];
    private static int count;
    /** Places in the JDK with the program's own lines that led there, by both. */
    private static final ConcurrentHashMap<String, Integer> calls = new ConcurrentHashMap<>();

    private final Source source;
    private final String method;
    private final int line;
    private final int ordinal;
    /** For a place in the JDK: the program's own line that led there. */
    private final String caller;
    private final Call call;
    private Made made;
    private int told;
    private int walks;
    private Provoke.Fits fits;
    /** Where the second file of Provoke has it, alone. */
    long[] only;

    /** The call of a constructor: in what kind of method, of what class, and where in the code. */
    private static final class Call {
        final String descriptor;
        String made;
        int at;

        Call(String descriptor, String made) {
            this.descriptor = descriptor;
            this.made = made;
        }
    }

    private Site(Source source, String method, int line, int ordinal, String caller, Call call) {
        this.source = source;
        this.method = method;
        this.line = line;
        this.ordinal = ordinal;
        this.caller = caller;
        this.call = call;
    }

    /**
     * A new place; the number is which of the line's objects is made there, from 1. In a method without lines, the place in
     * its code is in the place of the line, below zero.
     */
    public static int add(Source source, String method, int line, int ordinal) {
        return add(new Site(source, method, line, ordinal, "", null));
    }

    /** A new place where a constructor of a class is called, and is told that. */
    public static int addCall(Source source, String method, String descriptor, int line, String made) {
        return add(new Site(source, method, line, 1, "", new Call(descriptor, made)));
    }

    /** Where in the code the constructor is called. */
    public static void calledAt(int number, int at) {
        of(number).call.at = at;
    }

    /** The program has hidden classes of its own, which may make locks. */
    public static synchronized void showHidden() {
        if (isHiddenShown) return;
        Set<StackWalker.Option> all = Set.of(StackWalker.Option.RETAIN_CLASS_REFERENCE, StackWalker.Option.SHOW_HIDDEN_FRAMES);
        isHiddenShown = true;
        walker = StackWalker.getInstance(all);
        near = StackWalker.getInstance(all, FRAMES_OF_RECORDER + 3);
    }

    /** Whether a frame is one of a reference or of a handle, between a call and what is called. */
    private static boolean isBetween(StackWalker.StackFrame frame) {
        if (!isHiddenShown) return false;
        String name = frame.getClassName();
        boolean isHidden = name.indexOf('/') >= 0;
        return isHidden && name.contains("$$Lambda") || name.startsWith("java.lang.invoke.") && (isHidden || name.endsWith("$Holder"));
    }

    /** Whether an object whose constructor runs is what is made here. A hidden class knows itself by the name in its file. */
    boolean makes(Object object) {
        String name = object.getClass().getName();
        boolean isSame = name.equals(call.made);
        if (isSame) call.made = name; // so that they are one text from here on
        return isSame || source.isHidden && Source.nameInFile(name).equals(call.made);
    }

    private static synchronized int add(Site site) {
        int number = ++count;
        Site[] sites = number < all.length ? all : Arrays.copyOf(all, 2 * all.length);
        sites[number] = site;
        all = sites;
        return number;
    }

    static Site of(int number) {
        return all[number];
    }

    boolean isOfJdk() {
        return source.isOfJdk;
    }

    /** This place with the program's own line that led there. */
    static int withCaller(int number) {
        return of(number).by(callerInProgram());
    }

    private static String callerInProgram() {
        return walker.walk(frames -> frames.filter(frame -> isOfProgram(frame.getDeclaringClass()) && !isBetween(frame)).findFirst()
                .map(frame -> place(frame)).orElse(""));
    }

    private int by(String caller) {
        return add(new Site(source, method, line, ordinal, "\t" + caller, null));
    }

    /** The same, once for each such line; the place itself if none led there, or if that was looked for often, which takes long. */
    static int ofCall(int number) {
        if (of(number).walks++ >= MOST_WALKS) return number;
        String caller = callerInProgram();
        if (caller.isEmpty()) return number;
        Integer known = calls.get(number + caller);
        if (known == null) calls.put(number + caller, known = of(number).by(caller));
        return known;
    }

    /** (Code that calls constructors by reflection has its own loader.) */
    private static boolean isOfProgram(Class<?> type) {
        return !type.getName().startsWith("jdk.internal.reflect.") && type.getClassLoader() != null
                && type.getClassLoader() != ClassLoader.getPlatformClassLoader();
    }

    private static String place(StackWalker.StackFrame frame) {
        Source source = Source.of(frame.getClassName());
        return source.place(frame.getLineNumber(), visible(source.shortName() + "." + frame.getMethodName()));
    }

    /** The place as text. */
    String place() {
        return innermost() + caller;
    }

    /** The same without the program's own line that led there. */
    String innermost() {
        return source.place(line, visible(source.shortName() + "." + method));
    }

    /** The orders of this place, by which threads are held back. */
    Provoke.Fits fits() {
        Provoke.Fits known = fits;
        if (known == null) known = fits = Provoke.fitsAt(innermost());
        return known;
    }

    /** The callers of the running thread, the innermost first, without those of the recorder. */
    static String[] stack(int most) {
        return walker.walk(frames -> frames.filter(frame -> !frame.getClassName().startsWith("java.lockdep.") && !isBetween(frame))
                .limit(most).map(frame -> place(frame)).toArray(String[]::new));
    }

    /** The number of this place in the file, to which the place is added if it isn't there. */
    int told(Recording recording, StringBuilder text) {
        if (told == 0) told = recording.numberOfPlace(place(), text);
        return told;
    }

    /** The same, for the order of steps. */
    @Within
    int number() {
        return told != 0 ? told : Recording.tellPlace(this);
    }

    /** The class of what is made here. */
    Made made() {
        Made known = made;
        return known != null ? known : addMade();
    }

    @Apart
    private Made addMade() {
        String name = source.className + "." + method + ":" + where();
        return made = Made.of(fitting(name), place(), "made in");
    }

    /** The end of a name: by the line, or if the method has none, by where it is in the code. */
    private String where() {
        if (line <= 0) return "+" + -line;
        if (call == null) return line + suffix(ordinal);
        return line + suffix(OnLine.ordinalOf(source.className, method, call.descriptor, line, call.at));
    }

    /** The class of the threads that are started here. */
    Made ofThreads() {
        Made known = made;
        if (known == null) {
            String name = source.className + "." + method + ":" + where();
            known = made = Made.of(THREAD + fitting(name, MOST_NAME - THREAD.length()), place(), Made.STARTED);
        }
        return known;
    }

    /** A call of a constructor in a class of the program. */
    private static final class Caller {
        private final String method;
        private final String descriptor;
        private final int at;

        Caller(StackWalker.StackFrame frame) {
            method = frame.getMethodName();
            descriptor = frame.getDescriptor();
            at = frame.getByteCodeIndex();
        }

        @Override
        public int hashCode() {
            return method.hashCode() + 31 * at;
        }

        @Override
        public boolean equals(Object other) {
            return other instanceof Caller && at == ((Caller) other).at && method.equals(((Caller) other).method)
                    && descriptor.equals(((Caller) other).descriptor);
        }
    }

    /** The classes of what each class of the program makes, by the calls of constructors. */
    private static final ClassValue<ConcurrentHashMap<Caller, Made>> callers = new ClassValue<>() {
        @Override
        protected ConcurrentHashMap<Caller, Made> computeValue(Class<?> type) {
            return new ConcurrentHashMap<>();
        }
    };

    /**
     * The class of an object whose constructor runs: where it is called. Null if the JDK calls it, as in reflection.
     */
    @Apart
    static Made madeByCaller(Object object) {
        CallerOf caller = new CallerOf(object);
        near.walk(caller);
        return caller.made;
    }

    /** Looks for the caller of an object's constructor, the innermost first. */
    private static final class CallerOf implements Function<Stream<StackWalker.StackFrame>, Void>,
            Consumer<StackWalker.StackFrame> {
        private final Object object;
        private int left = FRAMES_OF_RECORDER;
        private boolean isFound;
        Made made;

        CallerOf(Object object) {
            this.object = object;
        }

        @Override
        public Void apply(Stream<StackWalker.StackFrame> all) {
            Spliterator<StackWalker.StackFrame> frames = all.spliterator();
            while (!isFound && frames.tryAdvance(this)) { }
            return null;
        }

        @Override
        public void accept(StackWalker.StackFrame frame) {
            if (left-- > 0 || isConstructor(frame, object) || isBetween(frame)) return;
            isFound = true;
            made = isOfProgram(frame.getDeclaringClass()) ? madeBy(frame) : null;
        }
    }

    @Apart
    private static Made madeBy(StackWalker.StackFrame frame) {
        ConcurrentHashMap<Caller, Made> known = callers.get(frame.getDeclaringClass());
        Caller caller = new Caller(frame);
        Made made = known.get(caller);
        if (made != null) return made;
        made = Made.of(fitting(nameOf(frame)), place(frame), "made in");
        known.put(caller, made);
        return made;
    }

    private static boolean isConstructor(StackWalker.StackFrame frame, Object object) {
        return frame.getDeclaringClass().isInstance(object) && frame.getMethodName().equals("<init>");
    }

    /** The end of a name: which of the line's objects it is, unless it is the first. */
    private static String suffix(int ordinal) {
        return ordinal > 1 ? "." + ordinal : "";
    }

    /** A place as a name: by its line, or if its class has no lines, by where it is in the code. */
    private static String nameOf(StackWalker.StackFrame frame) {
        int line = frame.getLineNumber();
        String where = line > 0 ? line + suffix(OnLine.ordinalOf(frame)) : "+" + OnLine.placeOf(frame);
        return Source.nameInFile(frame.getClassName()) + "." + frame.getMethodName() + ":" + where;
    }

    static String placeOfClass(String className) {
        Source source = Source.of(className);
        return source.place(0, visible(source.shortName()));
    }

    /** The place of an array's type: that of the class of its elements. Numbers and the like have none, but a name. */
    static String placeOfArray(String name) {
        String element = name.substring(0, name.indexOf('['));
        Source source = Source.of(element);
        String shortName = source.shortName() + name.substring(element.length());
        return element.indexOf('.') < 0 && Character.isLowerCase(element.charAt(0)) ? shortName : source.place(0, visible(shortName));
    }

    /** A name without spaces and the like, as required for fields of the file. */
    private static String visible(String text) {
        return Source.onOneLine(text).replace(' ', '?');
    }

    /** A name whose packages are shortened to their first letters, one after the other, until it fits. */
    static String fitting(String name) {
        return fitting(name, MOST_NAME);
    }

    private static String fitting(String name, int most) {
        String rest = visible(name);
        StringBuilder begin = new StringBuilder();
        int dot = rest.indexOf('.');
        while (begin.length() + rest.length() > most && dot > 0 && Character.isLowerCase(rest.charAt(0))) {
            begin.append(rest.charAt(0)).append('.');
            rest = rest.substring(dot + 1);
            dot = rest.indexOf('.');
        }
        return begin + rest;
    }
}
