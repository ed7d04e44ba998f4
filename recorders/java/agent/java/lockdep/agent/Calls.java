package java.lockdep.agent;

import java.lang.invoke.LambdaMetafactory;
import java.util.HashMap;
import java.util.HashSet;
import java.util.List;
import java.util.Map;
import java.util.Set;

/** The calls that are replaced by those of Hooks, which also get the object and the place of the call. */
final class Calls {
    static final String HOOKS = "java/lockdep/Hooks";
    static final String REFERENCES = "java/lockdep/References";
    static final String HIDDEN = "java/lockdep/agent/Hidden";
    static final String LOOKUP = "java/lang/invoke/MethodHandles$Lookup";
    static final String OPTIONS = "[L" + LOOKUP + "$ClassOption;";

    private static final String LOCK = Hierarchy.LOCKS + "Lock";
    private static final String CONDITION = Hierarchy.LOCKS + "Condition";
    private static final String STAMPED = Hierarchy.LOCKS + "StampedLock";
    private static final String UNIT = "Ljava/util/concurrent/TimeUnit;";

    private static final Set<String> OF_LOCK = Set.of("lock()V", "lockInterruptibly()V", "tryLock()Z",
            "tryLock(J" + UNIT + ")Z", "unlock()V");
    private static final Set<String> OF_CONDITION = Set.of("await()V", "await(J" + UNIT + ")Z", "awaitNanos(J)J",
            "awaitUninterruptibly()V",
            "awaitUntil(Ljava/util/Date;)Z", "signal()V", "signalAll()V");
    private static final Set<String> OF_STAMPED = Set.of("writeLock()J", "readLock()J", "writeLockInterruptibly()J",
            "readLockInterruptibly()J", "tryWriteLock()J", "tryReadLock()J", "tryWriteLock(J" + UNIT + ")J",
                    "tryReadLock(J" + UNIT + ")J",
            "unlockWrite(J)V", "unlockRead(J)V", "unlock(J)V", "tryUnlockWrite()Z", "tryUnlockRead()Z",
                    "tryConvertToWriteLock(J)J",
            "tryConvertToReadLock(J)J", "tryConvertToOptimisticRead(J)J");
    private static final Map<String, String> VIEWS = new HashMap<>();
    private static final Set<String> WAITS = Set.of("wait()V", "wait(J)V", "wait(JI)V", "notify()V", "notifyAll()V");
    private static final Set<String> OF_THREAD = Set.of("start()V", "join()V", "join(J)V", "join(JI)V");
    private static final String PROCESS_BUILDER = "java/lang/ProcessBuilder";
    private static final String PIPELINE = "startPipeline";
    private static final String STARTS_PROCESS = "start()Ljava/lang/Process;";
    static final String THREAD = "java/lang/Thread";
    /** What makes a thread and starts it at once, since Java 21. */
    private static final String BUILDER = THREAD + "$Builder";
    static final String OF_VIRTUAL = BUILDER + "$OfVirtual";
    private static final Set<String> BUILDERS = Set.of(BUILDER, BUILDER + "$OfPlatform", OF_VIRTUAL);
    private static final String MAKES_AND_STARTS = "start(Ljava/lang/Runnable;)L" + THREAD + ";";
    private static final String STARTS_VIRTUAL = "startVirtualThread(Ljava/lang/Runnable;)L" + THREAD + ";";

    static {
        for (String view : new String[] {"asReadLock()L" + LOCK + ";", "asWriteLock()L" + LOCK + ";",
            "asReadWriteLock()L" + Hierarchy.LOCKS + "ReadWriteLock;"}) {
            VIEWS.put(view, STAMPED);
        }
    }

    /** Constructors of what is often a lock, to which there may be references. */
    private static final Set<String> MAKERS = Set.of("java/lang/Object()V", "java/util/Vector()V", "java/util/Vector(Ljava/util/Collection;)V",
            "java/util/Stack()V", "java/util/Hashtable()V", "java/util/Properties()V", Hierarchy.LOCKS + "ReentrantLock()V",
            Hierarchy.LOCKS + "ReentrantLock(Z)V", Hierarchy.LOCKS + "ReentrantReadWriteLock()V",
            Hierarchy.LOCKS + "ReentrantReadWriteLock(Z)V", STAMPED + "()V");
    private static final String METAFACTORY = "java/lang/invoke/LambdaMetafactory";
    /** Which of the words of its other method has flags. */
    private static final int FLAGS = 3;
    /** Since Java 19. */
    private static final String JOIN_FOR = "join(Ljava/time/Duration;)Z";
    private static final Set<String> OF_UNIT = Set.of("timedWait(Ljava/lang/Object;J)V", "timedJoin(Ljava/lang/Thread;J)V");
    private static final Set<String> OF_RUNTIME = Set.of("halt(I)V");
    private static final String WITH_DATA = "defineHiddenClassWithClassData([BLjava/lang/Object;Z" + OPTIONS + ")L" + LOOKUP + ";";
    private static final Set<String> OF_LOOKUP = Set.of("defineHiddenClass([BZ" + OPTIONS + ")L" + LOOKUP + ";", WITH_DATA);
    private static final String MAKER = "newCondition()L" + CONDITION + ";";
    private static final Set<String> STAYING = Set.of("lock()V", "unlock()V", "tryLock()Z", MAKER, "start()V");
    private static final Words STARTERS = new Words(Set.of("java/lang/Runtime", PROCESS_BUILDER));
    private static final Words COLLECTIONS = new Words(Set.of("java/util/Collections"));
    private static final Words STOPS = new Words(Set.of("stop"));
    private static final Set<String> SIGNATURES =
            new HashSet<>(Set.of(MAKER, JOIN_FOR, MAKES_AND_STARTS, STARTS_VIRTUAL, STARTS_PROCESS));
    /** The names of all calls that are rewritten. */
    private static final Words NAMES;

    static {
        for (Set<String> some : List.of(OF_LOCK, OF_CONDITION, OF_STAMPED, VIEWS.keySet(), WAITS, OF_THREAD, OF_UNIT, OF_RUNTIME, OF_LOOKUP)) {
            SIGNATURES.addAll(some);
        }
        Set<String> names = new HashSet<>(Set.of("start", "exec", PIPELINE));
        for (String signature : SIGNATURES) names.add(signature.substring(0, signature.indexOf('(')));
        NAMES = new Words(names);
    }

    private Calls() {
    }

    /** A call in a method: its instruction, and what it calls. */
    static final class Call {
        final int opcode;
        final String owner;
        final String name;
        final String descriptor;

        Call(int opcode, String owner, String name, String descriptor) {
            this.opcode = opcode;
            this.owner = owner;
            this.name = name;
            this.descriptor = descriptor;
        }
    }

    /** Whether a method of a class's constants may be one whose calls are rewritten. */
    static boolean mayMatter(ClassFile type, int method) {
        int owner = type.part(type.part(method, 1), 1);
        int name = type.part(type.part(method, 3), 1);
        if (COLLECTIONS.has(type, owner)) return type.text(name).startsWith("synchronized");
        return NAMES.has(type, name) && (STARTERS.has(type, owner) || isReplaced(type, method));
    }

    /** Whether a method of a class's constants is the one that stops a thread. */
    static boolean isStop(ClassFile type, int method) {
        return STOPS.has(type, type.part(type.part(method, 3), 1)) && type.owner(method).equals(THREAD);
    }

    private static boolean isReplaced(ClassFile type, int method) {
        return SIGNATURES.contains(type.nameOfMember(method).concat(type.descriptor(method)));
    }

    /** Whether a handle of a class's constants is one to a call that is replaced, or to a constructor of a lock. */
    static boolean mayBeReference(ClassFile type, int handle) {
        int kind = type.kindOfHandle(handle);
        int method = type.part(handle, 2);
        if (isMaker(type, handle)) return MAKERS.contains(type.owner(method).concat(type.descriptor(method)));
        if (kind != Opcodes.H_INVOKEVIRTUAL && kind != Opcodes.H_INVOKEINTERFACE) return false;
        return NAMES.has(type, type.part(type.part(method, 3), 1)) && isReplaced(type, method);
    }

    /** The type that the method of References has for the object of what is called; null if a reference to it stays. */
    static String receiverOfReference(Call call, Hierarchy hierarchy) {
        boolean startsProcess = call.owner.equals(PROCESS_BUILDER) && STARTS_PROCESS.equals(call.name + call.descriptor);
        return startsProcess ? PROCESS_BUILDER : receiver(call, hierarchy);
    }

    /** What a reference calls, if it isn't one to a constructor. */
    static Call referred(ClassFile type, int handle) {
        int method = type.part(handle, 2);
        int opcode = type.kindOfHandle(handle) == Opcodes.H_INVOKEINTERFACE ? Opcodes.INVOKEINTERFACE : Opcodes.INVOKEVIRTUAL;
        return new Call(opcode, type.owner(method), type.nameOfMember(method), type.descriptor(method));
    }

    /** The method of References that makes an object of a class. */
    static String nameOfMaker(String owner) {
        return "new" + owner.substring(owner.lastIndexOf('/') + 1);
    }

    /** Whether a handle is one to a constructor. */
    static boolean isMaker(ClassFile type, int handle) {
        return type.kindOfHandle(handle) == Opcodes.H_NEWINVOKESPECIAL;
    }

    /**
     * Whether a bootstrap method is the one of references: another one may look at what it gets. An object that may be
     * serialised has the name of the method in it, and stays as it is.
     */
    static boolean makesReference(ClassFile type, int bootstrap) {
        int method = type.part(type.number(bootstrap), 2);
        if (!type.owner(method).equals(METAFACTORY)) return false;
        if (type.nameOfMember(method).equals("metafactory")) return true;
        boolean hasFlags = type.number(bootstrap + 2) > FLAGS && type.kind(type.number(bootstrap + 4 + 2 * FLAGS)) == ClassFile.INTEGER;
        return hasFlags && (type.value(type.number(bootstrap + 4 + 2 * FLAGS)) & LambdaMetafactory.FLAG_SERIALIZABLE) == 0;
    }

    /** The type that the call of Hooks has for the call's object; null if the call isn't recorded. */
    static String receiver(Call call, Hierarchy hierarchy) {
        if (call.opcode < Opcodes.INVOKEVIRTUAL || call.opcode > Opcodes.INVOKEINTERFACE || call.opcode == Opcodes.INVOKESTATIC) return null;
        if (!NAMES.has(call.name)) return null;
        String signature = call.name + call.descriptor;
        if (WAITS.contains(signature)) return "java/lang/Object";
        // (as an object of any class, so that the JVM needn't load that class to see that it is a thread, which no
        // interface is)
        if (OF_THREAD.contains(signature) || signature.equals(JOIN_FOR)) {
            boolean mayBeThread = call.opcode != Opcodes.INVOKEINTERFACE && hierarchy.isThread(call.owner);
            return mayBeThread ? "java/lang/Object" : null;
        }
        if (OF_LOCK.contains(signature)) return isLock(call.owner, hierarchy) ? LOCK : null;
        if (signature.equals(MAKER)) return isLock(call.owner, hierarchy) ? LOCK : null;
        if (OF_CONDITION.contains(signature)) return call.owner.equals(CONDITION) ? CONDITION : null;
        if (OF_STAMPED.contains(signature) || VIEWS.containsKey(signature)) return hierarchy.isStamped(call.owner) ? STAMPED : null;
        if (OF_UNIT.contains(signature)) return call.owner.equals("java/util/concurrent/TimeUnit") ? call.owner : null;
        return OF_RUNTIME.contains(signature) && call.owner.equals("java/lang/Runtime") ? "java/lang/Runtime" : null;
    }

    /**
     * Whether a call stays, and calls of Hooks are put before or after it, which get its object and its place: then nothing
     * of the recorder is among the frames of what it calls, and an error, as for null, says what it says without it.
     */
    static boolean stays(Call call) {
        return STAYING.contains(call.name + call.descriptor);
    }

    /** Whether the call of Hooks gets the place of the call. */
    static boolean hasSite(Call call) {
        return !call.name.equals("newCondition") && !call.name.equals("halt")
                && !VIEWS.containsKey(call.name + call.descriptor);
    }

    /**
     * Whether a call is one through `super` of a method that may be overridden. (Others are as if the object were another
     * one.)
     */
    static boolean isThroughSuper(Call call) {
        return call.opcode == Opcodes.INVOKESPECIAL && !WAITS.contains(call.name + call.descriptor) && !call.name.equals("join");
    }

    /** Whether calls of a method are recorded, so that what it calls through `super` is part of that. */
    static boolean isRecordedOutside(String owner, String name, String descriptor, Hierarchy hierarchy) {
        return receiver(new Call(Opcodes.INVOKEVIRTUAL, owner, name, descriptor), hierarchy) != null;
    }

    private static boolean isLock(String owner, Hierarchy hierarchy) {
        return Hierarchy.LOCK.contains(owner) || !owner.startsWith("java/") && hierarchy.isLock(owner);
    }

    /** Whether a call of a lock releases it, or changes how it is held. */
    static boolean isRelease(String name) {
        return name.startsWith("unlock") || name.startsWith("tryUnlock") || name.startsWith("tryConvert");
    }

    /** Whether a call of Collections returns an object that locks itself. */
    static boolean isWrapper(Call call) {
        return call.opcode == Opcodes.INVOKESTATIC && call.name.startsWith("synchronized") && call.descriptor.endsWith(";");
    }

    /**
     * What makes a reference, with its place as the first word, and of this class if it already has its object; null if it
     * has more than that.
     */
    static String withPlace(String descriptor, String receiver) {
        int end = descriptor.indexOf(')');
        if (end == 1) return "(I" + descriptor.substring(end);
        int kind = 1;
        while (descriptor.charAt(kind) == '[') kind++;
        boolean isNamed = descriptor.charAt(kind) == 'L';
        boolean isOne = end == 1 + (isNamed ? descriptor.indexOf(';') : kind);
        return isOne && (isNamed || kind > 1) ? "(IL" + receiver + ";" + descriptor.substring(end) : null;
    }

    /** Whether a call defines a hidden class. */
    static boolean definesHidden(Call call) {
        return call.opcode == Opcodes.INVOKEVIRTUAL && call.owner.equals(LOOKUP) && OF_LOOKUP.contains(call.name + call.descriptor);
    }

    /** Whether such a call has a value for the class behind the class's bytes. */
    static boolean hasData(Call call) {
        return WITH_DATA.equals(call.name + call.descriptor);
    }

    /** Whether a call makes a thread and starts it. (A class below Thread may have a method of its own that is called so.) */
    static boolean makesAndStarts(Call call) {
        String signature = call.name + call.descriptor;
        if (call.opcode == Opcodes.INVOKESTATIC) return call.owner.equals(THREAD) && signature.equals(STARTS_VIRTUAL);
        return call.opcode == Opcodes.INVOKEINTERFACE && BUILDERS.contains(call.owner) && signature.equals(MAKES_AND_STARTS);
    }

    /** Whether a call starts programs by a builder, or a list of these. */
    static boolean startsByBuilder(Call call) {
        boolean isOne = call.opcode == Opcodes.INVOKEVIRTUAL && call.name.equals("start") && call.descriptor.startsWith("()");
        boolean isList = call.opcode == Opcodes.INVOKESTATIC && call.name.equals(PIPELINE) && call.descriptor.startsWith("(Ljava/util/List;)");
        return call.owner.equals(PROCESS_BUILDER) && (isOne || isList);
    }

    /** How far down on the stack a call has the words that it starts a program by, under an environment, and a folder; 0 if it starts none. */
    static int depthOfWords(Call call) {
        boolean hasWords = call.descriptor.startsWith("(Ljava/lang/String;") || call.descriptor.startsWith("([Ljava/lang/String;");
        boolean isStart = call.opcode == Opcodes.INVOKEVIRTUAL && call.owner.equals("java/lang/Runtime") && call.name.equals("exec");
        if (!isStart || !hasWords) return 0;
        if (call.descriptor.contains(";[Ljava/lang/String;Ljava/io/File;)")) return 3;
        return call.descriptor.contains(";[L") ? 2 : 1;
    }
}
