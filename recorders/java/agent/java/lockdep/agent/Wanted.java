package java.lockdep.agent;

import java.lockdep.Provoke;
import java.util.Map;
import java.util.Set;

/** Which methods of a class may have something to rewrite, and what else rewriting them has to know. */
final class Wanted {
    /** Classes of the JDK whose objects are locks, or are often used as such: where they are made is always noted. */
    private static final Words LOCKS = new Words(Set.of("java/lang/Object", "java/util/Vector", "java/util/Stack",
            "java/util/Hashtable",
            "java/util/Properties", Hierarchy.LOCKS + "ReentrantLock", Hierarchy.LOCKS + "ReentrantReadWriteLock",
            Hierarchy.LOCKS + "StampedLock"));
    private static final Words BUFFER = new Words(Set.of(Locking.BUFFER));

    private static final String JAVA = "java/";

    /** In a method with more code than this, constructors aren't told where they are called. */
    private static final int LONGEST = 30000;

    final Hierarchy hierarchy;
    final Locking locking;
    /** Whether constructors that are called are told where. */
    private final boolean tells;
    /** Whether string buffers are recorded. Otherwise they aren't noted, since there are too many of them. */
    private final boolean hasBuffers;
    private final ClassFile type;
    /** What its methods do by which threads tell one another something. */
    final Map<String, Telling> tellings;
    /** The constants of the class that make an instruction with them one that may be rewritten. */
    private final boolean[] constants;

    Wanted(ClassFile type, Hierarchy hierarchy, Locking locking, boolean tells, boolean hasBuffers, boolean isOnlyTold) {
        this.type = type;
        tellings = Telling.of(type.name);
        this.tells = tells;
        this.hierarchy = hierarchy;
        this.locking = locking;
        this.hasBuffers = hasBuffers;
        constants = new boolean[type.countOfConstants()];
        if (!isOnlyTold) lookAtConstants();
        for (ClassFile.Method method : type.methods) {
            if (!isOnlyTold) look(method);
            method.isWanted |= tellings.containsKey(method.name() + method.descriptor());
        }
    }

    private void lookAtConstants() {
        boolean hasReference = false;
        for (int each = 1; each < constants.length; each++) {
            constants[each] = mayMatter(each);
            if (type.kind(each) == ClassFile.METHOD && Calls.isStop(type, each)) Provoke.noteStop();
            hasReference |= type.kind(each) == ClassFile.HANDLE && Calls.mayBeReference(type, each);
        }
        if (hasReference) addDynamicCalls();
    }

    /** Whether any method may be rewritten. */
    boolean hasAny() {
        for (ClassFile.Method method : type.methods) {
            if (method.isWanted) return true;
        }
        return false;
    }

    /** Whether an instruction with one of the class's constants may be rewritten. */
    boolean matters(int constant) {
        return constants[constant];
    }

    private boolean mayMatter(int constant) {
        switch (type.kind(constant)) {
            case ClassFile.CLASS:
                int name = type.part(constant, 1);
                return LOCKS.has(type, name) || hasBuffers && BUFFER.has(type, name);
            case ClassFile.METHOD:
            case ClassFile.METHOD_OF_INTERFACE:
                return Calls.mayMatter(type, constant) || tells && isToldConstructor(constant);
            case ClassFile.FIELD: // what is made may be kept there
                return locking.locksFields() && locking.isLocked(type.owner(constant), type.nameOfMember(constant));
            default:
                return false;
        }
    }

    private boolean isToldConstructor(int method) {
        int owner = type.part(type.part(method, 1), 1);
        return type.isConstructor(method) && !type.begins(owner, JAVA) && hierarchy.isOfItself(type.text(owner));
    }

    private void addDynamicCalls() {
        for (int each = 1; each < constants.length; each++) constants[each] |= type.kind(each) == ClassFile.DYNAMIC_CALL;
    }

    private void look(ClassFile.Method method) {
        method.isWanted = method.isSynchronized() || method.isConstructor && locking.isOfItself();
        byte[] bytes = type.bytes;
        for (int at = method.start; at < method.end && !method.isWanted; at = type.after(at, method)) {
            int opcode = bytes[at] & 255;
            if (opcode >= Opcodes.PUTSTATIC) method.isWanted = matters(opcode, at);
        }
    }

    private boolean matters(int opcode, int at) {
        if (opcode > Opcodes.NEW) return opcode == Opcodes.MONITORENTER || opcode == Opcodes.MONITOREXIT;
        return opcode != Opcodes.GETFIELD && constants[type.number(at + 1)];
    }

    /** Whether a constructor that is called in a method is told where. */
    boolean isTold(ClassFile.Method method, int called) {
        return constants[called] && method.end - method.start < LONGEST;
    }
}
