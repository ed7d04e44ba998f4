package java.lockdep.agent;

import java.util.Arrays;
import java.util.HashSet;
import java.util.Set;

/** What a class does with monitors, which says where objects that are used as locks are made. */
final class Locking {
    static final String BUFFER = "java/lang/StringBuffer";
    private static final Set<String> ABOVE = Set.of(BUFFER, "java/util/Vector", "java/util/Stack",
            "java/util/Hashtable", "java/util/Properties",
            Hierarchy.LOCKS + "ReentrantLock", Hierarchy.LOCKS + "ReentrantReadWriteLock",
                    Hierarchy.LOCKS + "StampedLock");

    private final ClassFile type;
    private boolean locksThis;
    /** The fields of this class and of others whose objects it locks. */
    private final Set<String> fields = new HashSet<>();

    Locking(ClassFile type) {
        this.type = type;
        locksThis = ABOVE.contains(type.name) || ABOVE.contains(type.superName)
                || Arrays.asList(type.interfaces).contains(Hierarchy.LOCKS + "Lock");
        for (ClassFile.Method method : type.methods) {
            locksThis |= method.isSynchronized() && !method.isStatic();
            look(method);
        }
    }

    /** Whether this class takes the monitor of its own objects, or they are locks. */
    boolean isOfItself() {
        return locksThis;
    }

    boolean locksFields() {
        return !fields.isEmpty();
    }

    boolean isLocked(String owner, String field) {
        return fields.contains(owner + "." + field);
    }

    private void look(ClassFile.Method method) {
        int before = 0;
        int beforeThat = 0;
        int first = 0;
        byte[] bytes = type.bytes;
        for (int at = method.start; at < method.end; at = type.after(at, method)) {
            if (bytes[at] == (byte) Opcodes.MONITORENTER) noteMonitor(method, operand(before, beforeThat, first));
            first = beforeThat;
            beforeThat = before;
            before = at;
        }
    }

    /** The instruction that puts the object of a monitorenter on the stack: the compiler keeps a copy for the exit. */
    private int operand(int before, int beforeThat, int first) {
        if (before == 0 || !isStore(before)) return before;
        return beforeThat > 0 && type.opcode(beforeThat) == Opcodes.DUP ? first : beforeThat;
    }

    private boolean isStore(int at) {
        int opcode = type.opcode(at) == Opcodes.WIDE ? type.opcode(at + 1) : type.opcode(at);
        return opcode == Opcodes.ASTORE || opcode >= Opcodes.ASTORE_0 && opcode < Opcodes.ASTORE_0 + 4;
    }

    /** A monitor is that of the object itself, or that of a field, which is noted, or another one. */
    private void noteMonitor(ClassFile.Method method, int operand) {
        int opcode = operand == 0 ? 0 : type.opcode(operand);
        if (opcode >= Opcodes.GETSTATIC && opcode <= Opcodes.PUTFIELD) {
            int field = type.number(operand + 1);
            fields.add(type.owner(field) + "." + type.nameOfMember(field));
        }
        boolean isFirst = opcode == Opcodes.ALOAD_0 || opcode == Opcodes.ALOAD && type.bytes[operand + 1] == 0;
        locksThis |= isFirst && !method.isStatic();
    }
}
