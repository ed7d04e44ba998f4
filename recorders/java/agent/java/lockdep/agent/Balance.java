package java.lockdep.agent;

import java.util.Arrays;

/**
 * Whether a method may return, or throw something, with a monitor held that it has entered by an instruction. No compiler makes
 * that: the virtual machine exits the monitor then and throws an error, and no instruction says so.
 */
final class Balance {
    /** It isn't known how many monitors are held at an instruction, or there are several answers. */
    private static final int UNKNOWN = -1;
    private static final int SEVERAL = -2;

    private final ClassFile type;
    private final ClassFile.Method method;
    /** How many monitors are held at each instruction that is reached without an error, and from before it in the code. */
    private final int[] held;

    Balance(ClassFile type, ClassFile.Method method) {
        this.type = type;
        this.method = method;
        held = new int[method.end - method.start + 1];
    }

    boolean endsWithMonitor() {
        Arrays.fill(held, UNKNOWN);
        note(method.start, 0);
        boolean hasFound = false;
        for (int at = method.start; at < method.end && !hasFound; at = type.after(at, method)) {
            int count = held[at - method.start];
            if (count < 0) continue;
            int opcode = type.opcode(at);
            boolean isReturn = opcode >= Opcodes.IRETURN && opcode <= Opcodes.RETURN;
            hasFound = count > 0 && (isReturn || opcode == Opcodes.ATHROW && !isHandled(at - method.start));
            pass(at, opcode, count);
        }
        return hasFound;
    }

    /** Whether something that is thrown at a place may be caught. */
    private boolean isHandled(int place) {
        boolean hasFound = false;
        int next = method.end + 2;
        for (int left = type.number(method.end); left > 0; left--, next += 8) {
            hasFound |= type.number(next) <= place && place < type.number(next + 2);
        }
        return hasFound;
    }

    /** Notes how many are held where an instruction leads to. */
    private void pass(int at, int opcode, int before) {
        int count = opcode == Opcodes.MONITORENTER ? before + 1 : opcode == Opcodes.MONITOREXIT ? before - 1 : before;
        for (int target : Jumps.targets(type, method, at)) note(target, count);
        if (!Jumps.isEnd(opcode)) note(type.after(at, method), count);
    }

    /** (An exit of a monitor that isn't held is an error as well, and leads nowhere.) */
    private void note(int at, int count) {
        int place = at - method.start;
        if (count >= 0) held[place] = held[place] == UNKNOWN || held[place] == count ? count : SEVERAL;
    }
}
