package java.lockdep.agent;

import java.util.HashMap;
import java.util.Map;

/**
 * How deep the stack is on the way from one instruction to the call of a constructor behind it. Compilers leave an object
 * there until its constructor is called; a class that is made by hand, or by a tool that shrinks programs, may not.
 */
final class Depth {
    /** How many words each kind of instruction takes from the stack, and puts there; `?` where a constant says that. */
    private static final String TAKEN =
            "00000000000000000000000000000000000000000000002222222212121111122221111222211113434333312123234224242"
            + "42424242424242412122323232424240111222111222111422441111112222222200011121210?????????011111111??1100";
    private static final String PUT =
            "01111111122111221111212121111122221111222211111212111100000000000000000000000000000000000234456212121"
            + "21212121212121212121212121212120212112122121111111110000000000000001000000000?????????111101100??0001";

    private final ClassFile type;
    private final ClassFile.Method method;
    /** How deep the stack is where jumps go, by the places of these. */
    private final Map<Integer, Integer> targets = new HashMap<>();
    private int begin;
    private int end;

    Depth(ClassFile type, ClassFile.Method method) {
        this.type = type;
        this.method = method;
    }

    /**
     * Whether the uppermost words of the stack stay there from one instruction to a call, which takes the last of them: no
     * instruction between the two touches them, and none is reached but from there.
     */
    boolean stays(int words, int from, int call) {
        targets.clear();
        begin = from;
        end = call;
        int depth = words;
        for (int at = from; at < call; at = type.after(at, method)) {
            Integer known = targets.get(at);
            if (known != null) depth = known;
            depth = depth < 0 ? -1 : depthAfter(at, words, depth);
            if (depth < 0) return false;
            if (Jumps.isEnd(type.opcode(at))) depth = targets.getOrDefault(type.after(at, method), -1);
        }
        return depth == words + wordsOf(type.descriptor(type.number(call + 1)));
    }

    /** How deep the stack is after an instruction; -1 if it touches what has to stay, or jumps away. */
    private int depthAfter(int at, int words, int depth) {
        int left = depth - taken(at);
        if (left < words || isReturnOfSubroutine(at)) return -1;
        int after = left + put(at);
        return notes(at, after) ? after : -1;
    }

    private boolean isReturnOfSubroutine(int at) {
        return type.opcode(type.opcode(at) == Opcodes.WIDE ? at + 1 : at) == Opcodes.RET;
    }

    /** Notes how deep the stack is where an instruction jumps to. Returns whether all of that is on the way. */
    private boolean notes(int at, int depth) {
        boolean areNoted = true;
        for (int target : Jumps.targets(type, method, at)) areNoted &= note(target, depth);
        return areNoted;
    }

    private boolean note(int target, int depth) {
        if (target > begin) targets.put(target, depth);
        return target >= begin && target <= end;
    }

    private int taken(int at) {
        int opcode = type.opcode(at);
        if (opcode == Opcodes.WIDE) return TAKEN.charAt(type.opcode(at + 1)) - '0';
        if (opcode == Opcodes.MULTIANEWARRAY) return type.opcode(at + 3);
        if (opcode >= Opcodes.GETSTATIC && opcode <= Opcodes.PUTFIELD) return takenByField(opcode, at);
        if (opcode < Opcodes.INVOKEVIRTUAL || opcode > Opcodes.INVOKEDYNAMIC) return TAKEN.charAt(opcode) - '0';
        boolean hasObject = opcode != Opcodes.INVOKESTATIC && opcode != Opcodes.INVOKEDYNAMIC;
        return wordsOf(type.descriptor(type.number(at + 1))) + (hasObject ? 1 : 0);
    }

    private int takenByField(int opcode, int at) {
        int object = opcode >= Opcodes.GETFIELD ? 1 : 0;
        boolean isPut = opcode == Opcodes.PUTSTATIC || opcode == Opcodes.PUTFIELD;
        return isPut ? object + sizeOf(type.descriptor(type.number(at + 1)), 0) : object;
    }

    private int put(int at) {
        int opcode = type.opcode(at);
        if (opcode == Opcodes.WIDE) return PUT.charAt(type.opcode(at + 1)) - '0';
        if (opcode == Opcodes.MULTIANEWARRAY) return 1;
        if (opcode < Opcodes.GETSTATIC || opcode > Opcodes.INVOKEDYNAMIC) return PUT.charAt(opcode) - '0';
        if (opcode == Opcodes.PUTSTATIC || opcode == Opcodes.PUTFIELD) return 0;
        String descriptor = type.descriptor(type.number(at + 1));
        return sizeOf(descriptor, descriptor.indexOf(')') + 1);
    }

    /** How many words a type of a descriptor has on the stack. */
    private static int sizeOf(String descriptor, int at) {
        char kind = descriptor.charAt(at);
        if (kind == 'V') return 0;
        return kind == 'J' || kind == 'D' ? 2 : 1;
    }

    /** How many words a call's arguments are. */
    private static int wordsOf(String descriptor) {
        int words = 0;
        for (int at = 1; descriptor.charAt(at) != ')'; at++) {
            words += sizeOf(descriptor, at);
            while (descriptor.charAt(at) == '[') at++;
            if (descriptor.charAt(at) == 'L') at = descriptor.indexOf(';', at);
        }
        return words;
    }
}
