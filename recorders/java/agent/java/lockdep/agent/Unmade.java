package java.lockdep.agent;

import java.util.ArrayDeque;
import java.util.HashSet;
import java.util.Set;

/**
 * Whether a method may enter the monitor of an object whose constructor wasn't called yet. No compiler makes that, and from
 * version 50 on the virtual machine allows it, but not that such an object is handed to a call, as the recorder's.
 */
final class Unmade {
    /** Kinds of frames, and what they say of an object whose constructor wasn't called. */
    private static final int SAME = 63;
    private static final int ONE_ON_STACK = 127;
    private static final int ONE_ON_STACK_FAR = 247;
    private static final int SAME_FAR = 251;
    private static final int FULL = 255;
    private static final int THIS = 6;
    private static final int OTHER = 8;

    private final ClassFile type;
    private final ClassFile.Method method;
    /** The variables that may have such an object. */
    private final Set<Integer> variables = new HashSet<>();
    /** The objects that are being made where the code is looked at, and whether `this` is one of them. */
    private final ArrayDeque<Integer> news = new ArrayDeque<>();
    private boolean isThisUnmade;
    /** The next frame in the file, how many are left, and where in the code the last one is. */
    private int frame;
    private int framesLeft;
    private int placeOfFrame = -1;
    /** Whether such an object is among the variables of the last frame. */
    private boolean isInFrame;

    Unmade(ClassFile type, ClassFile.Method method) {
        this.type = type;
        this.method = method;
    }

    /** Whether a monitor of the method may be one of such an object. Most methods needn't be asked: they have no monitor, or make no object. */
    boolean mayBeLocked() {
        if (type.version < Opcodes.V1_6) return false;
        isThisUnmade = isInFrame = method.isConstructor;
        if (isThisUnmade) variables.add(0);
        while (addVariables()) { }
        findFrames();
        int before = 0;
        int beforeThat = 0;
        int first = 0;
        for (int at = method.start; at < method.end; at = type.after(at, method)) {
            if (isOddFrame(at) || isMonitor(at) && isAnyUnmade() && !isMade(before, beforeThat, first)) return true;
            pass(at);
            first = beforeThat;
            beforeThat = before;
            before = at;
        }
        return false;
    }

    private boolean isMonitor(int at) {
        return type.opcode(at) == Opcodes.MONITORENTER || type.opcode(at) == Opcodes.MONITOREXIT;
    }

    // ---- What is being made.

    private boolean isAnyUnmade() {
        return isThisUnmade || !news.isEmpty();
    }

    private void pass(int at) {
        int opcode = type.opcode(at);
        if (opcode == Opcodes.NEW) news.push(at);
        if (opcode != Opcodes.INVOKESPECIAL || !type.isConstructor(type.number(at + 1))) return;
        String made = type.owner(type.number(at + 1));
        if (news.isEmpty()) isThisUnmade = false;
        else if (type.nameOfClass(type.number(news.peek() + 1)).equals(made)) news.pop();
    }

    // ---- Values, which are known by the instructions that end with them.

    /** Whether the object of a monitor is one that was made: what is before it puts that on the stack, perhaps with a copy in a variable. */
    private boolean isMade(int before, int beforeThat, int first) {
        if (before == 0) return false;
        if (storedBy(before) < 0) return isMade(before);
        return beforeThat > 0 && type.opcode(beforeThat) == Opcodes.DUP && isMade(first);
    }

    private boolean isMade(int at) {
        if (at == 0) return false;
        int opcode = type.opcode(at);
        int loaded = loadedBy(at);
        if (loaded >= 0) return !variables.contains(loaded);
        if (opcode >= Opcodes.INVOKEVIRTUAL && opcode <= Opcodes.INVOKEDYNAMIC) return returnsObject(at);
        return opcode == Opcodes.GETSTATIC || opcode == Opcodes.GETFIELD || opcode == Opcodes.LDC || opcode == Opcodes.LDC + 1
                || opcode == Opcodes.CHECKCAST || opcode == Opcodes.AALOAD || opcode == Opcodes.ACONST_NULL;
    }

    private boolean returnsObject(int at) {
        String descriptor = type.descriptor(type.number(at + 1));
        return descriptor.endsWith(";") || descriptor.contains(")[");
    }

    private int loadedBy(int at) {
        return variableOf(at, Opcodes.ALOAD, Opcodes.ALOAD_0);
    }

    private int storedBy(int at) {
        return variableOf(at, Opcodes.ASTORE, Opcodes.ASTORE_0);
    }

    /** The variable of an instruction of a kind; -1 if it is none. */
    private int variableOf(int at, int kind, int shortKind) {
        int opcode = type.opcode(at);
        if (opcode >= shortKind && opcode < shortKind + 4) return opcode - shortKind;
        if (opcode == kind) return type.opcode(at + 1);
        return opcode == Opcodes.WIDE && type.opcode(at + 1) == kind ? type.number(at + 2) : -1;
    }

    /** Adds the variables that get a value that may be such an object. Returns whether there are more than before. */
    private boolean addVariables() {
        int count = variables.size();
        int before = 0;
        int beforeThat = 0;
        for (int at = method.start; at < method.end; at = type.after(at, method)) {
            int stored = storedBy(at);
            boolean isCopied = before > 0 && type.opcode(before) == Opcodes.DUP;
            if (stored >= 0 && !isMade(isCopied ? beforeThat : before)) variables.add(stored);
            beforeThat = before;
            before = at;
        }
        return variables.size() > count;
    }

    // ---- Frames, by which the virtual machine knows what is being made where code is jumped to.

    private void findFrames() {
        int next = method.end + 4 + 8 * type.number(method.end);
        for (int left = type.number(next - 2); left > 0; left--) {
            if (type.text(type.number(next)).equals("StackMapTable")) {
                frame = next + 8;
                framesLeft = type.number(next + 6);
            }
            next += 6 + type.longNumber(next + 2);
        }
    }

    /** Whether a frame is at an instruction that has such an object where none was seen to be made. */
    private boolean isOddFrame(int at) {
        if (framesLeft == 0 || nextPlace() != at - method.start) return false;
        placeOfFrame = nextPlace();
        framesLeft--;
        boolean isOnStack = passFrame();
        return (isOnStack || isInFrame) && !isAnyUnmade();
    }

    private int nextPlace() {
        int kind = type.opcode(frame);
        int distance = kind <= ONE_ON_STACK ? kind & SAME : type.number(frame + 1);
        return placeOfFrame + 1 + distance;
    }

    /** Passes a frame. Returns whether it has such an object on the stack. */
    private boolean passFrame() {
        int kind = type.opcode(frame);
        int at = frame + (kind <= ONE_ON_STACK ? 1 : 3);
        if (kind == FULL) {
            isInFrame = hasUnmade(type.number(at), at + 2);
            int stack = Code.afterTypes(type, type.number(at), at + 2);
            frame = Code.afterTypes(type, type.number(stack), stack + 2);
            return hasUnmade(type.number(stack), stack + 2);
        }
        boolean isOneOnStack = kind > SAME && kind <= ONE_ON_STACK || kind == ONE_ON_STACK_FAR;
        int count = isOneOnStack ? 1 : kind > SAME_FAR ? kind - SAME_FAR : 0;
        frame = Code.afterTypes(type, count, at);
        boolean hasFound = hasUnmade(count, at);
        isInFrame |= hasFound && !isOneOnStack;
        return hasFound && isOneOnStack;
    }

    private boolean hasUnmade(int count, int at) {
        boolean hasFound = false;
        int next = at;
        for (int left = count; left > 0; left--) {
            hasFound |= type.opcode(next) == THIS || type.opcode(next) == OTHER;
            next = Code.afterTypes(type, 1, next);
        }
        return hasFound;
    }
}
