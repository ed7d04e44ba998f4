package java.lockdep.agent;

/** Whether the object of a method is in its place throughout. (Compilers leave it there; tools that shrink programs may not.) */
final class Frames {
    /** Frames that drop variables, add some, or name all. */
    private static final int CHOP = 248;
    private static final int SAME = 251;
    private static final int FULL = 255;

    private final ClassFile type;
    private final ClassFile.Method method;
    private int locals = 1;

    Frames(ClassFile type, ClassFile.Method method, String descriptor) {
        this.type = type;
        this.method = method;
        for (int at = 1; descriptor.charAt(at) != ')'; at++) {
            while (descriptor.charAt(at) == '[') at++;
            if (descriptor.charAt(at) == 'L') at = descriptor.indexOf(';', at);
            locals++;
        }
    }

    boolean keepThis() {
        return method.isStatic() || !isStoredOver() && areAllWithThis();
    }

    boolean isStoredOver() {
        for (int at = method.start; at < method.end; at = type.after(at, method)) {
            int opcode = type.opcode(at);
            boolean isWide = opcode == Opcodes.WIDE;
            int plain = isWide ? type.opcode(at + 1) : opcode;
            boolean isFirst = opcode >= Opcodes.ISTORE_0 && opcode <= Opcodes.ASTORE_3 && (opcode - Opcodes.ISTORE_0 & 3) == 0;
            boolean isStore = plain >= Opcodes.ISTORE && plain <= Opcodes.ASTORE;
            if (isFirst || isStore && (isWide ? type.number(at + 2) : type.opcode(at + 1)) == 0) return true;
        }
        return false;
    }

    private boolean areAllWithThis() {
        int next = method.end + 4 + 8 * type.number(method.end);
        for (int left = type.number(next - 2); left > 0; left--) {
            if (type.text(type.number(next)).equals("StackMapTable") && !haveThis(next + 6)) return false;
            next += 6 + type.longNumber(next + 2);
        }
        return true;
    }

    private boolean haveThis(int at) {
        int next = at + 2;
        for (int left = type.number(at); left > 0; left--) {
            int kind = type.opcode(next);
            if (kind >= CHOP && kind < FULL) locals += kind - SAME;
            else if (kind == FULL) locals = localsOf(next + 3);
            if (locals <= 0) return false;
            next = after(kind, next);
        }
        return true;
    }

    /** How many variables a frame names; 0 if the first isn't the object. */
    private int localsOf(int at) {
        boolean isThis = type.number(at) > 0 && type.opcode(at + 2) == Code.OBJECT;
        return isThis && type.nameOfClass(type.number(at + 3)).equals(type.name) ? type.number(at) : 0;
    }

    private int after(int kind, int at) {
        if (kind < 64) return at + 1;
        if (kind < 128) return Code.afterTypes(type, 1, at + 1);
        if (kind < CHOP) return Code.afterTypes(type, 1, at + 3);
        if (kind < FULL) return Code.afterTypes(type, Math.max(0, kind - SAME), at + 3);
        int stack = Code.afterTypes(type, type.number(at + 3), at + 5);
        return Code.afterTypes(type, type.number(stack), stack + 2);
    }
}
