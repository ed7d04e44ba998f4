package java.lockdep.agent;

/** Where instructions lead to besides the next one. */
final class Jumps {
    private static final int[] NONE = {};

    private Jumps() {
    }

    /** Whether the next instruction isn't reached from one. */
    static boolean isEnd(int opcode) {
        return opcode >= Opcodes.GOTO && opcode <= Opcodes.RETURN || opcode == Opcodes.ATHROW || opcode == Opcodes.GOTO_W
                || opcode == Opcodes.JSR_W;
    }

    /** Where an instruction jumps to. */
    static int[] targets(ClassFile type, ClassFile.Method method, int at) {
        int opcode = type.opcode(at);
        if (!Code.isJump(opcode)) return NONE;
        if (opcode == Opcodes.TABLESWITCH || opcode == Opcodes.LOOKUPSWITCH) return targetsOfSwitch(type, method, at);
        boolean isFar = opcode == Opcodes.GOTO_W || opcode == Opcodes.JSR_W;
        return new int[] {at + (isFar ? type.longNumber(at + 1) : (short) type.number(at + 1))};
    }

    private static int[] targetsOfSwitch(ClassFile type, ClassFile.Method method, int at) {
        int word = at + 4 - (at - method.start & 3);
        int step = type.opcode(at) == Opcodes.TABLESWITCH ? 4 : 8;
        int first = word + 12;
        int[] all = new int[1 + (type.after(at, method) - first + step - 1) / step];
        all[0] = at + type.longNumber(word);
        for (int each = 1; each < all.length; each++) all[each] = at + type.longNumber(first + (each - 1) * step);
        return all;
    }
}
