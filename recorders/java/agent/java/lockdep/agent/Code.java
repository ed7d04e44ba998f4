package java.lockdep.agent;

import java.util.Arrays;

/**
 * The code of a method with instructions added. All that says where something is in the code is written anew: jumps,
 * handlers, lines, variables, and the frames by which the virtual machine verifies it. Annotations of types within the
 * code are left out. (This is what ASM does too, which takes far longer to load, and also takes methods apart.)
 */
final class Code {
    /** No more words than this are added to what is on the stack, at any place: an object and a number, and room for more. */
    private static final int MOST_PUSHED = 4;
    private static final int LONGEST = 65535;
    /** Room for a handler and its frame. */
    private static final int SPARE = 64;
    /** Kinds of instructions; the jumps have one place each. */
    private static final int PLAIN = 0;
    private static final int JUMP = 1;
    private static final int FAR_JUMP = 2;
    private static final int SWITCH = 3;
    private static final byte[] KINDS = new byte[256];

    static {
        Arrays.fill(KINDS, Opcodes.IFEQ, Opcodes.RET, (byte) JUMP);
        KINDS[Opcodes.IFNULL] = KINDS[Opcodes.IFNONNULL] = JUMP;
        KINDS[Opcodes.GOTO_W] = KINDS[Opcodes.JSR_W] = FAR_JUMP;
        KINDS[Opcodes.TABLESWITCH] = KINDS[Opcodes.LOOKUPSWITCH] = SWITCH;
    }

    /** Kinds of frames: the last ones that are meant by each number, or by themselves. */
    private static final int SAME = 63;
    private static final int ONE_ON_STACK = 127;
    private static final int ONE_ON_STACK_FAR = 247;
    private static final int SAME_FAR = 251;
    private static final int FULL = 255;
    /** What a frame may say of a variable: what has a constant, and what has the place of an instruction. */
    static final int OBJECT = 7;
    private static final int UNINITIALIZED = 8;

    private final ClassFile type;
    private final ClassFile.Method method;
    private final Constants constants;
    private final int length;
    /** What is added before an instruction, for jumps to it too; after the one before it, for none; and instead of it. */
    private final Bytes[] before;
    private final Bytes[] after;
    private final Bytes[] instead;
    /** The handler of all errors from the first instruction on, if there is one, with what its frame says of variables. */
    private Bytes handler;
    private Bytes variables;
    private int lineOfEntry;
    /** What isn't copied as it is: jumps, and where something is added. */
    private final boolean[] isChanged;
    /** Where jumps to each instruction go. */
    private final int[] places;
    private Bytes out;

    Code(ClassFile type, ClassFile.Method method, Constants constants) {
        this.type = type;
        this.method = method;
        this.constants = constants;
        length = method.end - method.start;
        before = new Bytes[length];
        after = new Bytes[length + 1];
        instead = new Bytes[length];
        isChanged = new boolean[length + 1];
        places = new int[length + 1];
    }

    private Bytes at(Bytes[] all, int place) {
        isChanged[place] = true;
        if (all[place] == null) all[place] = new Bytes(16);
        return all[place];
    }

    /** An instruction that says how far it jumps, each of which has to be told. */
    void addJump(int at) {
        isChanged[at - method.start] = true;
    }

    static boolean isJump(int opcode) {
        return KINDS[opcode] != PLAIN;
    }

    // ---- What is added; places are those of the file.

    Bytes before(int at) {
        return at(before, at - method.start);
    }

    /** What follows an instruction, by where the next one is. */
    Bytes beforeNext(int next) {
        return at(after, next - method.start);
    }

    Bytes instead(int at) {
        return at(instead, at - method.start);
    }

    /** A handler of all errors, at the end. At it there are these variables, as in a frame. Its entry may have a line. */
    void handle(Bytes code, Bytes variablesOfFrame, int line) {
        handler = code;
        variables = variablesOfFrame;
        lineOfEntry = line;
    }

    /** Where an instruction is, once the code is written. */
    int placeOf(int at) {
        int place = at - method.start;
        return places[place] + (before[place] == null ? 0 : before[place].length());
    }

    // ---- The attribute.

    /** The whole attribute. */
    Bytes write() {
        int size = arrange();
        out = new Bytes(size + method.finish - method.attribute + SPARE);
        int at = method.attribute;
        out.put(type.bytes, at, at + 2).putInt(0);
        out.putShort(Math.min(Math.max(type.number(at + 6), 1) + MOST_PUSHED, LONGEST)).putShort(type.number(at + 8));
        out.putInt(handler == null ? size : size + handler.length());
        writeInstructions();
        if (handler != null) out.put(handler);
        int handlers = writeHandlers();
        int countAt = out.length();
        out.putShort(0);
        int count = writeAttributes(handlers);
        out.setShort(countAt, count);
        out.setInt(2, out.length() - 6);
        return out;
    }

    private int placeAfter(int at) {
        return places[at - method.start];
    }

    /** Finds out where everything is. Returns the length of the code, without the handler. */
    private int arrange() {
        int more = 0;
        for (int old = 0; old <= length; old++) {
            if (!isChanged[old]) {
                places[old] = old + more;
                continue;
            }
            more += lengthOf(after[old]);
            places[old] = old + more;
            if (old < length) more += lengthOf(before[old]) + growth(old, places[old]);
        }
        if (places[length] + lengthOf(handler) <= LONGEST) return places[length];
        throw new IllegalStateException("its method " + method.name() + " is too long");
    }

    /** By how much an instruction is longer than it was. */
    private int growth(int old, int place) {
        int at = method.start + old;
        if (instead[old] != null) return instead[old].length() - (type.after(at, method) - at);
        return KINDS[type.opcode(at)] != SWITCH ? 0 : padding(place + lengthOf(before[old])) - padding(old);
    }

    private static int lengthOf(Bytes added) {
        return added == null ? 0 : added.length();
    }

    private static int padding(int place) {
        return 3 - (place & 3);
    }

    /** Most instructions are copied as they are, several at a time. */
    private void writeInstructions() {
        int begin = out.length();
        int copied = method.start;
        for (int old = 0; old < length; old++) {
            if (!isChanged[old]) continue;
            int at = method.start + old;
            boolean isCopied = instead[old] == null && !isJump(type.opcode(at));
            out.put(type.bytes, copied, at);
            copied = isCopied ? at : type.after(at, method);
            if (after[old] != null) out.put(after[old]);
            if (before[old] != null) out.put(before[old]);
            if (instead[old] != null) out.put(instead[old]);
            else if (!isCopied) writeJump(at, copied, out.length() - begin);
        }
        out.put(type.bytes, copied, method.end);
        if (after[length] != null) out.put(after[length]);
    }

    private void writeJump(int at, int next, int place) {
        int opcode = type.opcode(at);
        if (KINDS[opcode] == SWITCH) {
            writeSwitch(at, next, place);
        } else if (KINDS[opcode] == FAR_JUMP) {
            out.put(opcode).putInt(distance(at, type.longNumber(at + 1), place));
        } else {
            int distance = distance(at, (short) type.number(at + 1), place);
            if (distance != (short) distance) throw new IllegalStateException("its method " + method.name()
                    + " jumps too far");
            out.put(opcode).putShort(distance);
        }
    }

    /** How far an instruction at a new place jumps. */
    private int distance(int at, int old, int place) {
        return placeAfter(at + old) - place;
    }

    private void writeSwitch(int at, int next, int place) {
        boolean isTable = type.opcode(at) == Opcodes.TABLESWITCH;
        out.put(type.opcode(at));
        for (int left = padding(place); left > 0; left--) out.put(0);
        int word = at + 1 + padding(at - method.start);
        out.putInt(distance(at, type.longNumber(word), place));
        int first = word + (isTable ? 12 : 8);
        out.put(type.bytes, word + 4, first);
        for (word = first; word < next; word += 4) {
            boolean isKey = !isTable && (word - first & 4) == 0;
            out.putInt(isKey ? type.longNumber(word) : distance(at, type.longNumber(word), place));
        }
    }

    /** Returns where what comes after the handlers is in the file. */
    private int writeHandlers() {
        int count = type.number(method.end);
        int next = method.end + 2;
        out.putShort(handler == null ? count : count + 1);
        for (; count > 0; count--, next += 8) {
            for (int each = 0; each < 6; each += 2) out.putShort(places[type.number(next + each)]);
            out.put(type.bytes, next + 6, next + 8);
        }
        int end = places[length];
        if (handler != null) out.putShort(lengthOf(after[0])).putShort(end).putShort(end).putShort(0);
        return next;
    }

    // ---- The attributes of the code.

    /** Returns how many there are. */
    private int writeAttributes(int at) {
        int count = 0;
        boolean hasFrames = false;
        int next = at + 2;
        for (int left = type.number(at); left > 0; left--) {
            String name = type.text(type.number(next));
            hasFrames |= name.equals("StackMapTable");
            if (writeAttribute(name, next)) count++;
            next += 6 + type.longNumber(next + 2);
        }
        if (handler == null || hasFrames || type.version < Opcodes.V1_6) return count;
        int begin = out.length();
        out.putShort(constants.text("StackMapTable")).putInt(0).putShort(1);
        writeFrameOfHandler(-1);
        out.setInt(begin + 2, out.length() - begin - 6);
        return count + 1;
    }

    private boolean writeAttribute(String name, int at) {
        int begin = out.length();
        int end = at + 6 + type.longNumber(at + 2);
        if (name.endsWith("TypeAnnotations")) return false;
        out.put(type.bytes, at, at + 6);
        if (name.equals("LineNumberTable")) writeLines(at + 6);
        else if (name.equals("LocalVariableTable") || name.equals("LocalVariableTypeTable")) writeVariables(at + 6);
        else if (name.equals("StackMapTable")) writeFrames(at + 6);
        else out.put(type.bytes, at + 6, end);
        out.setInt(begin + 2, out.length() - begin - 6);
        return true;
    }

    private void writeLines(int at) {
        int count = type.number(at);
        out.putShort(lineOfEntry > 0 ? count + 1 : count);
        if (lineOfEntry > 0) out.putShort(0).putShort(lineOfEntry);
        for (int next = at + 2; count > 0; count--, next += 4) {
            out.putShort(placeNear(type.number(next))).putShort(type.number(next + 2));
        }
    }

    /** The place of an instruction, or of the one that a place of the file is in. (For debuggers it needn't be the beginning of one.) */
    private int placeNear(int old) {
        int at = old;
        while (at > 0 && places[at] == 0) at--;
        return places[at];
    }

    private void writeVariables(int at) {
        int count = type.number(at);
        out.putShort(count);
        for (int next = at + 2; count > 0; count--, next += 10) {
            int start = type.number(next);
            int begin = placeNear(start);
            out.putShort(begin).putShort(placeNear(start + type.number(next + 2)) - begin);
            out.put(type.bytes, next + 4, next + 10);
        }
    }

    // ---- Frames: each says how far it is from the one before it.

    private void writeFrames(int at) {
        int count = type.number(at);
        out.putShort(handler == null ? count : count + 1);
        int old = -1;
        int place = -1;
        for (int next = at + 2; count > 0; count--) {
            int kind = type.opcode(next);
            boolean isShort = kind <= ONE_ON_STACK;
            old += 1 + (isShort ? kind & SAME : type.number(next + 1));
            int far = places[old] - place - 1;
            place = places[old];
            next = writeFrame(kind, next + (isShort ? 1 : 3), far);
        }
        if (handler != null) writeFrameOfHandler(place);
    }

    /** Returns where the next frame is in the file. */
    private int writeFrame(int kind, int at, int far) {
        if (kind <= SAME) {
            if (far <= SAME) out.put(far);
            else out.put(SAME_FAR).putShort(far);
            return at;
        }
        if (kind <= ONE_ON_STACK) {
            if (far <= SAME) out.put(SAME + 1 + far);
            else out.put(ONE_ON_STACK_FAR).putShort(far);
            return writeTypes(1, at);
        }
        out.put(kind).putShort(far);
        if (kind == ONE_ON_STACK_FAR) return writeTypes(1, at);
        if (kind < FULL) return writeTypes(Math.max(0, kind - SAME_FAR), at);
        return writeCountedTypes(writeCountedTypes(at));
    }

    private int writeCountedTypes(int at) {
        out.put(type.bytes, at, at + 2);
        return writeTypes(type.number(at), at + 2);
    }

    /** What a frame says of some variables, or of what is on the stack. Returns where that ends in the file. */
    private int writeTypes(int count, int at) {
        int next = at;
        for (int left = count; left > 0; left--) {
            int end = afterTypes(type, 1, next);
            if (type.opcode(next) != UNINITIALIZED) out.put(type.bytes, next, end);
            else out.put(UNINITIALIZED).putShort(placeOf(method.start + type.number(next + 1)));
            next = end;
        }
        return next;
    }

    /** Where in the file what a frame says of some variables ends. */
    static int afterTypes(ClassFile type, int count, int at) {
        int next = at;
        for (int left = count; left > 0; left--) next += type.opcode(next) >= OBJECT ? 3 : 1;
        return next;
    }

    private void writeFrameOfHandler(int place) {
        out.put(FULL).putShort(places[length] - place - 1).put(variables);
        out.putShort(1).put(OBJECT).putShort(constants.type("java/lang/Throwable"));
    }
}
