package java.lockdep.agent;

import java.io.ByteArrayInputStream;
import java.io.DataInputStream;
import java.io.IOException;
import java.nio.charset.StandardCharsets;
import java.util.Arrays;

/**
 * A class file, of which no more is read than what says whether anything in it is to be rewritten. (Few methods are,
 * and to take all of them apart costs more than the program's own start.)
 */
final class ClassFile {
    /** Kinds of constants. */
    static final int TEXT = 1;
    static final int INTEGER = 3;
    static final int CLASS = 7;
    static final int FIELD = 9;
    static final int METHOD = 10;
    static final int METHOD_OF_INTERFACE = 11;
    static final int HANDLE = 15;
    static final int DYNAMIC_CALL = 18;
    static final String LINES = "LineNumberTable";
    private static final String CONSTRUCTOR = "<init>";
    private static final int LONG = 5;
    private static final int DOUBLE = 6;
    /** How long the constants of each kind are; 0 if there are none of a kind. */
    private static final int[] LENGTHS_OF_CONSTANTS = {0, 3, 0, 5, 5, 9, 9, 3, 3, 5, 5, 5, 5, 0, 0, 4, 3, 5, 5, 3, 3};
    /** How long the instructions of each kind are; 0 if they aren't equally long. */
    private static final byte[] LENGTHS = new byte[256];
    private static final int FIRST_CONSTANT = 10;

    static {
        Arrays.fill(LENGTHS, 0, 202, (byte) 1);
        for (int kind : new int[] {16, 18, 21, 22, 23, 24, 25, 54, 55, 56, 57, 58, 169, 188}) LENGTHS[kind] = 2;
        Arrays.fill(LENGTHS, 153, 169, (byte) 3);
        Arrays.fill(LENGTHS, 178, 185, (byte) 3);
        for (int kind : new int[] {17, 19, 20, 132, 187, 189, 192, 193, 198, 199}) LENGTHS[kind] = 3;
        for (int kind : new int[] {185, 186, 200, 201}) LENGTHS[kind] = 5;
        LENGTHS[197] = 4;
        for (int kind : new int[] {Opcodes.TABLESWITCH, Opcodes.LOOKUPSWITCH, Opcodes.WIDE}) LENGTHS[kind] = 0;
    }

    /**
     * A method: where it begins and ends in the file, where the attribute with its code begins, and between which places
     * its code is, which are the same if it has none.
     */
    final class Method {
        final int begin;
        int finish;
        int attribute;
        final int access;
        final boolean isConstructor;
        int start;
        int end;
        /** Whether it may have something to rewrite. */
        boolean isWanted;

        Method(int at) {
            begin = at;
            access = number(at);
            isConstructor = isText(number(at + 2), CONSTRUCTOR);
        }

        String name() {
            return text(number(begin + 2));
        }

        String descriptor() {
            return text(number(begin + 4));
        }

        boolean isStatic() {
            return (access & Opcodes.ACC_STATIC) != 0;
        }

        /** (Of what initialises a class, this flag and others mean nothing.) */
        boolean isSynchronized() {
            return (access & Opcodes.ACC_SYNCHRONIZED) != 0 && !isText(number(begin + 2), "<clinit>");
        }
    }

    final byte[] bytes;
    final int version;
    /** Its own class among the constants. */
    final int self;
    final String name;
    final String superName;
    final String[] interfaces;
    final Method[] methods;
    final boolean hasSerialVersion;
    /** The first line that has code; 0 if the file has no lines. */
    int firstLine;
    String sourceFile;
    /** Where the attribute with the bootstrap methods is; 0 if there is none. */
    private int bootstraps;
    /** Where the constants end, and the methods. */
    final int endOfConstants;
    final int endOfMethods;
    /** Where each constant begins. */
    private final int[] constants;
    /** The texts that were asked for. */
    private final String[] texts;
    private int next;

    ClassFile(byte[] bytes) {
        this.bytes = bytes;
        version = number(6);
        constants = new int[number(8)];
        texts = new String[constants.length];
        int at = findConstants();
        endOfConstants = at;
        self = number(at + 2);
        name = nameOfClass(self);
        superName = nameOfClass(number(at + 4));
        interfaces = new String[number(at + 6)];
        for (int each = 0; each < interfaces.length; each++) interfaces[each] = nameOfClass(number(at + 8 + 2 * each));
        next = at + 8 + 2 * interfaces.length;
        hasSerialVersion = passFields();
        methods = new Method[number(next)];
        next += 2;
        for (int each = 0; each < methods.length; each++) methods[each] = method();
        endOfMethods = next;
        for (int left = begin(next); left > 0; left--) {
            if (isCalled("SourceFile")) sourceFile = text(number(next + 6));
            else if (isCalled("BootstrapMethods")) bootstraps = next;
            pass();
        }
    }

    /** Returns where the constants end. */
    private int findConstants() {
        int at = FIRST_CONSTANT;
        for (int index = 1; index < constants.length; index++) {
            constants[index] = at;
            int kind = bytes[at];
            int length = LENGTHS_OF_CONSTANTS[kind];
            if (length == 0) throw new IllegalArgumentException("unknown constants");
            at += kind == TEXT ? length + number(at + 1) : length;
            if (kind == LONG || kind == DOUBLE) index++;
        }
        return at;
    }

    // ---- Attributes: `next` is at the first of them, or its name's.

    private int begin(int at) {
        next = at + 2;
        return number(at);
    }

    private boolean isCalled(String wanted) {
        return isText(number(next), wanted);
    }

    private void pass() {
        next += 6 + longNumber(next + 2);
    }

    private boolean passFields() {
        boolean hasFound = false;
        int left = number(next);
        next += 2;
        for (; left > 0; left--) {
            hasFound |= isText(number(next + 2), "serialVersionUID");
            passAll(next + 6);
        }
        return hasFound;
    }

    private void passAll(int at) {
        for (int left = begin(at); left > 0; left--) pass();
    }

    private Method method() {
        Method method = new Method(next);
        for (int left = begin(next + 6); left > 0; left--) {
            if (isCalled("Code")) passCode(method);
            else pass();
        }
        method.finish = next;
        return method;
    }

    private void passCode(Method method) {
        method.attribute = next;
        method.start = next + 14;
        method.end = method.start + longNumber(next + 10);
        int handlers = number(method.end);
        for (int left = begin(method.end + 2 + 8 * handlers); left > 0; left--) {
            if (isCalled(LINES)) readLines(next + 6);
            pass();
        }
    }

    private void readLines(int at) {
        for (int line = at + 4, end = line + 4 * number(at); line < end; line += 4) {
            int number = number(line);
            if (firstLine == 0 || number < firstLine) firstLine = number;
        }
    }

    // ---- Parts of the file.

    int number(int at) {
        return (bytes[at] & 255) << 8 | bytes[at + 1] & 255;
    }

    int longNumber(int at) {
        return number(at) << 16 | number(at + 2);
    }

    int opcode(int at) {
        return bytes[at] & 255;
    }

    /** Where the instruction after one is, in a method. (Calls cost most of what it takes to pass all instructions.) */
    int after(int at, Method method) {
        int length = LENGTHS[bytes[at] & 255];
        return length > 0 ? at + length : afterLong(at, method);
    }

    private int afterLong(int at, Method method) {
        int opcode = opcode(at);
        if (opcode == Opcodes.WIDE) return at + (opcode(at + 1) == Opcodes.IINC ? 6 : 4);
        int words = at + 4 - (at - method.start & 3);
        int after = opcode == Opcodes.LOOKUPSWITCH ? words + 8 + 8 * longNumber(words + 4)
                : words + 16 + 4 * (longNumber(words + 8) - longNumber(words + 4));
        boolean isSwitch = opcode == Opcodes.LOOKUPSWITCH || opcode == Opcodes.TABLESWITCH;
        if (!isSwitch || after <= at) throw new IllegalArgumentException("unknown instructions");
        return after;
    }

    /** Where the attribute is that has the bootstrap methods; 0 if there is none. */
    int bootstraps() {
        return bootstraps;
    }

    int countOfBootstraps() {
        return bootstraps == 0 ? 0 : number(bootstraps + 6);
    }

    /** Where a bootstrap method is. */
    int bootstrap(int number) {
        int at = bootstraps + 8;
        for (int left = number; left > 0; left--) at += 4 + 2 * number(at + 2);
        return at;
    }

    int countOfConstants() {
        return constants.length;
    }

    /** The kind of a constant; 0 for the second half of another one. */
    int kind(int constant) {
        return constants[constant] == 0 ? 0 : bytes[constants[constant]];
    }

    /** Where a constant begins. */
    int place(int constant) {
        return constants[constant];
    }

    /** One of a constant's own numbers, which begins behind so many bytes. */
    int part(int constant, int behind) {
        return number(constants[constant] + behind);
    }

    /** The value of a constant that is a number. */
    int value(int constant) {
        return longNumber(constants[constant] + 1);
    }

    /** The kind of a method's handle. */
    int kindOfHandle(int constant) {
        return bytes[constants[constant] + 1];
    }

    String text(int constant) {
        String known = texts[constant];
        return known != null ? known : (texts[constant] = read(constant));
    }

    private String read(int constant) {
        int length = part(constant, 1);
        String text = new String(bytes, constants[constant] + 3, length, StandardCharsets.UTF_8);
        return text.length() == length ? text : otherText(constants[constant] + 1, length + 2);
    }

    /** (Class files have a way of their own to write letters that aren't ASCII's.) */
    private String otherText(int at, int length) {
        try {
            return new DataInputStream(new ByteArrayInputStream(bytes, at, length)).readUTF();
        } catch (IOException unreadable) {
            throw new IllegalArgumentException(unreadable);
        }
    }

    int letter(int constant, int at) {
        return bytes[constants[constant] + 3 + at];
    }

    boolean isText(int constant, String wanted) {
        return part(constant, 1) == wanted.length() && text(constant).equals(wanted);
    }

    String nameOfClass(int constant) {
        return constant == 0 ? null : text(part(constant, 1));
    }

    /** The name of the class that a field or method belongs to. */
    String owner(int constant) {
        return nameOfClass(part(constant, 1));
    }

    /** Whether a method is a constructor, whose name is the only one with these letters. */
    boolean isConstructor(int method) {
        int name = part(part(method, 3), 1);
        return part(name, 1) == CONSTRUCTOR.length() && letter(name, 0) == CONSTRUCTOR.charAt(0);
    }

    boolean begins(int text, String beginning) {
        int at = 0;
        boolean isLonger = part(text, 1) > beginning.length();
        while (isLonger && at < beginning.length() && letter(text, at) == beginning.charAt(at)) at++;
        return at == beginning.length();
    }

    String nameOfMember(int constant) {
        return text(part(part(constant, 3), 1));
    }

    String descriptor(int constant) {
        return text(part(part(constant, 3), 3));
    }
}
