package java.lockdep.agent;

import java.io.ByteArrayOutputStream;
import java.io.DataOutputStream;
import java.io.IOException;
import java.nio.charset.StandardCharsets;
import java.util.Arrays;
import java.util.HashMap;
import java.util.Map;

/** What a rewritten class has behind its own constants and its own bootstrap methods. */
final class Constants {
    /** Where a class's own constants are. */
    private static final int FIRST = 10;
    private static final int MOST = 65535;
    private static final int STRING = 8;
    private static final int NAME_AND_TYPE = 12;

    private final ClassFile type;
    private final Bytes added = new Bytes(256);
    private final Map<String, Integer> texts = new HashMap<>();
    private final int[] hooks = new int[Hook.COUNT];
    /** What was added, in this order: each kind with its one or two numbers; 0 for a text. */
    private long[] parts = new long[64];
    private final int first;
    private int count;
    private final Bytes bootstraps = new Bytes(0);
    private int countOfBootstraps;

    Constants(ClassFile type) {
        this.type = type;
        first = count = type.countOfConstants();
        countOfBootstraps = type.countOfBootstraps();
    }

    /** Where the next constant is written. If there is no room for it, nothing is. */
    private Bytes next() {
        if (count >= MOST) throw new IllegalStateException("it has too many constants");
        return added;
    }

    /** The constant that was written is this. */
    private int add(long part) {
        if (count - first == parts.length) parts = Arrays.copyOf(parts, 2 * parts.length);
        parts[count - first] = part;
        return count++;
    }

    /** The constant that was added for this; 0 if there is none. */
    private int find(long part) {
        int place = count - first;
        while (--place >= 0 && parts[place] != part) { }
        return place < 0 ? 0 : first + place;
    }

    private static long part(int kind, int number) {
        return (long) kind << 32 | number & 0xFFFFFFFFL;
    }

    int text(String text) {
        Integer known = texts.get(text);
        if (known != null) return known;
        byte[] bytes = text.getBytes(StandardCharsets.UTF_8);
        if (bytes.length != text.length() || text.indexOf(0) >= 0) bytes = ofOtherText(text);
        next().put(ClassFile.TEXT).putShort(bytes.length).put(bytes, 0, bytes.length);
        texts.put(text, count);
        return add(0);
    }

    /** (Class files have a way of their own to write letters that aren't ASCII's.) */
    private static byte[] ofOtherText(String text) {
        ByteArrayOutputStream bytes = new ByteArrayOutputStream();
        try (DataOutputStream out = new DataOutputStream(bytes)) {
            out.writeUTF(text);
        } catch (IOException tooLong) {
            throw new IllegalStateException(tooLong);
        }
        return Arrays.copyOfRange(bytes.toByteArray(), 2, bytes.size());
    }

    /** A constant of one or two numbers, the second of which is 0 if there is only one. */
    private int of(int kind, int one, int other) {
        long part = part(kind, one << 16 | other);
        int known = find(part);
        if (known != 0) return known;
        next().put(kind).putShort(one);
        if (other != 0) added.putShort(other);
        return add(part);
    }

    int number(int value) {
        long part = part(ClassFile.INTEGER, value);
        int known = find(part);
        if (known != 0) return known;
        next().put(ClassFile.INTEGER).putInt(value);
        return add(part);
    }

    int string(String text) {
        return of(STRING, text(text), 0);
    }

    int type(String name) {
        return of(ClassFile.CLASS, text(name), 0);
    }

    private int nameAndType(String name, String descriptor) {
        return of(NAME_AND_TYPE, text(name), text(descriptor));
    }

    int method(String owner, String name, String descriptor) {
        return of(ClassFile.METHOD, type(owner), nameAndType(name, descriptor));
    }

    int methodOfInterface(String owner, String name, String descriptor) {
        return of(ClassFile.METHOD_OF_INTERFACE, type(owner), nameAndType(name, descriptor));
    }

    int method(Hook hook) {
        int known = hooks[hook.ordinal()];
        return known != 0 ? known : (hooks[hook.ordinal()] = method(Calls.HOOKS, hook.called, hook.descriptor));
    }

    /** A handle to a static method. */
    int handle(int method) {
        long part = part(ClassFile.HANDLE, method);
        int known = find(part);
        if (known != 0) return known;
        next().put(ClassFile.HANDLE).put(Opcodes.H_INVOKESTATIC).putShort(method);
        return add(part);
    }

    /** A dynamic call like another one, with another descriptor, and with another handle among its words. */
    int dynamicCall(int call, String descriptor, int word, int handle) {
        int at = type.bootstrap(type.part(call, 1));
        int called = nameAndType(type.nameOfMember(call), descriptor);
        next().put(ClassFile.DYNAMIC_CALL).putShort(countOfBootstraps++).putShort(called);
        bootstraps.put(type.bytes, at, at + 4);
        for (int each = 0; each < type.number(at + 2); each++) {
            bootstraps.putShort(each == word ? handle : type.number(at + 4 + 2 * each));
        }
        return add(part(ClassFile.DYNAMIC_CALL, countOfBootstraps));
    }

    /** All of the class's constants, with their number. */
    void write(Bytes out) {
        out.putShort(count).put(type.bytes, FIRST, type.endOfConstants).put(added);
    }

    /** The attributes of the class, with their number. */
    void writeAttributes(Bytes out) {
        int old = type.bootstraps();
        if (countOfBootstraps == type.countOfBootstraps()) {
            out.put(type.bytes, type.endOfMethods, type.bytes.length);
            return;
        }
        int end = old + 6 + type.longNumber(old + 2);
        out.put(type.bytes, type.endOfMethods, old + 2).putInt(end - old - 6 + bootstraps.length());
        out.putShort(countOfBootstraps).put(type.bytes, old + 8, end).put(bootstraps);
        out.put(type.bytes, end, type.bytes.length);
    }
}
