package java.lockdep.agent;

import java.util.Arrays;

/** A part of a class file that is being written. */
final class Bytes {
    private byte[] bytes;
    private int length;

    Bytes(int room) {
        bytes = new byte[room];
    }

    int length() {
        return length;
    }

    byte[] toArray() {
        return Arrays.copyOf(bytes, length);
    }

    private void makeRoom(int more) {
        if (length + more > bytes.length) bytes = Arrays.copyOf(bytes, Math.max(2 * bytes.length, length + more));
    }

    Bytes put(int value) {
        makeRoom(1);
        bytes[length++] = (byte) value;
        return this;
    }

    Bytes putShort(int value) {
        makeRoom(2);
        bytes[length++] = (byte) (value >> 8);
        bytes[length++] = (byte) value;
        return this;
    }

    Bytes putInt(int value) {
        return putShort(value >> 16).putShort(value);
    }

    Bytes put(byte[] from, int start, int end) {
        makeRoom(end - start);
        System.arraycopy(from, start, bytes, length, end - start);
        length += end - start;
        return this;
    }

    Bytes put(Bytes other) {
        return put(other.bytes, 0, other.length);
    }

    /** Writes over what was put at a place, such as a length that wasn't known then. */
    void setShort(int at, int value) {
        bytes[at] = (byte) (value >> 8);
        bytes[at + 1] = (byte) value;
    }

    void setInt(int at, int value) {
        setShort(at, value >> 16);
        setShort(at + 2, value);
    }
}
