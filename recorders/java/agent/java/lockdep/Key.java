package java.lockdep;

import java.util.Arrays;

/**
 * A lock that is told apart from the others of its class, or all those that aren't. Its number is the key of a code.
 */
final class Key {
    private static Key[] all = new Key[256];
    private static int count;

    final int number;
    final Made made;
    final int ordinal;
    boolean isTold;

    private Key(int number, Made made, int ordinal) {
        this.number = number;
        this.made = made;
        this.ordinal = ordinal;
    }

    static synchronized Key add(Made made, int ordinal) {
        Key key = new Key(++count, made, ordinal);
        if (key.number == all.length) all = Arrays.copyOf(all, 2 * all.length);
        all[key.number] = key;
        return key;
    }

    static synchronized Key of(int code) {
        return all[code >>> 3];
    }
}
