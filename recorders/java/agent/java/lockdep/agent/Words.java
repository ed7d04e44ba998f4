package java.lockdep.agent;

import java.util.Collection;
import java.util.HashSet;
import java.util.Set;

/** Some words, among which one of a class file is looked for. Most are told from all of these by a few letters. */
final class Words {
    private static final int KEYS = 1 << 12;

    private final Set<String> all;
    private final boolean[] keys = new boolean[KEYS];

    Words(Collection<String> all) {
        this.all = new HashSet<>(all);
        for (String word : all) keys[key(word.length(), word.charAt(0), word.charAt(word.length() - 1))] = true;
    }

    private static int key(int length, int first, int last) {
        return ((first * 31 + last) * 31 + length) & KEYS - 1;
    }

    boolean has(String word) {
        return all.contains(word);
    }

    /** Whether a text of a class file is one of them. */
    boolean has(ClassFile type, int text) {
        int length = type.part(text, 1);
        if (length == 0) return false;
        boolean maybe = keys[key(length, type.letter(text, 0), type.letter(text, length - 1))];
        return maybe && all.contains(type.text(text));
    }
}
