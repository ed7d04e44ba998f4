package java.lockdep;

import java.util.IdentityHashMap;

/**
 * What a task took without a record, and how often: the objects of monitors, and what is known of locks. There may be
 * thousands of them, and they are told apart as objects: a program's own `equals` isn't asked.
 */
final class LeftOut {
    private final IdentityHashMap<Object, Integer> levels = new IdentityHashMap<>();

    boolean has(Object what) {
        return !levels.isEmpty() && levels.containsKey(what);
    }

    void add(Object what) {
        Integer before = levels.get(what);
        levels.put(what, before == null ? 1 : before + 1);
    }

    /** Takes one level away. Returns whether there was one. */
    boolean remove(Object what) {
        Integer before = levels.isEmpty() ? null : levels.remove(what);
        if (before != null && before > 1) levels.put(what, before - 1);
        return before != null;
    }
}
