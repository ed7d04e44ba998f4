package java.lockdep;

import java.lang.invoke.VarHandle;

/**
 * What is known about all locks, by their objects. Who looks for a lock waits for nobody: what was added stays at its
 * place until the table is made anew, which drops what is known about objects that are gone. (A map of the JDK does the
 * same, but the JVM has far more to compile for it.)
 */
final class Table {
    /** The table is made anew once it is half full, and has so many places for each lock then. */
    private static final int PLACES = 8;
    private static final int FIRST_ROOM = 1 << 15;

    private static volatile Known[] all = new Known[FIRST_ROOM];
    private static int count;

    private Table() {
    }

    @Within
    static Known find(Object object, int hash, boolean isMonitor) {
        Known[] table = all;
        return table[placeOf(table, object, hash, isMonitor)];
    }

    /** Adds what is known about an object, which its caller keeps alive. Returns what was already known about it, if any. */
    @Apart
    static synchronized Known add(Known known, Object object) {
        if (2 * count >= all.length) renew();
        Known[] table = all;
        int at = placeOf(table, object, known.hash, known.isMonitor);
        if (table[at] != null) return table[at];
        VarHandle.releaseFence(); // who finds it sees all of it
        table[at] = known;
        count++;
        return known;
    }

    /** Where a lock is, or else would be added. */
    @Within
    private static int placeOf(Known[] table, Object object, int hash, boolean isMonitor) {
        int last = table.length - 1;
        int at = hash & last;
        for (Known each = table[at]; each != null; each = table[at]) {
            if (each.hash == hash && each.isMonitor == isMonitor && each.get() == object) return at;
            at = at + 1 & last;
        }
        return at;
    }

    private static void renew() {
        Known[] old = all;
        int left = 0;
        for (Known each : old) {
            if (each != null && each.get() != null) left++;
        }
        Known[] table = new Known[Math.max(FIRST_ROOM, PLACES * Integer.highestOneBit(left))];
        int kept = copy(old, table);
        VarHandle.releaseFence();
        all = table;
        count = kept;
    }

    /** Returns how many locks were copied. */
    private static int copy(Known[] from, Known[] to) {
        int kept = 0;
        for (Known each : from) {
            Object object = each == null ? null : each.get();
            if (object == null) continue;
            to[placeOf(to, object, each.hash, each.isMonitor)] = each;
            kept++;
        }
        return kept;
    }

    /** A monitor that is known, by its hash and its class. */
    static Known monitorByHash(int hash, String className) {
        for (Known known : all) {
            Object object = known != null && known.hash == hash ? known.get() : null;
            if (object != null && known.isMonitor && object.getClass().getName().equals(className)) return known;
        }
        return null;
    }
}
