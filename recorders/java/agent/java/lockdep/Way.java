package java.lockdep;

import java.util.concurrent.ConcurrentHashMap;

/**
 * The locks that a task holds, as a node of the tree of everything that it held. Each step is the code of a held lock.
 */
final class Way {
    /** The same in the tree of all tasks of the process. */
    static final class Common {
        private final ConcurrentHashMap<Integer, Common> after = new ConcurrentHashMap<>(4);
        volatile boolean isTaken;

        private Common to(int code) {
            Common next = after.get(code);
            if (next != null) return next;
            Common made = new Common();
            next = after.putIfAbsent(code, made);
            return next == null ? made : next;
        }
    }

    final Common common;
    boolean isTaken;
    private int count;
    private int[] codes;
    private Way[] ways;
    private int lastCode;
    private Way last;

    Way(Common common) {
        this.common = common;
    }

    /** The way with one more lock. */
    @Within
    Way to(int code) {
        return code == lastCode ? last : toOther(code);
    }

    @Apart
    private Way toOther(int code) {
        Way way = find(code);
        if (way == null) way = add(code);
        lastCode = code;
        last = way;
        return way;
    }

    private static int slot(int code, int size) {
        return (code * 0x9E3779B9 >>> 7) & (size - 1);
    }

    private Way find(int code) {
        if (codes == null) return null;
        int at = slot(code, codes.length);
        while (codes[at] != 0) {
            if (codes[at] == code) return ways[at];
            at = (at + 1) & (codes.length - 1);
        }
        return null;
    }

    @Apart
    private Way add(int code) {
        if (codes == null || 2 * ++count > codes.length) grow();
        Way way = new Way(common == null ? null : common.to(code));
        put(code, way);
        return way;
    }

    private void put(int code, Way way) {
        int at = slot(code, codes.length);
        while (codes[at] != 0) at = (at + 1) & (codes.length - 1);
        codes[at] = code;
        ways[at] = way;
    }

    private void grow() {
        int[] oldCodes = codes;
        Way[] oldWays = ways;
        int size = oldCodes == null ? 4 : 2 * oldCodes.length;
        codes = new int[size];
        ways = new Way[size];
        count = Math.max(count, 1);
        for (int at = 0; oldCodes != null && at < oldCodes.length; at++) {
            if (oldCodes[at] != 0) put(oldCodes[at], oldWays[at]);
        }
    }
}
