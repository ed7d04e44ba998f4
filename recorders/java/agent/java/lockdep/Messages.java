package java.lockdep;

import java.util.Arrays;

/** The messages that threads give by an object of java.util.concurrent, each about something, such as an element of a queue, or for all who ask (0). */
final class Messages {
    /** The oldest ones are forgotten then: nothing is known to come after them. */
    private static final int MOST = 4096;
    private static final int[] NONE = {};

    private int[] abouts = new int[1];
    private int[] givers = new int[1];
    private int[] all = new int[1];
    private int count;

    synchronized void add(int about, int giver, int message) {
        if (count == MOST) remove(0);
        if (count == all.length) {
            abouts = Arrays.copyOf(abouts, 2 * count);
            givers = Arrays.copyOf(givers, 2 * count);
            all = Arrays.copyOf(all, 2 * count);
        }
        abouts[count] = about;
        givers[count] = giver;
        all[count++] = message;
    }

    /** Takes out the oldest one about something. Nothing if there is none, or if others gave such, too: which of them it was isn't known then. */
    synchronized int[] take(int about) {
        int first = next(about, 0);
        if (first == count) return NONE;
        boolean isOfOne = true;
        for (int at = first; at < count; at = next(about, at + 1)) isOfOne &= givers[at] == givers[first];
        int[] taken = isOfOne ? new int[] {all[first]} : NONE;
        remove(first);
        return taken;
    }

    private int next(int about, int from) {
        int at = from;
        while (at < count && abouts[at] != about) at++;
        return at;
    }

    private void remove(int at) {
        count--;
        for (int[] part : new int[][] {abouts, givers, all}) System.arraycopy(part, at + 1, part, at, count - at);
    }

    synchronized int[] all() {
        return Arrays.copyOf(all, count);
    }
}
