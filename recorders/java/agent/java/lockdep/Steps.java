package java.lockdep;

import java.io.File;
import java.io.IOException;
import java.io.RandomAccessFile;
import java.nio.ByteOrder;
import java.nio.LongBuffer;
import java.nio.channels.FileChannel;
import java.util.concurrent.atomic.AtomicInteger;
import java.util.concurrent.atomic.AtomicLong;

/**
 * The order in which the threads of this process take their steps, in the form of recorders/log.md ("Steps"): a file that
 * is mapped whole, of which each thread has chunks. The time is a count of all steps.
 */
final class Steps {
    static final int NAMES = 1;
    static final int TAKES = 2;
    static final int RELEASES = 3;
    static final int GIVES = 4;
    static final int GETS = 5;
    static final int BEGINS = 6;
    static final int JOINS = 7;
    static final int BREAKS = 8;
    static final int PASSES = 9;

    private static final int MOST_NUMBER = (1 << 28) - 1;
    private static final int HISTORY_MEGABYTES = 64;
    private static final int MEGABYTE = 1 << 20;
    private static final String OFF = "off";
    /** The words of a chunk, which are those of a page of memory, its head among them, and the bytes of a word. */
    private static final int CHUNK = 512;
    private static final int HEAD = 2;
    private static final int BYTES = 8;

    /** Whether steps are noted. (One that is noted by mistake has a time behind the end.) */
    static boolean isOn;
    static final AtomicInteger members = new AtomicInteger();
    static final AtomicInteger locks = new AtomicInteger();
    static final AtomicInteger messages = new AtomicInteger();
    private static final AtomicLong clock = new AtomicLong();
    private static int used = 1;
    private static LongBuffer file;
    /** Where room for a chunk is made, so that a full disk is found out before it is used. */
    private static RandomAccessFile room;

    private Steps() {
    }

    /** From here on steps are noted, beside the file of the process, if the program may have such a file. */
    static void begin(File process) {
        String asked = Variables.get("LOCKDEP_HISTORY");
        if (OFF.equals(asked)) return;
        try {
            room = new RandomAccessFile(process + "-history", "rw");
            long size = (long) MEGABYTE * (asked == null || asked.isEmpty() ? HISTORY_MEGABYTES : Integer.parseInt(asked));
            file = room.getChannel().map(FileChannel.MapMode.READ_WRITE, 0, size).order(ByteOrder.LITTLE_ENDIAN).asLongBuffer();
            room.write(0);
            isOn = true;
        } catch (IOException | NumberFormatException | OutOfMemoryError none) {
            return;
        }
    }

    static long word(int verb, int number, int place, int mode) {
        return verb | (long) mode << 4 | (long) number << 8 | (long) place << 36;
    }

    static int numberIn(long word) {
        return (int) (word >>> 8) & MOST_NUMBER;
    }

    /** Puts a step where a task's next one goes. */
    @Within
    static void put(Trace task, long word) {
        if (task.nextStep == task.endOfSteps && !takeChunk(task)) return;
        int at = task.nextStep;
        file.put(at, clock.incrementAndGet());
        file.put(at + 1, word);
        task.nextStep = at + 2;
    }

    /** The first step that there is no room for ends the history of all threads. */
    @Apart
    private static synchronized boolean takeChunk(Trace task) {
        if (!isOn) return false;
        int at = used;
        try {
            if (at > file.capacity() - CHUNK) throw new IOException();
            room.seek((long) (at + CHUNK) * BYTES - 1);
            room.write(0);
        } catch (IOException none) {
            file.put(0, clock.incrementAndGet());
            isOn = false;
            return false;
        }
        used = at + CHUNK;
        file.put(at, task.member);
        file.put(at + 1, (long) (CHUNK - HEAD) * BYTES);
        task.nextStep = at + HEAD;
        task.endOfSteps = at + CHUNK;
        return true;
    }
}
