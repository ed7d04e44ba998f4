package java.lockdep;

import java.io.File;
import java.io.IOException;
import java.io.RandomAccessFile;
import java.lang.invoke.MethodHandles;
import java.lang.invoke.VarHandle;
import java.nio.ByteBuffer;
import java.nio.ByteOrder;
import java.nio.MappedByteBuffer;
import java.nio.channels.FileChannel;
import java.nio.charset.StandardCharsets;
import java.nio.file.Files;
import java.nio.file.Paths;
import java.util.ArrayList;
import java.util.Arrays;
import java.util.HashMap;
import java.util.HashSet;
import java.util.List;
import java.util.Set;
import java.util.concurrent.ConcurrentHashMap;
import java.util.regex.Pattern;

/**
 * Holds the threads of a program back where a deadlock that was found as possible can happen, for `lockdep provoke`:
 * before a thread waits for the second lock of an order that was found, with the first one held, it stands until
 * threads stand at the other orders of a cycle, or for a pause. What threads hold while they stand or wait is in a file
 * that recorders/pthread/provoke/provoke.h describes, in which callers, names, and the class of a lock behind a number
 * of that, are places in a second file, with a line for each. Nothing else is written in such a run.
 */
public final class Provoke {
    /** The sizes of provoke.h. */
    private static final int MOST_ORDERS = 64;
    private static final int MOST_THREADS = 1024;
    private static final int MOST_CALLERS = 16;
    private static final int CALLERS_OF_HELD = 8;
    private static final int COUNTS = 16;
    private static final int OF_ORDER = 24;
    private static final int FIRST_THREAD = COUNTS + MOST_ORDERS * OF_ORDER;
    private static final int OF_THREAD = 192;
    private static final int OF_HELD = 88;
    private static final int SIZE_OF_THREAD = OF_THREAD + Task.MOST_HELD * OF_HELD;
    private static final int MOST_TIMERS = 16;
    private static final int OF_TIMER = 32;
    private static final int COUNTING = FIRST_THREAD + MOST_THREADS * SIZE_OF_THREAD + MOST_TIMERS * OF_TIMER + MOST_ORDERS * 4 + 12;

    static final int RUNS = 0;
    static final int STANDS = 1;
    static final int WAITS = 2;
    /** What is counted of an order. */
    private static final int REACHED = 0;
    private static final int UNDER = 1;
    private static final int PAUSES = 2;
    /** When it was come to first, in milliseconds, and behind that when it was last. */
    private static final int FIRST = 4;

    /** The limits of provoke/threads.c: milliseconds of all pauses of a process; the pauses of an order. */
    private static final int MOST_PAUSED = 10000;
    private static final int MOST_PAUSES = 40;
    private static final int PAUSES_OF_ONE_LENGTH = 10;
    /** Milliseconds from one look at all threads to the next. */
    private static final int LOOK = 100;

    private static final int BITS_OF_CLASS = 28;
    /** The mode of a reader who waits behind a writer that waits, as in the JDK all do. */
    private static final int READS_BEHIND = 2;
    /** What a thread waits in: an interrupt may end that, and no handler of a signal, which the machine runs in threads of its own. */
    private static final int IN_JOIN = 3;
    private static final int INTERRUPTIBLE = 0x10;
    private static final int WITHOUT_HANDLERS = 0x20;
    /** Who may release a lock. */
    private static final int BY_HOLDER = 1;
    private static final int BY_OTHERS = 3;

    /** What takes long to make, and isn't needed to record. */
    private static final class Later {
        /** The name of a class that is neither changed nor cut in a trace. */
        static final Pattern PLAIN_NAME = Pattern.compile("[!#-+./-?A-~-]{1,53}");
        static final VarHandle WORD = MethodHandles.byteBufferViewVarHandle(int[].class, ByteOrder.nativeOrder());
    }

    private static Provoke it;
    /** Whether the program may stop a thread, which ends each wait but that for a monitor. */
    private static volatile boolean mayStop;

    /** The orders of a place: a bit for each whose first lock is taken there, or whose second one is asked for. */
    static final class Fits {
        static final Fits NONE = new Fits();
        long holds;
        long wants;
        /** How often all callers were looked at there, which takes long. */
        int walks;
    }

    private final MappedByteBuffer table;
    private final File texts;
    private final HashMap<String, Fits> plan = new HashMap<>();
    private final HashMap<String, Long> numbers = new HashMap<>();
    private final int pid = (int) Recording.pid();
    private final int pause;
    /** The milliseconds of the first pause at an order, if that is another one. */
    private final int[] firsts = new int[MOST_ORDERS];
    private long paused;
    private long locks;
    /** Those of all tasks. */
    private final Set<Stand> all = ConcurrentHashMap.newKeySet();
    /** The threads that there are before the program begins, but for its first one: they do nothing by themselves. */
    private final List<Thread> ownOfMachine = new ArrayList<>(Arrays.asList(allThreads()));

    private Provoke(String path, String plan, String pause) throws IOException {
        try (RandomAccessFile file = new RandomAccessFile(path, "rw")) {
            table = file.getChannel().map(FileChannel.MapMode.READ_WRITE, 0, file.length());
        }
        table.order(ByteOrder.nativeOrder());
        ownOfMachine.remove(Thread.currentThread());
        texts = new File(path + ".texts");
        this.pause = Integer.parseInt(pause);
        int order = -1;
        for (String line : new String(Files.readAllBytes(Paths.get(plan)), StandardCharsets.UTF_8).split("\n")) {
            String[] words = line.split(" ", 3);
            if (words[0].equals("order")) firsts[++order % MOST_ORDERS] = words.length == 3 ? Integer.parseInt(words[2]) : 0;
            else if (words.length == 3 && words[1].equals("-") && order >= 0 && order < MOST_ORDERS) {
                Fits fits = this.plan.computeIfAbsent(words[2], text -> new Fits());
                if (words[0].equals("hold")) fits.holds |= 1L << order;
                else fits.wants |= 1L << order;
            }
        }
    }

    /** From here on threads of this process are held back. */
    public static void begin(String table, String plan, String pause) throws IOException {
        it = new Provoke(table, plan, pause);
        Thread counting = new Thread(it::countThreads, "lockdep");
        counting.setDaemon(true);
        counting.start();
    }

    /** All threads, of whatever group; also those that virtual ones run in, or are woken by. */
    private static Thread[] allThreads() {
        ThreadGroup all = Thread.currentThread().getThreadGroup();
        while (all.getParent() != null) all = all.getParent();
        Thread[] threads = new Thread[MOST_THREADS];
        int count = all.enumerate(threads);
        while (count == threads.length) { // there may be more
            threads = new Thread[2 * count];
            count = all.enumerate(threads);
        }
        return Arrays.copyOf(threads, count);
    }

    /** Writes how many threads can go on, now and then: those of the program, and that the machine has started for it, which don't wait without an end. */
    private void countThreads() {
        try {
            while (true) {
                int going = 0;
                for (Thread thread : allThreads()) if (canGoOn(thread)) going++;
                table.putInt(COUNTING + 4, going);
                table.putInt(COUNTING, pid);
                Thread.sleep(LOOK);
            }
        } catch (InterruptedException interrupted) {
            Thread.currentThread().interrupt();
        }
    }

    /** A thread without callers is one of the machine's own, as the one that waits for the others to end. */
    private boolean canGoOn(Thread thread) {
        Thread.State state = thread.getState();
        if (thread == Thread.currentThread() || state == Thread.State.BLOCKED || state == Thread.State.WAITING) return false;
        for (Thread own : ownOfMachine) if (own == thread) return false;
        return thread.getStackTrace().length > 0;
    }

    public static boolean isOn() {
        return it != null;
    }

    /** A class of the program's may stop a thread. */
    public static void noteStop() {
        mayStop = true;
    }

    // ---- What tasks call.

    /** The orders of a place. */
    static Fits fitsAt(String place) {
        return it == null ? Fits.NONE : it.plan.getOrDefault(place, Fits.NONE);
    }

    /** A thread is started at a place. To who joins it, it is a lock. */
    static void starts(Known life, int site) {
        if (it == null) return;
        life.orders |= Site.of(site).fits().holds;
        life.startedAt = new long[] {it.number(Site.of(site).innermost())};
    }

    /** A thread has a task from here on, and perhaps a life that others wait for. A virtual one isn't held back. */
    static Stand begin(String nameOfThread, Known life) {
        if (it == null) return null;
        boolean isVirtual = Thread.currentThread().getClass().getName().startsWith("java.lang.VirtualThread");
        Stand stand = new Stand(isVirtual ? 0 : it.freePlace(), it.number(nameOfThread), life);
        if (stand.place != 0) it.all.add(stand);
        return stand;
    }

    /** A task asks for a lock without a limit of time, and doesn't hold it. It is written if it holds others, or if readers may wait behind it. */
    static void ask(Stand stand, Known lock, int mode, Held[] held, int depth, int site, boolean hasReaders) {
        if (stand.place == 0) return;
        Fits fits = Site.of(site).fits();
        stand.asks(lock, Modes.isOfReader(mode), held, depth, it.callers(site, fits, fits.wants, MOST_CALLERS));
        if (fits.wants != 0) it.consider(stand, fits.wants);
        if (depth > 0 || hasReaders || stand.life != null) it.change(stand, WAITS);
    }

    /** A task goes on. */
    static void run(Stand stand) {
        it.change(stand, RUNS);
        stand.order = 0;
    }

    /** A task has taken a lock, or will have at its next operation: what is known of where. */
    static void took(Held entry, int site) {
        Fits fits = Site.of(site).fits();
        if (fits.holds != 0) entry.lock.orders |= fits.holds;
        entry.stack = it.callers(site, fits, fits.holds, CALLERS_OF_HELD);
    }

    /** A thread has ended. */
    static void end(Stand stand) {
        if (stand == null || stand.place == 0) return;
        it.all.remove(stand);
        Later.WORD.setVolatile((ByteBuffer) it.table, stand.place, 0);
    }

    // ---- Standing.

    private void consider(Stand stand, long wants) {
        long under = stand.life == null ? 0 : stand.life.orders & wants;
        for (int at = 0; at < stand.depth; at++) under |= stand.held[at].lock.orders & wants;
        count(wants, REACHED);
        noteTime(wants);
        count(under, UNDER);
        if (stand.depth == 0 && under == 0) return;
        long orders = under == 0 ? wants : under;
        int order = Long.numberOfTrailingZeros(orders);
        stand.order = under == 0 ? 0 : order + 1;
        int before = (int) Later.WORD.getVolatile((ByteBuffer) table, COUNTS + OF_ORDER * order + 4 * PAUSES);
        if (before >= MOST_PAUSES || paused() >= MOST_PAUSED) return;
        count(1L << order, PAUSES);
        stand.goes = false;
        change(stand, STANDS);
        boolean isFirst = before < Long.bitCount(orders); // of several orders of one place so many are
        int length = isFirst && firsts[order] != 0 ? firsts[order] : pause >> before / PAUSES_OF_ONE_LENGTH;
        stand(stand, length);
    }

    private void count(long orders, int what) {
        for (long left = orders; left != 0; left &= left - 1) {
            Later.WORD.getAndAdd((ByteBuffer) table, COUNTS + OF_ORDER * Long.numberOfTrailingZeros(left) + 4 * what, 1);
        }
    }

    private void noteTime(long orders) {
        int now = (int) (System.nanoTime() / 1000000L);
        for (long left = orders; left != 0; left &= left - 1) {
            int first = COUNTS + OF_ORDER * Long.numberOfTrailingZeros(left) + 4 * FIRST;
            Later.WORD.compareAndSet((ByteBuffer) table, first, 0, now);
            table.putInt(first + 4, now);
        }
    }

    private synchronized long paused() {
        return paused;
    }

    /** Holds this thread back until a cycle is closed, also by a writer that comes later, or for so many milliseconds, or until it is interrupted. */
    private void stand(Stand stand, int length) {
        long end = System.nanoTime() + length * 1000000L;
        try {
            while (!stand.goes && !leadsBack(stand, stand, new HashSet<>()) && System.nanoTime() < end) Thread.sleep(1);
        } catch (InterruptedException interrupted) {
            Thread.currentThread().interrupt();
        }
        synchronized (this) {
            paused += length;
        }
    }

    /** Whether who asks for a lock waits, over others that stand or wait, for this one. Those that stand are let go. */
    private boolean leadsBack(Stand from, Stand own, Set<Stand> seen) {
        boolean isBehindWriter = from.isReader && isBehindWriter(from);
        if ((from != own || isBehindWriter) && own.isInTheWay(from, isBehindWriter)) return true;
        for (Stand other : all) {
            if (other == own || !other.isAsking || !other.isInTheWay(from, isBehindWriter) || !seen.add(other)) continue;
            if (leadsBack(other, own, seen)) {
                other.goes = true;
                return true;
            }
        }
        return false;
    }

    private boolean isBehindWriter(Stand reader) {
        for (Stand other : all) {
            if (other.isAhead(reader)) return true;
        }
        return false;
    }

    // ---- The files.

    /** Where the table has room for this thread; 0 if it has none. */
    private int freePlace() {
        for (int at = 0; at < MOST_THREADS; at++) {
            int place = FIRST_THREAD + at * SIZE_OF_THREAD;
            if (Later.WORD.compareAndSet((ByteBuffer) table, place, 0, pid)) {
                table.putInt(place + 4, threadNumber());
                table.putInt(place + 12, RUNS);
                return place;
            }
        }
        return 0;
    }

    /** What the system calls this thread. */
    private static int threadNumber() {
        try {
            String name = Files.readSymbolicLink(Paths.get("/proc/thread-self")).getFileName().toString();
            return Integer.parseInt(name);
        } catch (IOException | RuntimeException unknown) {
            return 0;
        }
    }

    /** A task stands, waits or runs from here on. */
    private void change(Stand stand, int state) {
        if (state != RUNS) write(stand);
        table.putInt(stand.place + 12, state);
        table.putInt(stand.place + 16, stand.order);
        table.putInt(stand.place + 8, ++stand.changes);
        stand.isAsking = state != RUNS;
    }

    private void write(Stand stand) {
        int place = stand.place;
        table.putInt(place + 20, stand.isReader ? READS_BEHIND : 0);
        table.putLong(place + 24, numberOf(stand.awaited));
        table.putInt(place + 32, stand.stack.length);
        boolean isLifeShown = stand.life != null && stand.depth < Task.MOST_HELD;
        table.putInt(place + 36, stand.depth + (isLifeShown ? 1 : 0));
        for (int at = 0; at < stand.stack.length; at++) table.putLong(place + 40 + 8 * at, stand.stack[at]);
        table.putInt(place + 172, (int) stand.name);
        int join = stand.awaited.isLife() ? IN_JOIN | INTERRUPTIBLE : 0;
        boolean isInterruptible = stand.isInterruptible || mayStop && !stand.awaited.isMonitor;
        table.putInt(place + 184, WITHOUT_HANDLERS | join | (isInterruptible ? INTERRUPTIBLE : 0));
        for (int at = 0; at < stand.depth; at++) {
            Held held = stand.held[at];
            write(held.lock, held.isReader(), held.stack, place + OF_THREAD + at * OF_HELD);
        }
        if (isLifeShown) write(stand.life, false, stand.life.startedAt, place + OF_THREAD + stand.depth * OF_HELD);
    }

    private void write(Known lock, boolean isReader, long[] stack, int place) {
        table.putLong(place, numberOf(lock));
        table.putInt(place + 8, (isReader ? 1 : 0) | (lock.isOfHolder() ? BY_HOLDER : BY_OTHERS) << 8);
        table.putInt(place + 12, stack.length);
        table.putLong(place + 16, lock.orders);
        for (int at = 0; at < stack.length; at++) table.putLong(place + 24 + 8 * at, stack[at]);
    }

    /** A lock's own number, before the place of its class's name if a recording has that just so. */
    private long numberOf(Known lock) {
        return lock.number == 0 ? newNumber(lock) : lock.number;
    }

    private synchronized long newNumber(Known lock) {
        String name = lock.name();
        if (lock.number == 0) {
            lock.number = ++locks << BITS_OF_CLASS | (Later.PLAIN_NAME.matcher(name).matches() ? number(name) : 0);
        }
        return lock.number;
    }

    /** The callers of this thread, the innermost first; if the place is in no order, or was looked at often, only that. */
    private long[] callers(int site, Fits fits, long orders, int most) {
        Site at = Site.of(site);
        if (orders != 0 && fits.walks++ < Site.MOST_WALKS) return stack(most);
        if (at.only == null) at.only = new long[] {number(at.innermost())};
        return at.only;
    }

    private long[] stack(int most) {
        String[] places = Site.stack(most);
        long[] found = new long[places.length];
        for (int at = 0; at < found.length; at++) found[at] = number(places[at]);
        return found;
    }

    /** Where the second file has a text, which is added to it if it isn't there: 0 if that fails. */
    private synchronized long number(String text) {
        Long known = numbers.get(text);
        if (known != null) return known;
        boolean wasInterrupted = Thread.interrupted(); // (which would close the file)
        long number = 0;
        try (RandomAccessFile file = new RandomAccessFile(texts, "rw")) {
            file.getChannel().lock();
            number = file.length();
            file.seek(number);
            file.write((text + "\n").getBytes(StandardCharsets.UTF_8));
        } catch (IOException error) {
            number = 0;
        } finally {
            if (wasInterrupted) Thread.currentThread().interrupt();
        }
        numbers.put(text, number);
        return number;
    }
}
