package java.lockdep;

import java.io.File;
import java.io.FileOutputStream;
import java.io.IOException;
import java.lang.reflect.Method;
import java.nio.charset.StandardCharsets;
import java.util.ArrayList;
import java.util.HashMap;

/**
 * The recording of this process: its tasks, and its file, whose lines recorders/python/lockdep_record/recording.py
 * explains. What no task of the process had done before is written at once, so that nothing is missing if a signal
 * ends the process.
 */
public final class Recording {
    /** How many tasks that do the same from beginning to end are written. */
    private static final int MOST_ALIKE = 32;
    /** Of a program that is started, how many of the last words are noted, and how much of each. */
    private static final int MOST_WORDS = 32;
    private static final int LONGEST_WORD = 4000;
    /** How long the end waits for threads that are being recorded, in milliseconds. */
    private static final int LONGEST_LOOK = 500;

    /** Whether recording has ended. */
    static volatile boolean isOver = true;
    /**
     * How many tasks an error has ended; two at once may count as one. (No method is called to count one, since the stack
     * may be full.)
     */
    static volatile int broken;
    static final Way.Common common = new Way.Common();
    static String[] sources = {};

    private static Recording it;

    private final File path;
    private final FileOutputStream file;
    private final ArrayList<Task> tasks = new ArrayList<>();
    /** The tasks by their threads' hashes; of two with one hash the younger. */
    private final HashMap<Integer, Task> byThread = new HashMap<>();
    private final HashMap<String, Integer> places = new HashMap<>();
    private final HashMap<Integer, Integer> like = new HashMap<>();
    private final String[] names = {"operations", "repeats", "retried-tries", "beyond-held", "full-traces",
            "unseen-releases",
        "interrupted", "alike", "unrewritten", "synchronizers", "unrewritten-methods"};
    private final long[] counts = new long[names.length];
    private final long[] told = new long[names.length];
    /** How many tasks were left in the middle of a look, and not counted among those that an error has ended. */
    private int left;
    private int taskCount;
    private int nextSwept;
    private boolean hasEnded;

    private Recording(File path) throws IOException {
        this.path = path;
        this.file = path == null ? null : new FileOutputStream(path, true);
    }

    /** From here on this process is recorded, into a folder of the recordings of all processes. */
    public static void begin(File folder, String[] sourceFolders) throws IOException {
        long pid = pid();
        int number = 0;
        File path = new File(folder, pid + "-" + number);
        while (!path.createNewFile()) path = new File(folder, pid + "-" + ++number);
        Recording recording = new Recording(path);
        recording.put("process " + pid + " " + System.currentTimeMillis() + "000000\n");
        Steps.begin(path);
        begin(recording, sourceFolders);
    }

    /** The number of this process. (To ask the JDK for it makes a pool of threads.) */
    static long pid() {
        try {
            return Long.parseLong(new File("/proc/self").getCanonicalFile().getName());
        } catch (IOException | NumberFormatException notThere) {
            return ProcessHandle.current().pid();
        }
    }

    /** From here on it is known what threads hold, and nothing is written. */
    public static void beginUnwritten(String[] sourceFolders) throws IOException {
        begin(new Recording(null), sourceFolders);
    }

    private static void begin(Recording recording, String[] sourceFolders) {
        sources = sourceFolders;
        it = recording;
        isOver = false;
    }

    /** Whether this process is already recorded, as when both the command line and the environment name the agent. */
    public static boolean hasBegun() {
        return it != null;
    }

    /** Lets the recorder look at private parts of the JDK, whose packages have been opened for that. */
    public static void openBase() throws ReflectiveOperationException {
        Known.openViews();
    }

    /** Loads what tasks need, before any class of the JDK that it needs itself is rewritten. */
    public static void warmUp() {
        Task.ofThisThread();
    }

    /** Ends the recording after the program's own shutdown hooks; or at the same time, if the JDK doesn't allow that. */
    public static void atEnd(int place) {
        try {
            Method add = Class.forName("java.lang.Shutdown").getDeclaredMethod("add", int.class, boolean.class,
                    Runnable.class);
            add.setAccessible(true);
            add.invoke(null, place, false, new End());
        } catch (ReflectiveOperationException | RuntimeException closed) {
            Runtime.getRuntime().addShutdownHook(new Thread(new End()));
        }
    }

    /** (Not a lambda expression, since to make the first one of a process takes long.) */
    private static final class End implements Runnable {
        @Override
        public void run() {
            end();
        }
    }

    // ---- What tasks call.

    static void add(Task task) {
        Recording recording = it;
        synchronized (recording) {
            recording.sweep();
            recording.sweep();
            recording.tasks.add(task);
            recording.byThread.put(task.hashOfThread, task);
        }
    }

    /** The task that a thread has already; null if none is known. */
    static Task taskOf(Thread thread) {
        Recording recording = it;
        synchronized (recording) {
            Task task = recording.byThread.get(System.identityHashCode(thread));
            return task == null || task.thread.get() != thread ? null : task;
        }
    }

    @Apart
    static void write(Trace task) {
        synchronized (it) {
            it.writeRecords(task);
        }
    }

    /** Only this many of the records stay that the file has of a task. */
    @Apart
    static void cut(Trace task, int count) {
        synchronized (it) {
            it.put("B " + task.number + " " + count + "\n");
        }
    }

    /** A task's record that the file has belongs to another lock. */
    static void rename(Trace task, int record, int code) {
        synchronized (it) {
            StringBuilder text = new StringBuilder();
            it.declare(code, text);
            it.put(text.append("M ").append(task.number).append(' ').append(record).append(' ').append(code)
                    .append('\n').toString());
        }
    }

    /** The lock that a thread is to who joins it, once its task is in the file. */
    static void tellLife(Known life) {
        synchronized (it) {
            StringBuilder text = new StringBuilder();
            it.addLife(life, text);
            it.put(text.toString());
        }
    }

    /** The lock of a key that the order of steps has. */
    @Apart
    static void tellKey(int key) {
        synchronized (it) {
            StringBuilder text = new StringBuilder();
            it.declare(key << 3, text);
            it.put(text.toString());
        }
    }

    /** The number of a place that the order of steps has. */
    @Apart
    static int tellPlace(Site site) {
        synchronized (it) {
            StringBuilder text = new StringBuilder();
            int number = site.told(it, text);
            it.put(text.toString());
            return number;
        }
    }

    /** A class of the program is left unchanged. */
    public static void unrewritten() {
        synchronized (it) {
            it.counts[8]++;
        }
    }

    /** A method of the program is left unchanged, and the rest of its class isn't. */
    public static void unrewrittenMethod() {
        synchronized (it) {
            it.counts[10]++;
        }
    }

    /** A class of the program waits by AbstractQueuedSynchronizer, which isn't recorded. */
    public static void synchronizer() {
        synchronized (it) {
            it.counts[9]++;
        }
    }

    /** A program is started from a folder. Whether the agent is loaded into it too, if it is Java, is in the environment. */
    static void starts(String[] words, File folder) {
        if (words[0].indexOf('/') >= 0) {
            File program = new File(words[0]);
            if (folder != null && !program.isAbsolute()) program = new File(folder, words[0]);
            words[0] = program.getAbsolutePath();
        }
        String options = Variables.get("JAVA_TOOL_OPTIONS");
        StringBuilder text = new StringBuilder("X started 1 ")
                .append(options != null && options.contains("lockdep-agent") ? "recorded " : "- ");
        text.append(onOneLine(words[0]));
        for (int at = Math.max(1, words.length - MOST_WORDS); at < words.length; at++) {
            text.append('\t').append(onOneLine(words[at]));
        }
        synchronized (it) {
            it.put(text.append('\n').toString());
        }
    }

    private static String onOneLine(String word) {
        return (word.length() <= LONGEST_WORD ? word : word.substring(0, LONGEST_WORD)).replaceAll("\\p{Cntrl}", "?");
    }

    // ---- The file.

    /** Adds to the file. Errors never reach the program. */
    private void put(String text) {
        if (hasEnded || text.isEmpty() || file == null) return;
        try {
            file.write(text.getBytes(StandardCharsets.UTF_8));
        } catch (IOException error) {
            hasEnded = true;
            isOver = true;
            noteLost();
        }
    }

    /** Notes by an empty file, for which even a full disk may have room, that this one isn't written to its end. */
    private void noteLost() {
        try {
            new File(path + ".lost").createNewFile();
        } catch (IOException error) {
            return;
        }
    }

    private void writeRecords(Trace task) {
        StringBuilder text = new StringBuilder();
        if (task.number == 0) {
            task.number = ++taskCount;
            text.append("N ").append(task.number).append('\t').append(task.threadName()).append('\n');
            text.append("J ").append(task.number).append(' ').append(task.member).append('\n');
        }
        if (task.life != null) addLife(task.life, text);
        StringBuilder lines = new StringBuilder();
        for (int at = 0; at < task.size; at++) {
            int code = task.records[2 * at];
            int site = task.records[2 * at + 1];
            declare(code, text);
            lines.append((code & 7) == Modes.RELEASE ? "R " : "A ").append(task.number).append(' ').append(code)
                    .append(' ')
                    .append(site == 0 ? 0 : Site.of(site).told(this, text)).append('\n');
        }
        task.base += task.size;
        task.size = 0;
        count(task);
        addCounts(lines);
        put(text.append(lines).toString());
    }

    private void addLife(Known life, StringBuilder text) {
        Task task = life.task;
        if (life.isTold || !life.isWaitedFor || task == null || task.number == 0) return;
        life.isTold = true;
        declare(life.key << 3, text);
        text.append("T ").append(task.number).append(' ').append(life.key).append('\n');
    }

    /** The number of a place, which is written if the file doesn't have it. */
    @Apart
    int numberOfPlace(String place, StringBuilder text) {
        Integer number = places.get(place);
        if (number == null) {
            number = places.size() + 1;
            places.put(place, number);
            text.append("P ").append(number).append('\t').append(place).append('\n');
        }
        return number;
    }

    /** Writes the lock of a code, and its class, if the file doesn't have them. */
    private void declare(int code, StringBuilder text) {
        Key key = Key.of(code);
        if (!key.isTold) declare(key, text);
    }

    @Apart
    private void declare(Key key, StringBuilder text) {
        key.isTold = true;
        Made made = key.made;
        if (!made.isTold) {
            made.isTold = true;
            text.append("C ").append(made.number).append('\t').append(made.name).append('\t').append(made.place)
                    .append('\t').append(made.kind).append('\n');
        }
        text.append("K ").append(key.number).append(' ').append(made.number).append(' ').append(key.ordinal)
                .append('\n');
    }

    /** Adds a task's own counts to those of the process. */
    private void count(Trace task) {
        counts[0] += task.operations;
        counts[1] += task.repeats;
        counts[2] += task.retriedTries;
        counts[3] += task.beyondHeld;
        counts[4] += task.fullTraces;
        counts[5] += task.unseenReleases;
        task.operations = task.repeats = task.retriedTries = task.beyondHeld = task.fullTraces =
                task.unseenReleases = 0;
    }

    private void addCounts(StringBuilder lines) {
        counts[6] = broken + left;
        for (int at = 0; at < names.length; at++) {
            if (counts[at] != told[at]) addCount(at, lines);
        }
    }

    @Apart
    private void addCount(int at, StringBuilder lines) {
        lines.append("S ").append(names[at]).append(' ').append(counts[at]).append('\n');
        told[at] = counts[at];
    }

    // ---- The end of a task.

    /** Looks at one task, and ends it if its thread has ended. */
    private void sweep() {
        if (tasks.isEmpty()) return;
        nextSwept = nextSwept >= tasks.size() ? 0 : nextSwept;
        Task task = tasks.get(nextSwept);
        Thread thread = task.thread.get();
        if (thread != null && thread.isAlive()) {
            nextSwept++;
            return;
        }
        end(task);
        byThread.remove(task.hashOfThread, task);
        tasks.set(nextSwept, tasks.get(tasks.size() - 1));
        tasks.remove(tasks.size() - 1);
    }

    /** The thread of a task has ended. What several have already done in exactly this way isn't written again. */
    private void end(Task task) {
        Provoke.end(task.stand);
        if (task.isOver || isLeft(task)) return;
        task.end();
        count(task);
        if (task.number == 0 && task.size == 0) return;
        if (task.number == 0 && task.depth() == 0) {
            int codes = 1;
            for (int at = 0; at < task.size; at++) codes = 31 * codes + task.records[2 * at];
            int alike = like.getOrDefault(codes, 0) + 1;
            like.put(codes, alike);
            if (alike > MOST_ALIKE) {
                counts[7]++;
                return;
            }
        }
        writeRecords(task);
        put("E " + task.number + "\n");
    }

    // ---- The end of the process.

    /** Writes what is left of all tasks. Threads that still run aren't recorded from here on. */
    static void end() {
        Recording recording = it;
        if (recording == null) return;
        isOver = true;
        synchronized (recording) {
            if (recording.hasEnded) return;
            recording.waitForLooks();
            for (Task task : recording.tasks) recording.endOrWrite(task);
            StringBuilder lines = new StringBuilder();
            recording.addCounts(lines);
            Libraries.add(lines);
            recording.put(lines.toString());
            recording.hasEnded = true;
        }
    }

    /** Waits until no task is being examined; one whose thread itself waits for this monitor is given up after a while. */
    private void waitForLooks() {
        Task own = Task.ofThisThread();
        try {
            Thread.sleep(2);
            long end = System.nanoTime() + LONGEST_LOOK * 1000000L;
            while (isAnyLookedAt(own) && System.nanoTime() < end) wait(2);
        } catch (InterruptedException error) {
            Thread.currentThread().interrupt();
        }
    }

    private boolean isAnyLookedAt(Task own) {
        for (Task task : tasks) {
            if (task != own && !task.isOver && task.isLookedAt() && !isOutside(task.thread.get())) return true;
        }
        return false;
    }

    /** Whether a thread isn't in the recorder, which waits for nothing but for monitors. */
    private static boolean isOutside(Thread thread) {
        if (thread == null || thread == Thread.currentThread()) return true;
        Thread.State state = thread.getState();
        return state == Thread.State.WAITING || state == Thread.State.TIMED_WAITING || state == Thread.State.TERMINATED;
    }

    /** Whether a task, whose thread isn't in the recorder, is still being examined: an error came where nothing could be done about it. */
    private boolean isLeft(Task task) {
        boolean isIt = task.isLookedAt();
        if (isIt) left++;
        return isIt;
    }

    private void endOrWrite(Task task) {
        Thread thread = task.thread.get();
        boolean isRunning = thread != null && thread.isAlive();
        if (!isRunning) {
            end(task);
        } else if (!task.isOver && !(isOutside(thread) && isLeft(task))) {
            boolean waits = Blocked.waits(task, thread);
            if (task.size > 0) writeRecords(task);
            else count(task);
            if (waits) put("W " + task.number + "\n");
        }
    }
}
