package java.lockdep;

import java.lang.ref.WeakReference;
import java.util.Arrays;

/** The trace of a thread: what it holds, and its records that aren't in the file yet. */
abstract class Trace {
    static final int MOST_HELD = 48;
    /** (There is a release for each held lock.) */
    static final int MOST_EVENTS = 1000000 - 2 * MOST_HELD;

    final WeakReference<Thread> thread = new WeakReference<>(Thread.currentThread());
    /** Its number in the file, once it is there. */
    int number;
    long operations;
    long repeats;
    long retriedTries;
    long beyondHeld;
    long fullTraces;
    long unseenReleases;

    Held[] held = new Held[4];
    int depth;
    Way way = new Way(Recording.common);
    /** The records that aren't in the file yet, each a code and a place; how many; and how many are in it. */
    int[] records = new int[16];
    int size;
    int base;
    /** How many records there were when it last did something new. */
    private int fresh;
    /** What it waits for: the newest held lock. */
    Held pending;
    /** What its thread is to who joins it; null if it wasn't seen to start. */
    final Known life = Known.ofThread(Thread.currentThread());
    /** What it stands at or waits for, for Provoke; null if threads aren't held back. */
    final Stand stand = Provoke.begin(threadName(), life);
    /** What it took without a record; null if it never did that. */
    LeftOut leftOut;
    Known failed;
    /** How much it has taken. */
    long taken;
    volatile boolean hasDropped;
    /** Which one it is in the order of steps, where its next step goes, and where there is no room for it. */
    final int member = Steps.members.incrementAndGet();
    int nextStep;
    int endOfSteps;
    /** The taking that comes before its next step: what it takes is noted once the thread goes on, since it has it by then. 0 if there is none. */
    private long unnoted;
    /** The last message that what it waits for had when the wait began. */
    private int before;

    /** What the thread is called, without characters that would end a line. */
    final String threadName() {
        Thread of = thread.get();
        return of == null ? "" : Source.onOneLine(of.getName());
    }

    final int depth() {
        return depth;
    }

    final Held top() {
        return depth == 0 ? null : held[depth - 1];
    }

    final boolean waits() {
        return pending != null;
    }

    @Apart
    final void withdraw() {
        Held entry = pending;
        pending = null;
        depth--;
        way = entry.before;
        if (entry.record < base) {
            Recording.cut(this, entry.record);
            base = entry.record;
            size = 0;
        } else {
            size = entry.record - base;
        }
        entry.clear();
    }

    /**
     * Handles what happened since the last operation: an error may have ended a wait, or others may have released what
     * this task held.
     */
    @Within
    final void settle() {
        if (pending != null) withdraw();
        if (hasDropped) giveDropped();
    }

    @Apart
    private void giveDropped() {
        hasDropped = false;
        for (int at = depth - 1; at >= 0; at--) {
            if (held[at].isDropped) giveBack(held[at]);
        }
    }

    @Within
    final Held take(Known lock, Object object, int mode, int site) {
        settle();
        operations++;
        Held entry = push(lock, object, mode, site);
        if (Steps.isOn) noteTaking(lock, entry, mode, site);
        if (entry == null) leaveOut(object == null ? lock : object);
        else if (!way.isTaken) see();
        return entry;
    }

    // ---- The order of steps.

    /** A step of the thread, after those before it. */
    final void note(int verb, int number, int site, int mode) {
        if (!Steps.isOn) return;
        noteTaken();
        Steps.put(this, Steps.word(verb, number, site == 0 ? 0 : Site.of(site).number(), mode));
    }

    @Within
    private void noteTaken() {
        if (unnoted != 0) {
            Steps.put(this, unnoted);
            unnoted = 0;
        }
    }

    @Within
    final void noteTaking(Known lock, Held entry, int mode, int site) {
        noteTaken();
        unnoted = Steps.word(Steps.TAKES, lock.step(this), site == 0 ? 0 : Site.of(site).number(), mode);
        if (entry != null) entry.isInSteps = true;
    }

    /** A lock is about to be released. What was taken just before it is one step with that. */
    @Within
    final void noteRelease(Known lock) {
        if (!Steps.isOn || lock.step == 0) return;
        if (unnoted != 0 && Steps.numberIn(unnoted) == lock.step) {
            Steps.put(this, unnoted + Steps.PASSES - Steps.TAKES);
            unnoted = 0;
        } else {
            note(Steps.RELEASES, lock.step, 0, 0);
        }
    }

    /** The thread gives a message to who gets it; 0 if nothing is noted. */
    final int giveMessage(int site) {
        if (!Steps.isOn) return 0;
        int message = Steps.messages.incrementAndGet();
        note(Steps.GIVES, message, site, 0);
        return message;
    }

    /** The thread is about to wait for a message of a monitor or a condition. */
    final void beginWait(Known known) {
        before = known.message;
    }

    /** It goes on: what was given last meanwhile has woken it. */
    final void endWait(Known known, int site) {
        if (known.message != before) note(Steps.GETS, known.message, site, 0);
    }

    /** Adds to what is held, and to the records. Null if there is no room for it. */
    @Apart
    final Held push(Known lock, Object object, int mode, int site) {
        failed = null;
        if (depth > 0) tellAllApart(lock);
        else if (life != null) lock.tellApartEarly();
        if (depth == MOST_HELD || base + size >= MOST_EVENTS) return null;
        Held entry = depth < held.length ? held[depth] : null;
        if (entry == null) entry = addHeld();
        entry.lock = lock;
        entry.object = object;
        entry.code = lock.key << 3 | mode;
        entry.record = entry.start = base + size;
        entry.before = way;
        entry.levels = 1;
        entry.number = entry.callBegan = ++taken;
        way = way.to(entry.code);
        append(entry.code, way.isTaken || site == 0 ? site : placeOf(site));
        if (stand != null && site != 0) Provoke.took(entry, site);
        depth++;
        return entry;
    }

    @Apart
    private Held addHeld() {
        if (depth == held.length) held = Arrays.copyOf(held, 2 * depth);
        return held[depth] = new Held();
    }

    @Apart
    private int placeOf(int site) {
        return Site.of(site).isOfJdk() ? Site.withCaller(site) : site;
    }

    @Apart
    private void growRecords() {
        records = Arrays.copyOf(records, 2 * records.length);
    }

    @Within
    private void append(int code, int site) {
        if (2 * size == records.length) growRecords();
        records[2 * size] = code;
        records[2 * size + 1] = site;
        size++;
    }

    @Apart
    final void leaveOut(Object what) {
        if (leftOut == null) leftOut = new LeftOut();
        leftOut.add(what);
        if (depth == MOST_HELD) beyondHeld++;
        else fullTraces++;
    }

    /** A way is new to the task. If it is also new to the process, it is written. */
    @Apart
    final void see() {
        way.isTaken = true;
        fresh = base + size;
        if (way.common.isTaken) return;
        way.common.isTaken = true;
        Recording.write(this);
    }

    /** The task no longer holds a lock. What it did since it took the lock is dropped, if nothing of it was new. */
    @Apart
    final void giveBack(Held entry) {
        operations++;
        if (entry.isInSteps) noteRelease(entry.lock);
        if (held[depth - 1] != entry) {
            giveBackEarly(entry);
            return;
        }
        depth--;
        way = entry.before;
        if (entry.start < fresh) {
            append(entry.code & ~7 | Modes.RELEASE, 0);
        } else {
            takeBack(entry.start);
        }
        entry.clear();
    }

    /** Only this many records stay. */
    private void takeBack(int count) {
        repeats += base + size - count + 1;
        if (count < base) {
            Recording.cut(this, count);
            base = count;
        }
        size = count - base;
    }

    /**
     * A lock is released before others that were taken later: these move up to its place. What is dropped begins where
     * just those before it are held: that is where the one before it began, if that is a lock with the same code, or
     * nowhere.
     */
    @Apart
    private void giveBackEarly(Held entry) {
        int at = depth - 1;
        while (held[at] != entry) at--;
        int start = entry.start;
        for (int later = at + 1; later < depth; later++) {
            int own = held[later].start;
            held[later].start = start;
            start = held[later].code == entry.code && start >= 0 ? own : -1;
        }
        Way next = entry.before;
        for (int later = at; later < depth - 1; later++) {
            held[later] = held[later + 1];
            held[later].before = next;
            next = next.to(held[later].code);
        }
        way = next;
        depth--;
        held[depth] = entry;
        append(entry.code & ~7 | Modes.RELEASE, 0);
        entry.clear();
    }

    // ---- Single locks.

    /** A lock is taken with others held. All but the first of these were told apart when they were taken. */
    @Apart
    private void tellAllApart(Known lock) {
        Held first = held[0];
        if (depth == 1 && (!first.lock.isApart || first.code >>> 3 != first.lock.key)) tellHeldApart(first);
        if (!lock.isApart) lock.tellApart();
    }

    /** The lock that is held alone gets another one under it: it becomes a single lock, and so does its record. */
    @Apart
    private void tellHeldApart(Held entry) {
        if (!entry.lock.isApart) entry.lock.tellApart();
        int code = entry.lock.key << 3 | entry.code & 7;
        if (code == entry.code) return;
        entry.code = code;
        if (Steps.isOn && entry.isInSteps) entry.lock.step(this);
        if (entry.record >= base) records[2 * (entry.record - base)] = code;
        else Recording.rename(this, entry.record, code);
        way = entry.before.to(code);
        if (!way.isTaken) see();
    }
}
