package java.lockdep;

import java.lang.ref.WeakReference;
import java.lang.reflect.Field;
import java.lang.reflect.Method;
import java.util.concurrent.locks.Condition;
import java.util.concurrent.locks.Lock;
import java.util.concurrent.locks.ReadWriteLock;
import java.util.concurrent.locks.ReentrantLock;
import java.util.concurrent.locks.ReentrantReadWriteLock;
import java.util.concurrent.locks.StampedLock;

/**
 * What is known about a lock: its class, and the key that it is written with. It is found by the lock's object and
 * doesn't keep that alive. The parts of one lock, such as the two views of a read-write lock and its conditions, have it
 * as their target.
 */
final class Known extends WeakReference<Object> {
    static final int MOST_APART = 32;
    private static final int MOST_GIVERS = 8;
    private static final Known[] NO_GIVERS = {};

    final int hash;
    final boolean isMonitor;
    final boolean isReader;
    /** Whether its holder may take it again, and whether it is a lock of the JDK, whose calls take no other. */
    final boolean isReentrant;
    final boolean isOfJdk;
    /** Whether its class is one of the program's below ReentrantLock, and may override methods. */
    private final boolean isOwn;
    /** What is written instead of it: itself, unless it is a part. */
    final Known target;
    private Made made;
    int key;
    volatile boolean isApart;
    /** Whether it was taken before it was known where it is made, for example by the constructor of a superclass. */
    private boolean isEarly;
    /** Who holds a lock that another thread may release. */
    private Task[] holders;
    /** Of a condition: the locks that give it out beside its own, the newest ones. */
    private volatile Known[] givers = NO_GIVERS;
    /** Of a thread as a lock: its task, once it has one; whether somebody waits for its end; and whether the file says so. */
    volatile Task task;
    /** Who has waited for its end last, and never waits for it again. */
    volatile Task joiner;
    volatile boolean isWaitedFor;
    boolean isTold;
    /** Its number in the order of steps, and the key that was told there last; and the last message that was given by it. */
    volatile int step;
    private volatile int toldKey;
    volatile int message;
    private Messages messages;
    /** For Provoke: the orders whose first lock it was, and its number in the file. */
    volatile long orders;
    volatile long number;
    /** Of a thread: the place where it was started, there. */
    long[] startedAt = {};

    private Known(Object object, int hash, boolean isMonitor, boolean isReader, Known target, Made made) {
        super(object);
        this.hash = hash;
        this.isMonitor = isMonitor;
        this.isReader = isReader;
        this.target = target == null ? this : target;
        this.made = made;
        isReentrant = !(object instanceof StampedLock);
        isOfJdk = object.getClass().getClassLoader() == null || object instanceof ReentrantLock
                || object instanceof ReentrantReadWriteLock.ReadLock
                        || object instanceof ReentrantReadWriteLock.WriteLock;
        isOwn = object instanceof ReentrantLock && object.getClass() != ReentrantLock.class;
        key = made == null ? 0 : made.rest.number;
    }

    /** The name of its class. */
    String name() {
        Made known = made;
        return known == null ? "" : known.name;
    }

    private static Known find(Object object, boolean asMonitor) {
        return Table.find(object, System.identityHashCode(object), asMonitor);
    }

    private static Known add(Object object, boolean isMonitor, boolean isReader, Known target, Made made) {
        int hash = System.identityHashCode(object);
        return Table.add(new Known(object, hash, isMonitor, isReader, target, made), object);
    }

    static boolean isLock(Object object) {
        return object instanceof Lock || object instanceof ReadWriteLock || object instanceof StampedLock;
    }

    static boolean isLock(Class<?> type) {
        return Lock.class.isAssignableFrom(type) || ReadWriteLock.class.isAssignableFrom(type)
                || StampedLock.class.isAssignableFrom(type);
    }

    // ---- Locks that are made.

    /** An object was made that may be used as a lock. */
    @Apart
    static void made(Object object, Made made) {
        boolean isMonitor = !isLock(object);
        Object base = isMonitor ? object : baseOf(object);
        int hash = System.identityHashCode(base);
        Known known = Table.find(base, hash, isMonitor);
        if (known == null) known = Table.add(new Known(base, hash, isMonitor, false, null, made), base);
        else if (known.isEarly) known.nowMade(made);
        if (object instanceof ReentrantReadWriteLock) addViews((ReentrantReadWriteLock) object, known);
    }

    private synchronized void nowMade(Made by) {
        isEarly = false;
        if (isApart) return;
        made = by;
        key = by.rest.number;
    }

    /** Whether it is known where an object was made. */
    static boolean isMade(Object object) {
        boolean isMonitor = !isLock(object);
        Known known = find(isMonitor ? object : baseOf(object), isMonitor);
        return known != null && !known.isEarly;
    }

    private static void addViews(ReentrantReadWriteLock lock, Known target) {
        add(lock.readLock(), false, true, target, null);
        add(lock.writeLock(), false, false, target, null);
    }

    /** A view of a stamped lock. */
    static void addView(Object view, boolean isReader, Known target) {
        if (find(view, false) == null) add(view, false, isReader, target, null);
    }

    static void addCondition(Condition condition, Known lock) {
        if (condition == null) return;
        Known known = find(condition, false);
        if (known == null) add(condition, false, false, lock.target, null);
        else if (known.target != lock.target) known.addGiver(lock.target);
    }

    /** One of the program's own locks gives out a condition of the lock that it is built on: who waits for it holds both. */
    private synchronized void addGiver(Known lock) {
        if (isGivenOutBy(lock)) return;
        Known[] before = givers;
        int count = Math.min(before.length, MOST_GIVERS - 1);
        Known[] more = new Known[count + 1];
        System.arraycopy(before, before.length - count, more, 0, count);
        more[count] = lock;
        givers = more;
    }

    /** Whether nobody but its holder can release it. */
    boolean isOfHolder() {
        return isMonitor || isLife() || (isReentrant && isOfJdk);
    }

    /** Whether it is a thread that was seen to start. */
    boolean isLife() {
        return made != null && made.kind.equals(Made.STARTED);
    }

    boolean isGivenOutBy(Known lock) {
        for (Known giver : givers) {
            if (giver == lock) return true;
        }
        return false;
    }

    // ---- Locks that are taken.

    /**
     * What is known from here on about a monitor, or a lock of java.util.concurrent.locks or of another class that is used
     * like one.
     */
    @Apart
    static Known add(Object lock, int hash, boolean isMonitor) {
        Object base = isMonitor ? lock : baseOf(lock);
        if (base == lock) return addEarly(lock, hash, isMonitor);
        Known known = find(base, false);
        if (known == null) {
            String name = ReentrantReadWriteLock.class.getName();
            known = add(base, false, false, null, Made.of(name, Site.placeOfClass(name), "any object of"));
        }
        return add(lock, false, lock instanceof ReentrantReadWriteLock.ReadLock, known, null);
    }

    private static Known addEarly(Object object, int hash, boolean isMonitor) {
        Known known = new Known(object, hash, isMonitor, false, null, Made.ofObject(object, isMonitor));
        known.isEarly = true;
        return Table.add(known, object);
    }

    static Known ofCondition(Condition condition) {
        return find(condition, false);
    }

    // ---- The two views of a read-write lock have one object inside.

    private static volatile Field ofReader;
    private static volatile Field ofWriter;

    /** Finds out how to look into the views, for which the locks' package has been opened. */
    static void openViews() throws ReflectiveOperationException {
        ofReader = inside(ReentrantReadWriteLock.ReadLock.class);
        ofWriter = inside(ReentrantReadWriteLock.WriteLock.class);
    }

    private static Field inside(Class<?> view) throws ReflectiveOperationException {
        Field found = view.getDeclaredField("sync");
        found.setAccessible(true);
        return found;
    }

    @Apart
    private static Object baseOf(Object lock) {
        Field reader = ofReader;
        Field writer = ofWriter;
        if (reader == null || writer == null) return lock;
        try {
            if (lock instanceof ReentrantReadWriteLock) return writer.get(((ReentrantReadWriteLock) lock).writeLock());
            if (lock instanceof ReentrantReadWriteLock.ReadLock) return reader.get(lock);
            if (lock instanceof ReentrantReadWriteLock.WriteLock) return writer.get(lock);
            return lock;
        } catch (IllegalAccessException closed) {
            return lock;
        }
    }

    /**
     * Whether a lock of a class below ReentrantLock has just so many levels: then an acquisition is recorded, as the one
     * through `super` that another method makes for its override.
     */
    boolean hasLevels(int levels) {
        Object lock = isOwn ? get() : null;
        return lock != null && ((ReentrantLock) lock).getHoldCount() == levels;
    }

    /** Whether the running thread holds a read lock, or that can't be known. */
    static boolean mayRead(ReentrantReadWriteLock.ReadLock lock) {
        Field reader = ofReader;
        if (reader == null) return true;
        try {
            Method count = reader.getType().getDeclaredMethod("getReadHoldCount");
            count.setAccessible(true);
            return (int) count.invoke(reader.get(lock)) > 0;
        } catch (ReflectiveOperationException | RuntimeException closed) {
            return true;
        }
    }

    // ---- Threads, which are locks to who joins them.

    static Known started(Thread thread, Made made) {
        Known known = find(thread, false);
        return known != null ? known : add(thread, false, false, null, made);
    }

    /** What is known of a thread that was seen to start, or null. */
    static Known ofThread(Thread thread) {
        Known known = find(thread, false);
        return known != null && known.isLife() ? known : null;
    }

    /** Somebody waits for the end of this thread. */
    void waitFor() {
        if (!isApart) tellApart();
        isWaitedFor = true;
        Recording.tellLife(this);
    }

    // ---- Objects by which threads tell one another something.

    static Known by(Object object) {
        Known known = find(object, false);
        return known != null ? known : add(object, false, false, null, null);
    }

    synchronized Messages messages() {
        if (messages == null) messages = new Messages();
        return messages;
    }

    // ---- The order of steps.

    /** The number of the lock there. */
    @Within
    int step(Trace task) {
        return toldKey == key ? step : tellStep(task);
    }

    @Apart
    private synchronized int tellStep(Trace task) {
        if (step == 0) step = Steps.locks.incrementAndGet();
        if (toldKey != key) {
            Recording.tellKey(key);
            Steps.put(task, Steps.word(Steps.NAMES, step, key, 0));
            toldKey = key;
        }
        return step;
    }

    // ---- Single locks.

    /**
     * A lock is taken alone by a thread that may be joined: the first ones of a class get their own names even so, since
     * they may be held by who joins it. If it is found out later where such a lock is made, its name there is another one,
     * as long as it wasn't nested.
     */
    void tellApartEarly() {
        if (isApart || made == null || key != made.rest.number || !made.hasEarly()) return;
        if (isEarly) addNumber();
        else tellApart();
    }

    /** A lock that is nested with others gets its own name, if not too many of its class have one. */
    @Apart
    synchronized void tellApart() {
        if (isApart) return;
        addNumber();
        isApart = true;
    }

    private synchronized void addNumber() {
        if (key != made.rest.number) return;
        int ordinal = made.nextOrdinal();
        if (ordinal <= MOST_APART) key = Key.add(made, ordinal).number;
    }

    // ---- Locks that another thread may release.

    @Apart
    synchronized void addHolder(Task task) {
        int count = holders == null ? 0 : holders.length;
        Task[] more = new Task[count + 1];
        if (count > 0) System.arraycopy(holders, 0, more, 0, count);
        more[count] = task;
        holders = more;
    }

    @Apart
    synchronized void removeHolder(Task task) {
        for (int at = 0; holders != null && at < holders.length; at++) {
            if (holders[at] == task) {
                Task[] fewer = new Task[holders.length - 1];
                System.arraycopy(holders, 0, fewer, 0, at);
                System.arraycopy(holders, at + 1, fewer, at, fewer.length - at);
                holders = fewer;
                return;
            }
        }
    }

    /** A thread releases what another one took: that one is found, if it was seen to take it. */
    synchronized Task otherHolder(Task than) {
        for (int at = 0; holders != null && at < holders.length; at++) {
            if (holders[at] != than) return holders[at];
        }
        return null;
    }
}
