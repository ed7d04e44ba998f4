package java.lockdep.agent;

import java.io.File;
import java.io.FileInputStream;
import java.io.IOException;
import java.io.InputStream;
import java.io.Serializable;
import java.lang.ref.Reference;
import java.lang.ref.ReferenceQueue;
import java.lang.ref.WeakReference;
import java.util.HashSet;
import java.util.Set;
import java.util.concurrent.ConcurrentHashMap;
import java.util.concurrent.atomic.AtomicReference;
import java.util.jar.JarFile;
import java.util.zip.ZipEntry;
import java.util.zip.ZipFile;

/**
 * Whether a class of the program is a lock, a thread or serialised: its file names its superclasses, and none of the
 * program's classes is loaded for that. What the files say is kept for each loader, which isn't kept alive.
 */
final class Hierarchy implements AutoCloseable {
    static final String LOCKS = "java/util/concurrent/locks/";
    static final Set<String> LOCK = Set.of(LOCKS + "Lock", LOCKS + "ReentrantLock",
            LOCKS + "ReentrantReadWriteLock$ReadLock",
            LOCKS + "ReentrantReadWriteLock$WriteLock");
    private static final Set<String> OF_LOCKS = Set.of(LOCKS + "Lock", LOCKS + "ReentrantLock", LOCKS + "ReadWriteLock",
            LOCKS + "ReentrantReadWriteLock");
    private static final Set<String> SYNCHRONIZER = Set.of(LOCKS + "AbstractQueuedSynchronizer",
            LOCKS + "AbstractQueuedLongSynchronizer");
    static final Set<String> STAMPED = Set.of(LOCKS + "StampedLock");
    private static final Set<String> THREAD = Set.of("java/lang/Thread");
    static final int MOST_ABOVE = 16;

    private final ClassLoader loader;
    private final OfLoader known;
    /** The folder or jar of the class that asks, in which others are looked for first, since that costs less; or null. */
    private final String location;
    /** The same once it was opened: one of these. */
    private File folder;
    private Jar jar;
    /** Classes whose files were looked for, for the class that asks, and not found. */
    private final Set<String> unfound = new HashSet<>(0);
    /** The class that asks, if it is hidden. */
    private String hiddenName;
    private Facts hidden;

    Hierarchy(ClassLoader loader, String location) {
        this.loader = loader;
        this.location = location;
        known = OfLoader.of(loader);
    }

    @Override
    public void close() throws IOException {
        if (jar != null) jar.giveBack();
    }

    /** Whether the classes of the loader find what rewritten ones call. One may hand on only some packages of the JDK's. */
    boolean findsHooks() {
        if (known.findsHooks == null) known.findsHooks = loader == null || finds(Calls.HOOKS);
        return known.findsHooks;
    }

    private boolean finds(String name) {
        try {
            return Class.forName(name.replace('/', '.'), false, loader).getClassLoader() == null;
        } catch (ClassNotFoundException | LinkageError | RuntimeException hidden) {
            return false;
        }
    }

    /** A class is being loaded. No other class finds a hidden one by its name, which another one may have too. */
    void add(ClassFile type, Locking locking, boolean isHidden) {
        Facts facts = new Facts(type, locking);
        if (isHidden) {
            hiddenName = type.name;
            hidden = facts;
            return;
        }
        known.classes.put(type.name, facts);
        known.missing.remove(type.name);
    }

    /** Whether a class is a Lock, or one below it. */
    boolean isLock(String name) {
        return isBelow(name, LOCK, MOST_ABOVE);
    }

    boolean isStamped(String name) {
        return isBelow(name, STAMPED, MOST_ABOVE);
    }

    boolean isThread(String name) {
        return isBelow(name, THREAD, MOST_ABOVE);
    }

    /** Whether a class waits by AbstractQueuedSynchronizer for itself, and not as a part of a Lock, whose calls are recorded. */
    boolean isSynchronizer(String name, String superName) {
        if (!isBelow(superName, SYNCHRONIZER, MOST_ABOVE)) return false;
        for (int end = name.length(); end > 0; end = name.lastIndexOf('$', end - 1)) {
            if (isBelow(name.substring(0, end), OF_LOCKS, MOST_ABOVE)) return false;
        }
        return true;
    }

    boolean isBelow(String name, Set<String> wanted, int most) {
        if (wanted.contains(name)) return true;
        if (name == null || most == 0 || name.startsWith("java/") || name.startsWith("[")) return false;
        Facts facts = facts(name);
        if (facts == null) return false;
        if (isBelow(facts.superName, wanted, most - 1)) return true;
        for (String above : facts.interfaces) {
            if (isBelow(above, wanted, most - 1)) return true;
        }
        return false;
    }

    /** Whether a class, or one above it, is of the program and has no file that is found. */
    boolean isUnknown(String name) {
        return isUnknown(name, MOST_ABOVE);
    }

    private boolean isUnknown(String name, int most) {
        if (name == null || most == 0 || name.startsWith("java/") || name.startsWith("[")) return false;
        Facts facts = facts(name);
        if (facts == null || isUnknown(facts.superName, most - 1)) return true;
        for (String above : facts.interfaces) {
            if (isUnknown(above, most - 1)) return true;
        }
        return false;
    }

    /**
     * Whether the objects of a class of the program are locked by it or by what is above it, or are locks. It is said that
     * they aren't if one of these classes wasn't loaded and isn't in the folder or jar of the class that asks.
     */
    boolean isOfItself(String name) {
        String above = name;
        for (int most = MOST_ABOVE; most > 0 && above != null && !above.startsWith("java/"); most--) {
            boolean isMissing = known.missing.contains(above) && !above.equals(hiddenName);
            if (above.endsWith("Exception") || above.endsWith("Error") || isMissing) return false;
            Facts facts = facts(above, false);
            if (facts == null) known.missing.add(above);
            if (facts == null || facts.isOfItself) return facts != null;
            above = facts.superName;
        }
        return false;
    }

    /** Whether a class may be one whose objects are serialised: what is above it says so, or isn't known. */
    boolean maySerialize(String name, int most) {
        if (name == null) return false;
        if (name.startsWith("java/")) return isSerializableOfJdk(name);
        Facts facts = most == 0 ? null : facts(name);
        return facts == null || maySerialize(facts.superName, facts.interfaces, most - 1);
    }

    boolean maySerialize(String superName, String[] interfaces, int most) {
        if (maySerialize(superName, most)) return true;
        for (String above : interfaces) {
            if (maySerialize(above, most)) return true;
        }
        return false;
    }

    private static boolean isSerializableOfJdk(String name) {
        try {
            return Serializable.class.isAssignableFrom(Class.forName(name.replace('/', '.'), false, null));
        } catch (ClassNotFoundException | LinkageError unknown) {
            return true;
        }
    }

    private Facts facts(String name) {
        return facts(name, true);
    }

    private Facts facts(String name, boolean isFarLookedFor) {
        if (name.equals(hiddenName)) return hidden;
        Facts found = known.classes.get(name);
        if (found != null) return found;
        if (isFarLookedFor && unfound.contains(name)) return null;
        ClassFile type = read(name + ".class", isFarLookedFor);
        if (type == null && isFarLookedFor) unfound.add(name);
        if (type == null) return null;
        found = new Facts(type, new Locking(type));
        known.classes.put(name, found);
        return found;
    }

    private ClassFile read(String file, boolean isFarLookedFor) {
        try (InputStream near = location == null ? null : openNear(file); InputStream bytes = near != null ? near
                : isFarLookedFor ? openFar(file) : null) {
            return bytes == null ? null : new ClassFile(bytes.readAllBytes());
        } catch (IOException | RuntimeException | LinkageError unreadable) {
            return null;
        }
    }

    private InputStream openFar(String file) {
        return loader == null ? ClassLoader.getSystemResourceAsStream(file) : loader.getResourceAsStream(file);
    }

    private InputStream openNear(String file) throws IOException {
        if (folder == null && jar == null) open(new File(location));
        if (folder != null) {
            File found = new File(folder, file);
            return found.isFile() ? new FileInputStream(found) : null;
        }
        ZipEntry entry = jar.getEntry(file);
        return entry == null ? null : jar.getInputStream(entry);
    }

    private void open(File place) throws IOException {
        if (place.isDirectory()) folder = place;
        else jar = Jar.of(place);
    }

    /** A jar that is open. The last one that was needed stays open, since the next class is often of the same jar. */
    private static final class Jar extends JarFile {
        private static final AtomicReference<Jar> last = new AtomicReference<>();

        private final long modified;

        private Jar(File file) throws IOException {
            super(file, false, ZipFile.OPEN_READ, JarFile.runtimeVersion());
            modified = file.lastModified();
        }

        /** A jar for one thread, until that gives it back. */
        static Jar of(File file) throws IOException {
            Jar found = last.getAndSet(null);
            if (found != null && found.getName().equals(file.getPath()) && found.modified == file.lastModified()) {
                return found;
            }
            if (found != null) found.close();
            return new Jar(file);
        }

        void giveBack() throws IOException {
            Jar other = last.getAndSet(this);
            if (other != null) other.close();
        }
    }

    /** What the file of a class says of it. */
    private static final class Facts {
        final String superName;
        final String[] interfaces;
        final boolean isOfItself;

        Facts(ClassFile type, Locking locking) {
            superName = type.superName;
            interfaces = type.interfaces;
            isOfItself = locking.isOfItself();
        }
    }

    /** What is known of the classes that a loader finds, which doesn't keep the loader alive. */
    private static final class OfLoader extends WeakReference<ClassLoader> {
        /** So many classes of the program's own loader have room before the table grows, and of another one. */
        private static final int FIRST_ROOM = 1 << 10;
        private static final int LITTLE_ROOM = 8;
        private static final ConcurrentHashMap<OfLoader, OfLoader> all = new ConcurrentHashMap<>();
        private static final ReferenceQueue<ClassLoader> gone = new ReferenceQueue<>();
        private static final OfLoader BOOT = new OfLoader(null);

        final ConcurrentHashMap<String, Facts> classes;
        final Set<String> missing = ConcurrentHashMap.newKeySet();
        /** Whether its classes find what rewritten ones call; null if that wasn't tried yet. */
        volatile Boolean findsHooks;
        private final int hash;

        private OfLoader(ClassLoader loader) {
            super(loader, gone);
            hash = System.identityHashCode(loader);
            boolean isOwn = loader == ClassLoader.getSystemClassLoader();
            classes = new ConcurrentHashMap<>(isOwn ? FIRST_ROOM : LITTLE_ROOM);
        }

        static OfLoader of(ClassLoader loader) {
            if (loader == null) return BOOT;
            for (Reference<?> old = gone.poll(); old != null; old = gone.poll()) all.remove(old);
            OfLoader made = new OfLoader(loader);
            OfLoader before = all.putIfAbsent(made, made);
            return before == null ? made : before;
        }

        @Override
        public int hashCode() {
            return hash;
        }

        @Override
        public boolean equals(Object other) {
            ClassLoader loader = get();
            return this == other || loader != null && other instanceof OfLoader && ((OfLoader) other).get() == loader;
        }
    }
}
