package java.lockdep;

import java.util.concurrent.ConcurrentHashMap;

/** Where locks were made: a class, which is what the checker knows about them. */
final class Made {
    private static final ConcurrentHashMap<String, Made> all = new ConcurrentHashMap<>();
    private static int count;
    /** The kind of the class of a thread. */
    static final String STARTED = "started";
    /** So many locks of a class have names of their own before they are nested. */
    private static final int MOST_EARLY = 8;

    final int number;
    final String name;
    final String place;
    final String kind;
    /** Those of its locks that aren't told apart, as one. */
    final Key rest;
    boolean isTold;
    private volatile int ordinals;

    private Made(int number, String name, String place, String kind) {
        this.number = number;
        this.name = name;
        this.place = place;
        this.kind = kind;
        rest = Key.add(this, 0);
    }

    static Made of(String name, String place, String kind) {
        Made found = all.get(name);
        return found != null ? found : add(name, place, kind);
    }

    private static synchronized Made add(String name, String place, String kind) {
        Made found = all.get(name);
        if (found == null) {
            found = new Made(++count, name, place, kind);
            all.put(name, found);
        }
        return found;
    }

    /** The classes of monitors of objects that unseen code made, by the class of the object. */
    private static final ClassValue<Made> MONITORS = new ClassValue<>() {
        @Override
        protected Made computeValue(Class<?> type) {
            return ofClass(type, Known.isLock(type) ? ".monitor" : "");
        }
    };

    /** The class of what unseen code made: that of the object. */
    @Apart
    static Made ofObject(Object object, boolean isMonitor) {
        if (object instanceof Class) {
            String name = nameOf((Class<?>) object);
            return of(Site.fitting(name + ".class"), Site.placeOfClass(name), "the class object of");
        }
        return isMonitor ? MONITORS.get(object.getClass()) : ofClass(object.getClass(), "");
    }

    private static Made ofClass(Class<?> type, String suffix) {
        String name = nameOf(type);
        String place = type.isArray() ? Site.placeOfArray(name) : Site.placeOfClass(name);
        return of(Site.fitting(name + suffix), place, "any object of");
    }

    /** The name of a class, which is the same in each run even if the class is generated while the program runs. */
    private static String nameOf(Class<?> type) {
        if (type.isArray()) return nameOf(type.getComponentType()) + "[]";
        String name = type.getName();
        int lambda = name.indexOf("$$Lambda");
        if (lambda >= 0) return name.substring(0, lambda + "$$Lambda".length());
        return Source.nameInFile(name);
    }

    boolean hasEarly() {
        return ordinals < MOST_EARLY;
    }

    /** The next number of a lock that is told apart. */
    synchronized int nextOrdinal() {
        return ++ordinals;
    }
}
