package java.lockdep;

import java.lang.invoke.MethodHandle;
import java.util.concurrent.TimeUnit;
import java.util.concurrent.locks.Condition;
import java.util.concurrent.locks.Lock;

/**
 * What references become whose object may be a lock or a thread, as nobody knows before they are called. The first words
 * are the place of the reference, and what it refers to.
 */
public final class MaybeReferences {
    private MaybeReferences() {
    }

    public static void lock(int site, MethodHandle own, Object object) throws Throwable {
        if (object instanceof Lock) Hooks.lock((Lock) object, site);
        else own.invoke(object);
    }

    public static void lockInterruptibly(int site, MethodHandle own, Object object) throws Throwable {
        if (object instanceof Lock) Hooks.lockInterruptibly((Lock) object, site);
        else own.invoke(object);
    }

    public static boolean tryLock(int site, MethodHandle own, Object object) throws Throwable {
        return object instanceof Lock ? References.tryLock(site, (Lock) object) : (boolean) own.invoke(object);
    }

    public static boolean tryLock(int site, MethodHandle own, Object object, long time, TimeUnit unit) throws Throwable {
        if (object instanceof Lock) return Hooks.tryLock((Lock) object, time, unit, site);
        return (boolean) own.invoke(object, time, unit);
    }

    public static void unlock(int site, MethodHandle own, Object object) throws Throwable {
        if (object instanceof Lock) References.unlock(site, (Lock) object);
        else own.invoke(object);
    }

    public static Condition newCondition(int site, MethodHandle own, Object object) throws Throwable {
        return Maybe.made(object, (Condition) own.invoke(object));
    }

    public static void start(int site, MethodHandle own, Object object) throws Throwable {
        Maybe.begins(object, site);
        own.invoke(object);
    }

    public static void join(int site, MethodHandle own, Object object) throws Throwable {
        if (object instanceof Thread) Hooks.join(object, site);
        else own.invoke(object);
    }

    public static void join(int site, MethodHandle own, Object object, long milliseconds) throws Throwable {
        if (object instanceof Thread) Hooks.join(object, milliseconds, site);
        else own.invoke(object, milliseconds);
    }
}
