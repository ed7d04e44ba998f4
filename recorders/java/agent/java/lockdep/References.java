package java.lockdep;

import java.io.IOException;
import java.util.Collection;
import java.util.Date;
import java.util.Hashtable;
import java.util.Properties;
import java.util.Stack;
import java.util.Vector;
import java.util.concurrent.TimeUnit;
import java.util.concurrent.locks.Condition;
import java.util.concurrent.locks.Lock;
import java.util.concurrent.locks.ReadWriteLock;
import java.util.concurrent.locks.ReentrantLock;
import java.util.concurrent.locks.ReentrantReadWriteLock;
import java.util.concurrent.locks.StampedLock;

/**
 * What references to methods become whose calls Hooks replaces, such as `lock::unlock`, and those to constructors of what is
 * locked, such as `ReentrantLock::new`. The first word is the place of the reference.
 */
public final class References {
    private References() {
    }

    // ---- Locks.

    public static void lock(int site, Lock lock) {
        Hooks.lock(lock, site);
    }

    public static void lockInterruptibly(int site, Lock lock) throws InterruptedException {
        Hooks.lockInterruptibly(lock, site);
    }

    public static boolean tryLock(int site, Lock lock) {
        return Hooks.tried(lock, lock.tryLock(), site);
    }

    public static boolean tryLock(int site, Lock lock, long time, TimeUnit unit) throws InterruptedException {
        return Hooks.tryLock(lock, time, unit, site);
    }

    public static void unlock(int site, Lock lock) {
        Hooks.unlocks(lock, site);
        lock.unlock();
    }

    public static Condition newCondition(int site, Lock lock) {
        return Hooks.made(lock, lock.newCondition());
    }

    // ---- Stamped locks.

    public static long writeLock(int site, StampedLock lock) {
        return Hooks.writeLock(lock, site);
    }

    public static long readLock(int site, StampedLock lock) {
        return Hooks.readLock(lock, site);
    }

    public static long writeLockInterruptibly(int site, StampedLock lock) throws InterruptedException {
        return Hooks.writeLockInterruptibly(lock, site);
    }

    public static long readLockInterruptibly(int site, StampedLock lock) throws InterruptedException {
        return Hooks.readLockInterruptibly(lock, site);
    }

    public static long tryWriteLock(int site, StampedLock lock) {
        return Hooks.tryWriteLock(lock, site);
    }

    public static long tryReadLock(int site, StampedLock lock) {
        return Hooks.tryReadLock(lock, site);
    }

    public static long tryWriteLock(int site, StampedLock lock, long time, TimeUnit unit) throws InterruptedException {
        return Hooks.tryWriteLock(lock, time, unit, site);
    }

    public static long tryReadLock(int site, StampedLock lock, long time, TimeUnit unit) throws InterruptedException {
        return Hooks.tryReadLock(lock, time, unit, site);
    }

    public static void unlockWrite(int site, StampedLock lock, long stamp) {
        Hooks.unlockWrite(lock, stamp, site);
    }

    public static void unlockRead(int site, StampedLock lock, long stamp) {
        Hooks.unlockRead(lock, stamp, site);
    }

    public static void unlock(int site, StampedLock lock, long stamp) {
        Hooks.unlock(lock, stamp, site);
    }

    public static boolean tryUnlockWrite(int site, StampedLock lock) {
        return Hooks.tryUnlockWrite(lock, site);
    }

    public static boolean tryUnlockRead(int site, StampedLock lock) {
        return Hooks.tryUnlockRead(lock, site);
    }

    public static long tryConvertToWriteLock(int site, StampedLock lock, long stamp) {
        return Hooks.tryConvertToWriteLock(lock, stamp, site);
    }

    public static long tryConvertToReadLock(int site, StampedLock lock, long stamp) {
        return Hooks.tryConvertToReadLock(lock, stamp, site);
    }

    public static long tryConvertToOptimisticRead(int site, StampedLock lock, long stamp) {
        return Hooks.tryConvertToOptimisticRead(lock, stamp, site);
    }

    public static Lock asReadLock(int site, StampedLock lock) {
        return Hooks.asReadLock(lock);
    }

    public static Lock asWriteLock(int site, StampedLock lock) {
        return Hooks.asWriteLock(lock);
    }

    public static ReadWriteLock asReadWriteLock(int site, StampedLock lock) {
        return Hooks.asReadWriteLock(lock);
    }

    // ---- Waits.

    public static void wait(int site, Object object) throws InterruptedException {
        Hooks.wait(object, site);
    }

    public static void wait(int site, Object object, long milliseconds) throws InterruptedException {
        Hooks.wait(object, milliseconds, site);
    }

    public static void wait(int site, Object object, long milliseconds, int nanoseconds) throws InterruptedException {
        Hooks.wait(object, milliseconds, nanoseconds, site);
    }

    public static void notify(int site, Object object) {
        Hooks.notify(object, site);
    }

    public static void notifyAll(int site, Object object) {
        Hooks.notifyAll(object, site);
    }

    public static void signal(int site, Condition condition) {
        Hooks.signal(condition, site);
    }

    public static void signalAll(int site, Condition condition) {
        Hooks.signalAll(condition, site);
    }

    public static void await(int site, Condition condition) throws InterruptedException {
        Hooks.await(condition, site);
    }

    public static boolean await(int site, Condition condition, long time, TimeUnit unit) throws InterruptedException {
        return Hooks.await(condition, time, unit, site);
    }

    public static long awaitNanos(int site, Condition condition, long time) throws InterruptedException {
        return Hooks.awaitNanos(condition, time, site);
    }

    public static boolean awaitUntil(int site, Condition condition, Date date) throws InterruptedException {
        return Hooks.awaitUntil(condition, date, site);
    }

    public static void awaitUninterruptibly(int site, Condition condition) {
        Hooks.awaitUninterruptibly(condition, site);
    }

    // ---- Threads.

    public static void start(int site, Object thread) {
        Hooks.begins(thread, site);
        ((Thread) thread).start();
    }

    public static void join(int site, Object thread) throws InterruptedException {
        Hooks.join(thread, site);
    }

    public static void join(int site, Object thread, long milliseconds) throws InterruptedException {
        Hooks.join(thread, milliseconds, site);
    }

    public static void join(int site, Object thread, long milliseconds, int nanoseconds) throws InterruptedException {
        Hooks.join(thread, milliseconds, nanoseconds, site);
    }

    // ---- Programs.

    public static Process start(int site, ProcessBuilder builder) throws IOException {
        Hooks.starts(builder);
        return builder.start();
    }

    public static void halt(int site, Runtime runtime, int status) {
        Hooks.halt(runtime, status);
    }

    // ---- Constructors.

    private static <T> T noted(T made, int site) {
        Hooks.made(made, site);
        return made;
    }

    public static Object newObject(int site) {
        return noted(new Object(), site);
    }

    public static Vector<?> newVector(int site) {
        return noted(new Vector<>(), site);
    }

    public static Vector<?> newVector(int site, Collection<?> of) {
        return noted(new Vector<>(of), site);
    }

    public static Stack<?> newStack(int site) {
        return noted(new Stack<>(), site);
    }

    public static Hashtable<?, ?> newHashtable(int site) {
        return noted(new Hashtable<>(), site);
    }

    public static Properties newProperties(int site) {
        return noted(new Properties(), site);
    }

    public static ReentrantLock newReentrantLock(int site) {
        return noted(new ReentrantLock(), site);
    }

    public static ReentrantLock newReentrantLock(int site, boolean isFair) {
        return noted(new ReentrantLock(isFair), site);
    }

    public static ReentrantReadWriteLock newReentrantReadWriteLock(int site) {
        return noted(new ReentrantReadWriteLock(), site);
    }

    public static ReentrantReadWriteLock newReentrantReadWriteLock(int site, boolean isFair) {
        return noted(new ReentrantReadWriteLock(isFair), site);
    }

    public static StampedLock newStampedLock(int site) {
        return noted(new StampedLock(), site);
    }
}
