import java.util.Date;
import java.util.concurrent.TimeUnit;
import java.util.concurrent.locks.Condition;
import java.util.concurrent.locks.Lock;
import java.util.concurrent.locks.ReentrantLock;
import java.util.concurrent.locks.StampedLock;
import java.util.function.BooleanSupplier;
import java.util.function.LongConsumer;
import java.util.function.LongUnaryOperator;
import java.util.function.ObjLongConsumer;
import java.util.function.Supplier;

/** References to methods of stamped locks, of conditions and of the program's own locks, and to `wait`: each is what a call is. */
public class Refers {
    static class Own extends ReentrantLock {
    }

    static final StampedLock stamped = new StampedLock();
    static final Own lock = new Own();
    static final Object monitor = new Object();

    interface Failing {
        void run() throws Exception;
    }

    interface Taking {
        long take() throws InterruptedException;
    }

    interface TakingForATime {
        long take(long time, TimeUnit unit) throws InterruptedException;
    }

    interface TakingThat<T> {
        long take(T lock) throws InterruptedException;
    }

    interface WaitingForATime {
        void run(long time, TimeUnit unit) throws InterruptedException;
    }

    interface WaitingUntil {
        void run(Date date) throws InterruptedException;
    }

    interface WaitingFor<T> {
        void run(T object, long time) throws InterruptedException;
    }

    interface WaitingLong {
        void run(long milliseconds, int nanoseconds) throws InterruptedException;
    }

    static void run(Failing what) throws InterruptedException {
        Thread thread = new Thread(() -> {
            try {
                what.run();
            } catch (Exception error) {
                throw new Error(error);
            }
        });
        thread.start();
        thread.join();
    }

    static void takes() throws Exception {
        LongConsumer gives = stamped::unlock, givesWriter = stamped::unlockWrite, givesReader = stamped::unlockRead;
        Taking writer = stamped::writeLock, reader = stamped::readLock;
        run(() -> {
            givesWriter.accept(writer.take());
            givesReader.accept(reader.take());
        });
        for (Taking each : new Taking[] {stamped::writeLockInterruptibly, stamped::readLockInterruptibly,
            stamped::tryWriteLock, stamped::tryReadLock}) {
            run(() -> gives.accept(each.take()));
        }
        for (TakingForATime each : new TakingForATime[] {stamped::tryWriteLock, stamped::tryReadLock}) {
            run(() -> gives.accept(each.take(1, TimeUnit.SECONDS)));
        }
        TakingThat<StampedLock> any = StampedLock::readLock;
        ObjLongConsumer<StampedLock> givesAny = StampedLock::unlockRead;
        run(() -> givesAny.accept(stamped, any.take(stamped)));
    }

    static void changes() throws Exception {
        LongUnaryOperator reads = stamped::tryConvertToReadLock, writes = stamped::tryConvertToWriteLock;
        LongUnaryOperator looks = stamped::tryConvertToOptimisticRead;
        run(() -> looks.applyAsLong(writes.applyAsLong(reads.applyAsLong(stamped.writeLock()))));
        BooleanSupplier givesWriter = stamped::tryUnlockWrite, givesReader = stamped::tryUnlockRead;
        run(() -> {
            stamped.writeLock();
            givesWriter.getAsBoolean();
            stamped.readLock();
            givesReader.getAsBoolean();
        });
    }

    static void views() throws Exception {
        Supplier<Lock> reader = stamped::asReadLock, writer = stamped::asWriteLock;
        run(() -> {
            reader.get().lock();
            reader.get().unlock();
            writer.get().lock();
            writer.get().unlock();
        });
    }

    /** A wait with another monitor held, which is another order. */
    static void waitsForCondition(Failing waits) throws Exception {
        Runnable takes = lock::lock, gives = lock::unlock;
        run(() -> {
            takes.run();
            synchronized (Refers.class) {
                waits.run();
            }
            gives.run();
        });
    }

    static void waits() throws Exception {
        Supplier<Condition> makes = lock::newCondition;
        Condition condition = makes.get();
        WaitingForATime ofCondition = condition::await;
        WaitingUntil until = condition::awaitUntil;
        WaitingFor<Condition> nanoseconds = Condition::awaitNanos;
        waitsForCondition(() -> ofCondition.run(1, TimeUnit.MILLISECONDS));
        waitsForCondition(() -> until.run(new Date(0)));
        waitsForCondition(() -> nanoseconds.run(condition, 1000));
        WaitingLong ofMonitor = monitor::wait;
        WaitingFor<Object> ofAny = Object::wait;
        for (Failing each : new Failing[] {() -> ofMonitor.run(0, 1000), () -> ofAny.run(monitor, 1)}) {
            run(() -> {
                synchronized (monitor) {
                    synchronized (Refers.class) {
                        each.run();
                    }
                }
            });
        }
    }

    /** Waits without a limit, which an interrupt ends. */
    static void waitsWithoutLimit() throws Exception {
        Condition condition = lock.newCondition();
        Failing ofMonitor = monitor::wait, ofCondition = condition::await;
        run(() -> {
            synchronized (monitor) {
                synchronized (Refers.class) {
                    isInterrupted(ofMonitor);
                }
            }
        });
        waitsForCondition(() -> isInterrupted(ofCondition));
    }

    static void isInterrupted(Failing waits) throws Exception {
        Thread.currentThread().interrupt();
        try {
            waits.run();
            System.out.println("not interrupted");
        } catch (InterruptedException expected) {
            System.out.println("interrupted");
        }
    }

    /** One that nothing but a signal ends. */
    static void waitsUninterruptibly() throws Exception {
        Condition condition = lock.newCondition();
        Runnable waits = condition::awaitUninterruptibly;
        Thread other = new Thread(() -> {
            lock.lock();
            condition.signalAll();
            lock.unlock();
        });
        waitsForCondition(() -> {
            other.start();
            waits.run();
        });
    }

    public static void main(String[] words) throws Exception {
        takes();
        changes();
        views();
        waits();
        waitsWithoutLimit();
        waitsUninterruptibly();
    }
}
