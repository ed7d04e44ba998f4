package java.lockdep.agent;

import java.util.Map;

/** A call through `super`, which stays: what of Supers is called before it, or after it, or both. */
final class SuperCall {
    static final String SUPERS = "java/lockdep/Supers";
    static final String LOCK = "L" + Hierarchy.LOCKS + "Lock;";
    static final String STAMPED = "L" + Hierarchy.LOCKS + "StampedLock;";
    private static final String UNIT = "Ljava/util/concurrent/TimeUnit;";

    private static final Map<String, SuperCall> ALL = Map.ofEntries(
            Map.entry("writeLock()J", new SuperCall("writes", "written")),
            Map.entry("writeLockInterruptibly()J", new SuperCall("writes", "written")),
            Map.entry("readLock()J", new SuperCall("reads", "read")),
            Map.entry("readLockInterruptibly()J", new SuperCall("reads", "read")),
            Map.entry("tryWriteLock()J", new SuperCall(null, "triedToWrite")),
            Map.entry("tryReadLock()J", new SuperCall(null, "triedToRead")),
            Map.entry("tryUnlockWrite()Z", new SuperCall(null, "triedToUnlockWrite")),
            Map.entry("tryUnlockRead()Z", new SuperCall(null, "triedToUnlockRead")),
            Map.entry("tryLock(J" + UNIT + ")Z", new SuperCall("limit", "tryLock")),
            Map.entry("tryWriteLock(J" + UNIT + ")J", new SuperCall("limit", "tryWriteLock")),
            Map.entry("tryReadLock(J" + UNIT + ")J", new SuperCall("limit", "tryReadLock")),
            Map.entry("unlockWrite(J)V", new SuperCall("unlockWrite", null)),
            Map.entry("unlockRead(J)V", new SuperCall("unlockRead", null)),
            Map.entry("unlock(J)V", new SuperCall("unlock", null)),
            Map.entry("tryConvertToWriteLock(J)J", new SuperCall("converts", "converted")),
            Map.entry("tryConvertToReadLock(J)J", new SuperCall("converts", "converted")),
            Map.entry("tryConvertToOptimisticRead(J)J", new SuperCall("converts", "converted")));
    private static final SuperCall VIEW = new SuperCall("views", null);

    final String before;
    final String after;

    private SuperCall(String before, String after) {
        this.before = before;
        this.after = after;
    }

    /** What is called round a call that Hooks has no methods for that leave it in its place. */
    static SuperCall of(Calls.Call call) {
        return ALL.getOrDefault(call.name + call.descriptor, VIEW);
    }
}
