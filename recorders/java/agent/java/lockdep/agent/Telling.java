package java.lockdep.agent;

import java.util.Map;

/** What a method of the JDK does by which threads tell one another something: where Hooks gets to know it, and about which object that is. */
enum Telling {
    /** At its beginning it tells something to all who ask, or about its first word. */
    TELLS(false, Hook.TELLS, Opcodes.ACONST_NULL),
    TELLS_OF_FIRST(false, Hook.TELLS, Opcodes.ALOAD_0 + 1),
    /** It goes on by all that was told, or by what was told about its second word, or about what it returns: at its beginning, or where it returns. */
    HEARS(false, Hook.HEARS, Opcodes.ALOAD_0),
    HEARS_OF_SECOND(false, Hook.HEARS, Opcodes.ALOAD_0 + 2),
    HEARS_AT_END(true, Hook.HEARS, Opcodes.ALOAD_0),
    HEARS_OF_RESULT(true, Hook.HEARS, Opcodes.SWAP),
    HEARS_IF_TRUE(true, Hook.HEARS_IF_TRUE, Opcodes.NOP);

    private static final String TIME = "(JLjava/util/concurrent/TimeUnit;)";
    private static final String OBJECT = "Ljava/lang/Object;";
    /** What a queue gives at once, or not at all, is no message: who asks would go on without it. */
    private static final Map<String, Telling> OF_QUEUE = Map.of("put(" + OBJECT + ")V", TELLS_OF_FIRST, "offer(" + OBJECT + ")Z", TELLS_OF_FIRST,
            "offer(" + OBJECT + TIME.substring(1) + "Z", TELLS_OF_FIRST, "take()" + OBJECT, HEARS_OF_RESULT,
            "poll" + TIME + OBJECT, HEARS_OF_RESULT);
    /** Those whose other methods call these. */
    private static final Map<String, Telling> OF_UNBOUNDED = Map.of("offer(" + OBJECT + ")Z", TELLS_OF_FIRST, "take()" + OBJECT, HEARS_OF_RESULT,
            "poll" + TIME + OBJECT, HEARS_OF_RESULT);
    private static final String PACKAGE = "java/util/concurrent/";
    private static final Map<String, Map<String, Telling>> ALL = Map.of(
            "CountDownLatch", Map.of("countDown()V", TELLS, "await()V", HEARS_AT_END, "await" + TIME + "Z", HEARS_IF_TRUE),
            "FutureTask", Map.of("set(" + OBJECT + ")V", TELLS, "setException(Ljava/lang/Throwable;)V", TELLS, "report(I)" + OBJECT, HEARS),
            "ThreadPoolExecutor", Map.of("execute(Ljava/lang/Runnable;)V", TELLS_OF_FIRST,
                    "beforeExecute(Ljava/lang/Thread;Ljava/lang/Runnable;)V", HEARS_OF_SECOND, "awaitTermination" + TIME + "Z", HEARS_IF_TRUE,
                    "processWorkerExit(L" + PACKAGE + "ThreadPoolExecutor$Worker;Z)V", TELLS),
            "ScheduledThreadPoolExecutor", Map.of("delayedExecute(L" + PACKAGE + "RunnableScheduledFuture;)V", TELLS_OF_FIRST),
            "LinkedBlockingQueue", OF_QUEUE, "ArrayBlockingQueue", OF_QUEUE, "SynchronousQueue", OF_QUEUE, "LinkedTransferQueue", OF_QUEUE,
            "PriorityBlockingQueue", OF_UNBOUNDED);

    final boolean isAtEnd;
    final Hook hook;
    final int about;

    Telling(boolean isAtEnd, Hook hook, int about) {
        this.isAtEnd = isAtEnd;
        this.hook = hook;
        this.about = about;
    }

    /** Those of a class's methods, by name and descriptor; none if it has none. */
    static Map<String, Telling> of(String type) {
        return type.startsWith(PACKAGE) ? ALL.getOrDefault(type.substring(PACKAGE.length()), Map.of()) : Map.of();
    }
}
