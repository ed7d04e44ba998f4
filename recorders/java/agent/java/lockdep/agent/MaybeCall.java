package java.lockdep.agent;

import java.util.Map;
import java.util.Set;

/**
 * A call whose object may be a lock or a thread, which is known only when it is made: what of Maybe is called before it,
 * and after it.
 */
final class MaybeCall {
    static final String MAYBE = "java/lockdep/Maybe";
    static final String REFERENCES = "java/lockdep/MaybeReferences";
    static final String HANDLE = "Ljava/lang/invoke/MethodHandle;";
    static final String TIMED = "tryLock(JLjava/util/concurrent/TimeUnit;)Z";
    static final String JOIN_IN_TIME = "join(J)V";
    private static final String OBJECT = "Ljava/lang/Object;";
    private static final String CONDITION = "L" + Hierarchy.LOCKS + "Condition;";
    private static final String PLAIN = "(" + OBJECT + "I)V";
    private static final MaybeCall LOCKS = new MaybeCall("locks", "locked", PLAIN);

    /** Those that have no words. */
    private static final Map<String, MaybeCall> ALL = Map.of(
            "lock()V", LOCKS,
            "lockInterruptibly()V", LOCKS,
            "unlock()V", new MaybeCall("unlocks", null, null),
            "tryLock()Z", new MaybeCall(null, "tried", "(" + OBJECT + "ZI)Z"),
            "newCondition()" + CONDITION, new MaybeCall(null, "made", "(" + OBJECT + CONDITION + ")" + CONDITION),
            "start()V", new MaybeCall("begins", null, null),
            "join()V", new MaybeCall("joins", null, null));
    private static final Set<String> WITH_WORDS = Set.of(TIMED, JOIN_IN_TIME);

    /** What is called before it, with its object and its place; and after it, with its result between these. */
    final String before;
    final String after;
    final String wordsAfter;

    private MaybeCall(String before, String after, String wordsAfter) {
        this.before = before;
        this.after = after;
        this.wordsAfter = wordsAfter;
    }

    /** Whether a call that isn't one of a lock or a thread by its type may be one even so. */
    static boolean isOne(Calls.Call call, Hierarchy hierarchy) {
        if (call.opcode != Opcodes.INVOKEINTERFACE && call.opcode != Opcodes.INVOKEVIRTUAL) return false;
        String signature = call.name + call.descriptor;
        if (call.owner.startsWith("java/") || !ALL.containsKey(signature) && !WITH_WORDS.contains(signature)) return false;
        return call.opcode == Opcodes.INVOKEINTERFACE || hierarchy.isUnknown(call.owner);
    }

    static MaybeCall of(Calls.Call call) {
        return ALL.get(call.name + call.descriptor);
    }

    static String wordsBefore() {
        return PLAIN;
    }
}
