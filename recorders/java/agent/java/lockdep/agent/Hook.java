package java.lockdep.agent;

/** The methods of Hooks that rewritten code calls most. Each is looked for only once among the constants of a class. */
enum Hook {
    ENTER("enter", Hook.OF_OBJECT_AND_SITE),
    ENTERED("entered", Hook.OF_OBJECT_AND_SITE),
    EXIT("exit", Hook.OF_OBJECT),
    MADE("made", Hook.OF_OBJECT_AND_SITE),
    MAKES("makes", "(I)V"),
    BORN("born", Hook.OF_OBJECT),
    BEGINS("begins", Hook.OF_OBJECT_AND_SITE),
    TELLS("tells", Hook.OF_TWO_OBJECTS_AND_SITE),
    HEARS("hears", Hook.OF_TWO_OBJECTS_AND_SITE),
    HEARS_IF_TRUE("hears", "(ZLjava/lang/Object;I)V"),
    STARTS("starts", Hook.OF_OBJECT),
    STARTS_IN("starts", "(Ljava/lang/Object;Ljava/lang/Object;)V"),
    LOCKS("locks", Hook.OF_LOCK_AND_SITE),
    LOCKED("locked", Hook.OF_LOCK_AND_SITE),
    UNLOCKS("unlocks", Hook.OF_LOCK_AND_SITE),
    TRIED("tried", "(" + Hook.LOCK + "ZI)Z"),
    MADE_CONDITION("made", "(" + Hook.LOCK + Hook.CONDITION + ")" + Hook.CONDITION);

    static final int COUNT = values().length;
    private static final String OF_OBJECT = "(Ljava/lang/Object;)V";
    private static final String OF_OBJECT_AND_SITE = "(Ljava/lang/Object;I)V";
    private static final String OF_TWO_OBJECTS_AND_SITE = "(Ljava/lang/Object;Ljava/lang/Object;I)V";
    private static final String LOCK = "Ljava/util/concurrent/locks/Lock;";
    private static final String CONDITION = "Ljava/util/concurrent/locks/Condition;";
    private static final String OF_LOCK_AND_SITE = "(" + LOCK + "I)V";

    final String called;
    final String descriptor;

    Hook(String called, String descriptor) {
        this.called = called;
        this.descriptor = descriptor;
    }
}
