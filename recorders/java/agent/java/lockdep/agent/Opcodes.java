package java.lockdep.agent;

/**
 * The numbers that class files have for instructions, kinds of handles, flags and versions, by the names of the JVM's
 * specification. (Each of the instructions whose name ends with `_0` has four such short forms.)
 */
final class Opcodes {
    static final int NOP = 0;
    static final int ACONST_NULL = 1;
    static final int SIPUSH = 17;
    static final int LDC = 18;
    static final int LDC_W = 19;
    static final int ALOAD = 25;
    static final int ALOAD_0 = 42;
    static final int AALOAD = 50;
    static final int ISTORE = 54;
    static final int ASTORE = 58;
    static final int ISTORE_0 = 59;
    static final int ASTORE_0 = 75;
    static final int ASTORE_3 = 78;
    static final int POP = 87;
    static final int POP2 = 88;
    static final int DUP = 89;
    static final int DUP_X1 = 90;
    static final int DUP_X2 = 91;
    static final int DUP2 = 92;
    static final int DUP2_X1 = 93;
    static final int DUP2_X2 = 94;
    static final int SWAP = 95;
    static final int IINC = 132;
    static final int IFEQ = 153;
    static final int GOTO = 167;
    static final int RET = 169;
    static final int TABLESWITCH = 170;
    static final int LOOKUPSWITCH = 171;
    static final int IRETURN = 172;
    static final int RETURN = 177;
    static final int GETSTATIC = 178;
    static final int PUTSTATIC = 179;
    static final int GETFIELD = 180;
    static final int PUTFIELD = 181;
    static final int INVOKEVIRTUAL = 182;
    static final int INVOKESPECIAL = 183;
    static final int INVOKESTATIC = 184;
    static final int INVOKEINTERFACE = 185;
    static final int INVOKEDYNAMIC = 186;
    static final int NEW = 187;
    static final int NEWARRAY = 188;
    static final int ANEWARRAY = 189;
    static final int ATHROW = 191;
    static final int CHECKCAST = 192;
    static final int MONITORENTER = 194;
    static final int MONITOREXIT = 195;
    static final int WIDE = 196;
    static final int MULTIANEWARRAY = 197;
    static final int IFNULL = 198;
    static final int IFNONNULL = 199;
    static final int GOTO_W = 200;
    static final int JSR_W = 201;

    static final int H_INVOKEVIRTUAL = 5;
    static final int H_INVOKESTATIC = 6;
    static final int H_NEWINVOKESPECIAL = 8;
    static final int H_INVOKEINTERFACE = 9;

    static final int ACC_STATIC = 8;
    static final int ACC_SYNCHRONIZED = 32;

    static final int V1_5 = 49;
    static final int V1_6 = 50;

    private Opcodes() {
    }
}
