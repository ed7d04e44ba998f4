import java.io.IOException;
import java.nio.file.Files;
import java.nio.file.Path;
import java.util.ArrayList;
import java.util.List;
import java.util.Random;
import java.util.function.Consumer;

import jdk.internal.org.objectweb.asm.Attribute;
import jdk.internal.org.objectweb.asm.ByteVector;
import jdk.internal.org.objectweb.asm.ClassWriter;
import jdk.internal.org.objectweb.asm.Handle;
import jdk.internal.org.objectweb.asm.Label;
import jdk.internal.org.objectweb.asm.MethodVisitor;
import jdk.internal.org.objectweb.asm.Opcodes;

/**
 * Makes class files that no compiler makes, and that the virtual machine accepts: by hand, and at random. Each has a
 * method `run`, and a constructor that it calls: Odd FOLDER COUNT. The classes' names are printed. They are written by
 * the JDK's own copy of ASM, which it has up to version 23.
 */
public final class Odd implements Opcodes {
    private static final String OBJECT = "java/lang/Object";
    private static final String LOCK = "java/util/concurrent/locks/ReentrantLock";
    private static final int ROOM = 200;
    private static final int MOST_CONSTANTS = 65500;
    private static final int MOST_WORDS = 65535;
    private static Path folder;

    private Odd() {
    }

    /** A class is written without its frames being computed, or with. */
    private static void make(String name, int version, boolean hasFrames, Consumer<MethodVisitor> constructor,
            Consumer<MethodVisitor> run) throws IOException {
        make(name, version, hasFrames, ACC_PUBLIC | ACC_STATIC, constructor, run);
    }

    private static void make(String name, int version, boolean hasFrames, int access, Consumer<MethodVisitor> constructor,
            Consumer<MethodVisitor> run) throws IOException {
        ClassWriter type = new ClassWriter(hasFrames ? ClassWriter.COMPUTE_FRAMES : 0) {
            @Override
            protected String getCommonSuperClass(String one, String other) {
                return OBJECT;
            }
        };
        type.visit(version, ACC_PUBLIC | ACC_SUPER, name, null, OBJECT, null);
        add(type, ACC_PUBLIC, "<init>", "()V", constructor);
        add(type, access, "run", "()V", run);
        add(type, ACC_PUBLIC | ACC_SYNCHRONIZED, "isOfItself", "()V", to -> to.visitInsn(RETURN));
        Files.write(folder.resolve(name + ".class"), type.toByteArray());
        System.out.println(name);
    }

    private static void add(ClassWriter type, int access, String name, String descriptor, Consumer<MethodVisitor> code) {
        MethodVisitor to = type.visitMethod(access, name, descriptor, null, null);
        to.visitCode();
        code.accept(to);
        to.visitMaxs(ROOM, ROOM);
        to.visitEnd();
    }

    // ---- Parts of code.

    private static void plain(MethodVisitor to) {
        to.visitVarInsn(ALOAD, 0);
        construct(to, OBJECT);
        to.visitInsn(RETURN);
    }

    private static void construct(MethodVisitor to, String type) {
        to.visitMethodInsn(INVOKESPECIAL, type, "<init>", "()V", false);
    }

    private static void all(MethodVisitor to, int... instructions) {
        for (int each : instructions) to.visitInsn(each);
    }

    private static void jump(MethodVisitor to, int kind, Label target) {
        to.visitJumpInsn(kind, target);
    }

    // ---- By hand: objects that aren't made yet, or aren't where they are expected.

    private static void lockThisEarly(MethodVisitor to) {
        to.visitVarInsn(ALOAD, 0);
        all(to, DUP, MONITORENTER, MONITOREXIT);
        plain(to);
    }

    private static void lockCopyEarly(MethodVisitor to) {
        to.visitVarInsn(ALOAD, 0);
        to.visitVarInsn(ASTORE, 5);
        to.visitVarInsn(ALOAD, 5);
        to.visitInsn(MONITORENTER);
        plainBut(to, () -> {
            to.visitVarInsn(ALOAD, 0);
            to.visitInsn(MONITOREXIT);
        });
    }

    /** The constructor of what is above is called, and then something else is done. */
    private static void plainBut(MethodVisitor to, Runnable then) {
        to.visitVarInsn(ALOAD, 0);
        construct(to, OBJECT);
        then.run();
        to.visitInsn(RETURN);
    }

    /** `this` is moved to another variable, and a number takes its place. */
    private static void moveThis(MethodVisitor to) {
        to.visitVarInsn(ALOAD, 0);
        to.visitVarInsn(ASTORE, 1);
        to.visitInsn(ICONST_1);
        to.visitVarInsn(ISTORE, 0);
        to.visitVarInsn(ALOAD, 1);
        construct(to, OBJECT);
        to.visitInsn(RETURN);
    }

    /** An object of the class above is made before `this` is, and stays on the stack below it. */
    private static void makeAboveFirst(MethodVisitor to) {
        to.visitTypeInsn(NEW, OBJECT);
        to.visitVarInsn(ALOAD, 0);
        construct(to, OBJECT);
        construct(to, OBJECT);
        to.visitInsn(RETURN);
    }

    private static void lockNew(MethodVisitor to) {
        to.visitTypeInsn(NEW, LOCK);
        all(to, DUP, DUP, MONITORENTER, DUP, MONITOREXIT);
        construct(to, LOCK);
        to.visitInsn(RETURN);
    }

    private static void dropCopy(MethodVisitor to) {
        to.visitTypeInsn(NEW, OBJECT);
        all(to, DUP, POP);
        construct(to, OBJECT);
        to.visitInsn(RETURN);
    }

    private static void storeBoth(MethodVisitor to) {
        to.visitTypeInsn(NEW, OBJECT);
        to.visitInsn(DUP);
        to.visitVarInsn(ASTORE, 1);
        to.visitVarInsn(ASTORE, 2);
        to.visitVarInsn(ALOAD, 1);
        construct(to, OBJECT);
        to.visitInsn(RETURN);
    }

    /** A number is put between the two copies, and is on top when the object was made. */
    private static void numberOnTop(MethodVisitor to) {
        to.visitTypeInsn(NEW, OBJECT);
        all(to, DUP, ICONST_5, SWAP);
        construct(to, OBJECT);
        all(to, POP, POP, RETURN);
    }

    /** One object has two calls of its constructor, in two ways through the code. */
    private static void constructTwice(MethodVisitor to) {
        Label other = new Label();
        Label end = new Label();
        to.visitTypeInsn(NEW, OBJECT);
        all(to, DUP, ICONST_1);
        jump(to, IFEQ, other);
        construct(to, OBJECT);
        jump(to, GOTO, end);
        to.visitLabel(other);
        construct(to, OBJECT);
        to.visitLabel(end);
        all(to, POP, RETURN);
    }

    private static void twoWaysToThis(MethodVisitor to) {
        Label other = new Label();
        Label end = new Label();
        to.visitVarInsn(ALOAD, 0);
        to.visitInsn(ICONST_0);
        jump(to, IFEQ, other);
        construct(to, OBJECT);
        jump(to, GOTO, end);
        to.visitLabel(other);
        construct(to, OBJECT);
        to.visitLabel(end);
        to.visitInsn(RETURN);
    }

    /** Code behind the call of the constructor above runs before it, and locks `this`. */
    private static void lockBackwards(MethodVisitor to) {
        Label lock = new Label();
        Label make = new Label();
        jump(to, GOTO, lock);
        to.visitLabel(make);
        to.visitVarInsn(ALOAD, 0);
        construct(to, OBJECT);
        to.visitInsn(RETURN);
        to.visitLabel(lock);
        to.visitVarInsn(ALOAD, 0);
        all(to, DUP, MONITORENTER, MONITOREXIT);
        jump(to, GOTO, make);
    }

    /** An argument of a constructor is chosen among three. */
    private static void switchInside(MethodVisitor to) {
        Label[] ways = {new Label(), new Label()};
        Label other = new Label();
        Label end = new Label();
        to.visitTypeInsn(NEW, LOCK);
        all(to, DUP, ICONST_1);
        to.visitTableSwitchInsn(0, 1, other, ways);
        for (Label each : new Label[] {ways[0], ways[1], other}) {
            to.visitLabel(each);
            to.visitInsn(each == other ? ICONST_0 : ICONST_1);
            if (each != other) jump(to, GOTO, end);
        }
        to.visitLabel(end);
        to.visitMethodInsn(INVOKESPECIAL, LOCK, "<init>", "(Z)V", false);
        to.visitMethodInsn(INVOKEVIRTUAL, LOCK, "lock", "()V", false);
        to.visitInsn(RETURN);
    }

    /** Calls of methods that aren't there, which are never reached. */
    private static void callMissing(MethodVisitor to) {
        Label end = new Label();
        to.visitInsn(ICONST_0);
        jump(to, IFEQ, end);
        to.visitInsn(ACONST_NULL);
        to.visitMethodInsn(INVOKESTATIC, "java/util/Collections", "synchronizedNothing", "(Ljava/lang/Object;)V", false);
        to.visitInsn(ACONST_NULL);
        to.visitTypeInsn(CHECKCAST, "java/lang/ProcessBuilder");
        to.visitInsn(LCONST_0);
        to.visitMethodInsn(INVOKEVIRTUAL, "java/lang/ProcessBuilder", "start", "(J)V", false);
        to.visitLabel(end);
        to.visitInsn(RETURN);
    }

    /** A list of variables in which the range of one ends within an instruction, the sixth, which has two bytes from place 8 on. */
    private static void describeOddly(MethodVisitor to) {
        to.visitTypeInsn(NEW, OBJECT);
        to.visitInsn(DUP);
        construct(to, OBJECT);
        to.visitVarInsn(ASTORE, 1);
        to.visitLdcInsn("long");
        all(to, POP, RETURN);
        to.visitAttribute(new Variables());
    }

    private static final class Variables extends Attribute {
        Variables() {
            super("LocalVariableTable");
        }

        @Override
        public boolean isCodeAttribute() {
            return true;
        }

        @Override
        protected ByteVector write(ClassWriter type, byte[] code, int length, int stack, int variables) {
            return new ByteVector().putShort(1).putShort(7).putShort(2).putShort(type.newUTF8("odd")).putShort(type.newUTF8("I")).putShort(1);
        }
    }

    private static void wide(MethodVisitor to) {
        to.visitTypeInsn(NEW, OBJECT);
        to.visitInsn(DUP);
        construct(to, OBJECT);
        to.visitVarInsn(ASTORE, 180);
        to.visitVarInsn(ALOAD, 180);
        to.visitInsn(MONITORENTER);
        to.visitVarInsn(ALOAD, 180);
        to.visitInsn(MONITOREXIT);
        to.visitInsn(RETURN);
    }

    private static void enter(MethodVisitor to, String name) {
        to.visitFieldInsn(GETSTATIC, "java/lang/System", name, "Ljava/io/PrintStream;");
        to.visitInsn(MONITORENTER);
    }

    /** A method ends with a monitor held, by a return behind a switch. */
    private static void returnHolding(MethodVisitor to) {
        Label[] ways = {new Label(), new Label()};
        enter(to, "out");
        to.visitInsn(ICONST_1);
        to.visitLookupSwitchInsn(ways[0], new int[] {1}, new Label[] {ways[1]});
        to.visitLabel(ways[0]);
        to.visitFieldInsn(GETSTATIC, "java/lang/System", "out", "Ljava/io/PrintStream;");
        all(to, MONITOREXIT, RETURN);
        to.visitLabel(ways[1]);
        to.visitInsn(RETURN);
    }

    private static void throwHolding(MethodVisitor to) {
        enter(to, "err");
        all(to, ACONST_NULL, ATHROW);
    }

    /** A monitor is taken among the arguments of a constructor, of an object that is made. */
    private static void lockInside(MethodVisitor to) {
        to.visitTypeInsn(NEW, LOCK);
        to.visitInsn(DUP);
        to.visitFieldInsn(GETSTATIC, "java/lang/System", "out", "Ljava/io/PrintStream;");
        to.visitInsn(DUP);
        to.visitVarInsn(ASTORE, 1);
        to.visitInsn(MONITORENTER);
        to.visitVarInsn(ALOAD, 1);
        to.visitInsn(MONITOREXIT);
        to.visitInsn(ICONST_1);
        to.visitMethodInsn(INVOKESPECIAL, LOCK, "<init>", "(Z)V", false);
        all(to, POP, RETURN);
    }

    /** A bootstrap method of the class's own, which looks at the descriptor, gets a handle to a lock's method. */
    private static void makeCallOfItsOwn() throws IOException {
        ClassWriter type = new ClassWriter(0);
        type.visit(V17, ACC_PUBLIC | ACC_SUPER, "Bootstrap", null, OBJECT, null);
        add(type, ACC_PUBLIC, "<init>", "()V", Odd::plain);
        String lookup = "Ljava/lang/invoke/MethodHandles$Lookup;";
        String descriptor = "(" + lookup + "Ljava/lang/String;Ljava/lang/invoke/MethodType;Ljava/lang/invoke/MethodHandle;)Ljava/lang/invoke/CallSite;";
        add(type, ACC_PUBLIC | ACC_STATIC, "make", descriptor, to -> {
            all(to, ICONST_1, ICONST_2);
            to.visitVarInsn(ALOAD, 2);
            to.visitMethodInsn(INVOKEVIRTUAL, "java/lang/invoke/MethodType", "parameterCount", "()I", false);
            all(to, ISUB, IDIV, POP); // (which fails if there are two)
            to.visitTypeInsn(NEW, "java/lang/invoke/ConstantCallSite");
            to.visitInsn(DUP);
            to.visitVarInsn(ALOAD, 3);
            to.visitMethodInsn(INVOKESPECIAL, "java/lang/invoke/ConstantCallSite", "<init>", "(Ljava/lang/invoke/MethodHandle;)V", false);
            to.visitInsn(ARETURN);
        });
        add(type, ACC_PUBLIC | ACC_STATIC, "run", "()V", to -> {
            to.visitTypeInsn(NEW, LOCK);
            to.visitInsn(DUP);
            construct(to, LOCK);
            to.visitInvokeDynamicInsn("call", "(L" + LOCK + ";)V", new Handle(H_INVOKESTATIC, "Bootstrap", "make", descriptor, false),
                    new Handle(H_INVOKEVIRTUAL, LOCK, "lock", "()V", false));
            to.visitInsn(RETURN);
        });
        Files.write(folder.resolve("Bootstrap.class"), type.toByteArray());
        System.out.println("Bootstrap");
    }

    /** What initialises a class is static, whatever its flags say, and never synchronized. */
    private static void makeInitializer(String name, int version) throws IOException {
        ClassWriter type = new ClassWriter(0);
        type.visit(version, ACC_PUBLIC | ACC_SUPER, name, null, OBJECT, null);
        add(type, ACC_SYNCHRONIZED | (version < V1_7 ? 0 : ACC_STATIC), "<clinit>", "()V", to -> to.visitInsn(RETURN));
        finish(type, name);
    }

    /** A class with as many constants as there may be, whose code has as much on the stack as there may be. */
    private static void makeFull() throws IOException {
        ClassWriter type = new ClassWriter(0);
        type.visit(V17, ACC_PUBLIC | ACC_SUPER, "Full", null, OBJECT, null);
        for (int value = 0; type.newConst(value) < MOST_CONSTANTS; value++) { }
        finish(type, "Full");
        type = new ClassWriter(0);
        type.visit(V17, ACC_PUBLIC | ACC_SUPER, "Deep", null, OBJECT, null);
        MethodVisitor to = type.visitMethod(ACC_PUBLIC | ACC_SYNCHRONIZED, "deep", "()V", null, null);
        to.visitCode();
        to.visitInsn(RETURN);
        to.visitMaxs(MOST_WORDS, 1);
        to.visitEnd();
        finish(type, "Deep");
    }

    /** Adds the constructor and the method, and writes the class. */
    private static void finish(ClassWriter type, String name) throws IOException {
        add(type, ACC_PUBLIC, "<init>", "()V", Odd::plain);
        add(type, ACC_PUBLIC | ACC_STATIC | ACC_SYNCHRONIZED, "run", "()V", to -> to.visitInsn(RETURN));
        Files.write(folder.resolve(name + ".class"), type.toByteArray());
        System.out.println(name);
    }

    private static void makeByHand() throws IOException {
        for (int version : new int[] {V1_4, V1_6, V17}) {
            make("LocksEarly" + version, version, false, Odd::lockThisEarly, to -> to.visitInsn(RETURN));
            make("LocksCopy" + version, version, false, Odd::lockCopyEarly, to -> to.visitInsn(RETURN));
            make("MovesThis" + version, version, false, Odd::moveThis, Odd::dropCopy);
            make("MakesAbove" + version, version, false, Odd::makeAboveFirst, Odd::storeBoth);
            make("LocksNew" + version, version, false, Odd::plain, Odd::lockNew);
            make("OnTop" + version, version, false, Odd::plain, Odd::numberOnTop);
            make("Wide" + version, version, false, Odd::plain, Odd::wide);
            make("Inside" + version, version, false, Odd::plain, Odd::lockInside);
            if (version < V1_7) make("Described" + version, version, false, Odd::plain, Odd::describeOddly);
            makeInitializer("Initialized" + version, version);
        }
        make("Twice", V17, true, Odd::twoWaysToThis, Odd::constructTwice);
        make("Backwards", V17, true, Odd::lockBackwards, Odd::switchInside);
        make("Missing", V17, true, Odd::plain, Odd::callMissing);
        make("Returns", V17, true, Odd::plain, Odd::returnHolding);
        make("Throws", V17, true, Odd::plain, Odd::throwHolding);
        makeCallOfItsOwn();
        makeFull();
    }

    // ---- At random: what is on the stack and in the variables is known all along.

    /** A value: a number, or an object, which may not be made yet; copies are one value. */
    private static final class Value {
        final String type;
        boolean isMade;

        Value(String type, boolean isMade) {
            this.type = type;
            this.isMade = isMade;
        }

        boolean isNumber() {
            return type.isEmpty();
        }
    }

    private static final class Walk {
        private static final int LONGEST = 40;
        private final Random random;
        private final MethodVisitor to;
        private final List<Value> stack = new ArrayList<>();
        private final Value[] variables = new Value[12];
        private int depthOfBlocks;

        Walk(Random random, MethodVisitor to, Value self) {
            this.random = random;
            this.to = to;
            variables[0] = self;
        }

        void steps(int count, int kept) {
            for (int left = count; left > 0; left--) step(kept);
            while (stack.size() > kept) drop();
        }

        void finish() {
            if (variables[0] != null && !variables[0].isMade) {
                to.visitVarInsn(ALOAD, 0);
                make(variables[0]);
            }
            to.visitInsn(RETURN);
        }

        private Value top() {
            return stack.get(stack.size() - 1);
        }

        private void push(Value value) {
            stack.add(value);
        }

        private void drop() {
            to.visitInsn(POP);
            stack.remove(stack.size() - 1);
        }

        private void make(Value value) {
            to.visitMethodInsn(INVOKESPECIAL, value.type, "<init>", "()V", false);
            value.isMade = true;
        }

        /** One step, which leaves so many values of the stack where they are. */
        private void step(int kept) {
            int free = stack.size() - kept;
            int kind = random.nextInt(11);
            if (kind < 2 || free == 0) pushNew(kind);
            else if (kind == 2) copy(free);
            else if (kind == 3) drop();
            else if (kind == 4) swap(free);
            else if (kind == 5) store();
            else if (kind == 6) load();
            else if (kind == 7) construct(kept);
            else if (kind == 8) lock();
            else if (kind == 9) block();
            else take();
        }

        private void pushNew(int kind) {
            if (random.nextInt(4) == 0) {
                to.visitInsn(ICONST_0 + random.nextInt(5));
                push(new Value("", true));
                return;
            }
            String type = random.nextBoolean() ? OBJECT : LOCK;
            to.visitTypeInsn(NEW, type);
            push(new Value(type, false));
            if (kind == 0) copy(1);
        }

        private void copy(int free) {
            if (free > 1 && random.nextInt(4) == 0) {
                to.visitInsn(DUP_X1);
                stack.add(stack.size() - 2, top());
            } else {
                to.visitInsn(DUP);
                push(top());
            }
        }

        private void swap(int free) {
            if (free < 2) return;
            to.visitInsn(SWAP);
            stack.add(stack.remove(stack.size() - 2));
        }

        /** (In a block nothing is stored, since the variables have to be the same behind it.) */
        private void store() {
            if (depthOfBlocks > 0) return;
            int variable = 1 + random.nextInt(variables.length - 1);
            to.visitVarInsn(top().isNumber() ? ISTORE : ASTORE, variable);
            variables[variable] = stack.remove(stack.size() - 1);
        }

        private void load() {
            int variable = random.nextInt(variables.length);
            Value value = variables[variable];
            if (value == null) return;
            to.visitVarInsn(value.isNumber() ? ILOAD : ALOAD, variable);
            push(value);
        }

        /** Calls the constructor of what is on top, unless that was there before the block. */
        private void construct(int kept) {
            boolean isOlder = depthOfBlocks > 0 && (stack.subList(0, kept).contains(top()) || List.of(variables(top())).contains(top()));
            if (top().isMade || isOlder) return;
            make(stack.remove(stack.size() - 1));
        }

        private Value[] variables(Value but) {
            List<Value> found = new ArrayList<>(List.of(new Value("", true)));
            for (Value each : variables) {
                if (each != null) found.add(each);
            }
            return found.toArray(new Value[0]);
        }

        private void lock() {
            if (top().isNumber()) return;
            all(to, DUP, MONITORENTER, DUP, MONITOREXIT);
        }

        private void take() {
            Value value = top();
            if (!value.isMade || !value.type.equals(LOCK)) return;
            for (String name : new String[] {"lock", "unlock"}) {
                to.visitInsn(DUP);
                to.visitMethodInsn(INVOKEVIRTUAL, LOCK, name, "()V", false);
            }
        }

        private void block() {
            if (depthOfBlocks > 2) return;
            Label end = new Label();
            to.visitInsn(ICONST_0 + random.nextInt(2));
            to.visitJumpInsn(IFEQ, end);
            depthOfBlocks++;
            int kept = stack.size();
            steps(random.nextInt(8), kept);
            depthOfBlocks--;
            to.visitLabel(end);
        }
    }

    private static void makeAtRandom(int number) throws IOException {
        Random random = new Random(number);
        int version = number % 8 == 0 ? V1_6 : V17;
        boolean isSynchronized = number % 3 == 0;
        make("Random" + number, version, true, ACC_PUBLIC | ACC_STATIC | (isSynchronized ? ACC_SYNCHRONIZED : 0), to -> {
            Walk walk = new Walk(random, to, new Value(OBJECT, false));
            walk.steps(random.nextInt(Walk.LONGEST), 0);
            walk.finish();
        }, to -> {
            Walk walk = new Walk(random, to, null);
            walk.steps(random.nextInt(Walk.LONGEST), 0);
            walk.finish();
        });
    }

    public static void main(String[] words) throws IOException {
        folder = Path.of(words[0]);
        makeByHand();
        for (int number = 0; number < Integer.parseInt(words[1]); number++) makeAtRandom(number);
    }
}
