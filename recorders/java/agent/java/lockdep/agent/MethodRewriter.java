package java.lockdep.agent;

import java.lockdep.OnLine;
import java.lockdep.Provoke;
import java.lockdep.Site;
import java.lockdep.Source;
import java.util.ArrayDeque;
import java.util.ArrayList;
import java.util.HashMap;
import java.util.List;
import java.util.Map;

/**
 * Rewrites a method. The added code has no branches, so the frames of the method stay right; only the handler of a
 * synchronized method gets its own frame.
 */
final class MethodRewriter {
    private final ClassFile type;
    private final ClassFile.Method method;
    private final Source source;
    private final Wanted wanted;
    private final Constants constants;
    private final Code code;
    private final Lines lines;
    private final String name;
    private final String descriptor;
    private final Map<Integer, Integer> madeOnLine = new HashMap<>();
    /** The objects that are being made: where, in the file. */
    private final ArrayDeque<Integer> news = new ArrayDeque<>();
    private final List<Noted> noted = new ArrayList<>();
    /** Where constructors are called that are told their places. */
    private final Map<Integer, Integer> told = new HashMap<>();
    private boolean isChanged;
    private boolean hasMonitor;
    private boolean hasNew;
    private Bytes written;
    /** Whether it enters its monitor by instructions. */
    private boolean isByItself;
    /** What it does by which threads tell one another something; null if nothing. */
    private final Telling telling;
    private int line;
    /** The instruction that is looked at. */
    private int here;
    /** Of a method without lines: where constructors are called, in the file. */
    private final List<Integer> unlined = new ArrayList<>();

    /** An object that is noted: its line, its number there, and where its constructor is called, or -1 if it has none. */
    private static final class Noted {
        final int line;
        final int ordinal;
        final int constructor;

        Noted(int line, int ordinal, int constructor) {
            this.line = line;
            this.ordinal = ordinal;
            this.constructor = constructor;
        }
    }

    MethodRewriter(ClassFile type, ClassFile.Method method, Source source, Wanted wanted, Constants constants) {
        this.type = type;
        this.method = method;
        this.source = source;
        this.wanted = wanted;
        this.constants = constants;
        name = method.name();
        descriptor = method.descriptor();
        telling = wanted.tellings.get(name + descriptor);
        code = new Code(type, method, constants);
        lines = new Lines(type, method);
    }

    /** Returns whether anything in the method is changed. One that can't be is refused before any of it is written. */
    boolean rewrite() {
        if (source.isHidden && isLockedByName())
                throw new IllegalStateException("its method " + name + " locks a class that has no constant for itself");
        if (method.isSynchronized() && !new Frames(type, method, descriptor).keepThis())
                throw new IllegalStateException("its method " + name + " changes `this`");
        isByItself = method.isSynchronized() && isToEnterByItself();
        if (telling != null && !telling.isAtEnd) tellAtBeginning();
        passAll();
        if (hasMonitor && (hasNew || method.isConstructor) && new Unmade(type, method).mayBeLocked())
                throw new IllegalStateException("its method " + name + " locks an object that isn't made yet");
        if (hasMonitor && new Balance(type, method).endsWithMonitor())
                throw new IllegalStateException("its method " + name + " may end with a monitor held");
        if (method.isSynchronized()) wrap();
        if (isChanged) written = code.write();
        return isChanged;
    }

    /** Whether the method may release what another one has taken: by calls, which are no part of a block as monitors are. */
    boolean mayRelease() {
        for (int at = method.start; at < method.end; at = type.after(at, method)) {
            int opcode = type.opcode(at);
            boolean isCall = opcode != Opcodes.INVOKESTATIC && opcode != Opcodes.INVOKEDYNAMIC;
            if (opcode < Opcodes.INVOKEVIRTUAL || opcode > Opcodes.INVOKEDYNAMIC || !wanted.matters(type.number(at + 1))) continue;
            if (opcode == Opcodes.INVOKEDYNAMIC && hasReferenceToRelease(type.number(at + 1))) return true;
            if (isCall && Calls.isRelease(type.nameOfMember(type.number(at + 1)))) return true;
        }
        return false;
    }

    private boolean hasReferenceToRelease(int dynamicCall) {
        int bootstrap = type.bootstrap(type.part(dynamicCall, 1));
        boolean hasFound = false;
        for (int word = 0; word < type.number(bootstrap + 2); word++) {
            int handle = type.number(bootstrap + 4 + 2 * word);
            boolean isReference = type.kind(handle) == ClassFile.HANDLE && Calls.mayBeReference(type, handle);
            hasFound |= isReference && Calls.isRelease(type.nameOfMember(type.part(handle, 2)));
        }
        return hasFound;
    }

    private void passAll() {
        byte[] bytes = type.bytes;
        int[] all = lines.all;
        int next;
        for (int at = method.start; at < method.end; at = next) {
            next = type.after(at, method);
            int own = all[at - method.start];
            if (own != 0) line = own;
            here = at;
            int opcode = bytes[at] & 255;
            if (opcode >= Opcodes.IFEQ) pass(opcode, at, next);
        }
    }

    private void pass(int opcode, int at, int next) {
        boolean isReturn = opcode >= Opcodes.IRETURN && opcode <= Opcodes.RETURN;
        if (Code.isJump(opcode)) code.addJump(at);
        else if (opcode >= Opcodes.INVOKEVIRTUAL) rewrite(opcode, at, next);
        else if (isReturn && telling != null && telling.isAtEnd) tellAtEnd(before(at));
        else if (isReturn && method.isSynchronized()) exits(before(at));
    }

    /** The method as it is now. */
    void write(Bytes out) {
        out.putShort(isByItself ? method.access & ~Opcodes.ACC_SYNCHRONIZED : method.access);
        out.put(type.bytes, method.begin + 2, method.attribute).put(written);
        out.put(type.bytes, method.attribute + 6 + type.longNumber(method.attribute + 2), method.finish);
    }

    private void rewrite(int opcode, int at, int next) {
        if (opcode <= Opcodes.INVOKEINTERFACE) rewriteCall(opcode, at, next);
        else if (opcode == Opcodes.INVOKEDYNAMIC && wanted.matters(type.number(at + 1))) rewriteReferences(at);
        else if (opcode == Opcodes.MONITORENTER || opcode == Opcodes.MONITOREXIT) rewriteMonitor(opcode, at);
        else if (opcode == Opcodes.NEW) beginNew(at);
        else if (isArray(opcode) && isKeptInLockedField(next)) noteMade(at, next, -1);
    }

    private void rewriteMonitor(int opcode, int at) {
        Bytes added = before(at).put(Opcodes.DUP);
        if (opcode == Opcodes.MONITORENTER) call(site(added), Hook.ENTER);
        else call(added, Hook.EXIT);
        hasMonitor = true;
    }

    private static boolean isArray(int opcode) {
        return opcode == Opcodes.NEWARRAY || opcode == Opcodes.ANEWARRAY || opcode == Opcodes.MULTIANEWARRAY;
    }

    // ---- Small parts.

    private Bytes before(int at) {
        isChanged = true;
        return code.before(at);
    }

    private Bytes behind(int next) {
        isChanged = true;
        return code.beforeNext(next);
    }

    private Bytes call(Bytes to, Hook hook) {
        return to.put(Opcodes.INVOKESTATIC).putShort(constants.method(hook));
    }

    private Bytes site(Bytes to) {
        return number(to, Site.add(source, name, where(), 1));
    }

    /** The line; without lines, the place in the code, as a number that isn't one of a line. */
    private int where() {
        return line > 0 ? line : method.start - here;
    }

    private Bytes number(Bytes to, int value) {
        return value <= Short.MAX_VALUE ? to.put(Opcodes.SIPUSH).putShort(value) : load(to, constants.number(value));
    }

    private static Bytes load(Bytes to, int constant) {
        return constant < 256 ? to.put(Opcodes.LDC).put(constant) : to.put(Opcodes.LDC_W).putShort(constant);
    }

    // ---- Calls.

    private void rewriteCall(int opcode, int at, int next) {
        int called = type.number(at + 1);
        boolean isConstructor = opcode == Opcodes.INVOKESPECIAL && type.isConstructor(called);
        if (isConstructor && line == 0) unlined.add(at);
        if (isConstructor) endNew(called, at, next);
        else if (wanted.matters(called)) rewriteCall(new Calls.Call(opcode, type.owner(called),
                type.nameOfMember(called), type.descriptor(called)), at, next);
    }

    private void rewriteCall(Calls.Call call, int at, int next) {
        if (call.owner.equals("java/util/Collections") && Calls.isWrapper(call)) noteMade(at, next, -1);
        if (!source.isOfJdk) tellOfProgram(call, at);
        if (Calls.definesHidden(call)) defineHidden(call, at);
        if (Calls.makesAndStarts(call)) makeAndStart(call, at);
        String receiver = Calls.receiver(call, wanted.hierarchy);
        if (receiver == null) {
            if (MaybeCall.isOne(call, wanted.hierarchy)) ask(call, at, next);
            return;
        }
        if (Calls.isThroughSuper(call)) {
            rewriteSuper(call, receiver, at, next);
            return;
        }
        isChanged = true;
        if (Calls.stays(call)) {
            surround(call.name, at, next);
            return;
        }
        boolean hasSite = Calls.hasSite(call);
        if (hasSite) site(before(at));
        int end = call.descriptor.indexOf(')');
        String words = call.descriptor.substring(1, end) + (hasSite ? "I" : "");
        String descriptorOfHook = "(L" + receiver + ";" + words + call.descriptor.substring(end);
        int called = constants.method(Calls.HOOKS, call.name, descriptorOfHook);
        code.instead(at).put(Opcodes.INVOKESTATIC).putShort(called);
    }

    /** What a program is about to be started by is told: its builder, or its words, which may be under an environment and a folder. */
    private void tellOfProgram(Calls.Call call, int at) {
        int depth = Calls.depthOfWords(call);
        if (depth == 3) {
            Bytes folderAndWords = before(at).put(Opcodes.DUP_X2).put(Opcodes.POP).put(Opcodes.DUP2_X1).put(Opcodes.POP).put(Opcodes.DUP2);
            call(folderAndWords, Hook.STARTS_IN).put(Opcodes.POP);
        } else if (depth == 2) {
            call(before(at).put(Opcodes.DUP2).put(Opcodes.POP), Hook.STARTS);
        } else if (depth == 1 || Calls.startsByBuilder(call)) {
            call(before(at).put(Opcodes.DUP), Hook.STARTS);
        }
    }

    /** A thread that is made and started by one call is made by one and started by another, which is what that does, so that it is known before. */
    private void makeAndStart(Calls.Call call, int at) {
        isChanged = true;
        boolean hasBuilder = call.opcode == Opcodes.INVOKEINTERFACE;
        String builder = hasBuilder ? call.owner : Calls.OF_VIRTUAL;
        Bytes made = code.instead(at);
        if (!hasBuilder) {
            int maker = constants.method(Calls.THREAD, "ofVirtual", "()L" + builder + ";");
            made.put(Opcodes.INVOKESTATIC).putShort(maker).put(Opcodes.SWAP);
        }
        int unstarted = constants.methodOfInterface(builder, "unstarted", call.descriptor);
        made.put(Opcodes.INVOKEINTERFACE).putShort(unstarted).put(2).put(0);
        call(site(made.put(Opcodes.DUP)), Hook.BEGINS);
        made.put(Opcodes.DUP).put(Opcodes.INVOKEVIRTUAL).putShort(constants.method(Calls.THREAD, "start", "()V"));
    }

    /**
     * The bytes of a hidden class that is about to be defined are rewritten, which are on the stack between the lookup and two or
     * three more words: of three, the last two become one until then.
     */
    private void defineHidden(Calls.Call call, int at) {
        boolean hasData = Calls.hasData(call);
        Bytes added = before(at);
        if (hasData) hidden(added, "both", "(Z[Ljava/lang/Object;)[Ljava/lang/Object;");
        added.put(Opcodes.DUP2_X2).put(Opcodes.POP2).put(Opcodes.SWAP).put(Opcodes.DUP_X1);
        hidden(added, "rewritten", "([BL" + Calls.LOOKUP + ";)[B").put(Opcodes.DUP2_X2).put(Opcodes.POP2);
        if (!hasData) return;
        hidden(added.put(Opcodes.DUP), "isInitialized", "([Ljava/lang/Object;)Z").put(Opcodes.SWAP);
        hidden(added, "options", "([Ljava/lang/Object;)[Ljava/lang/Object;");
        added.put(Opcodes.CHECKCAST).putShort(constants.type(Calls.OPTIONS));
    }

    private Bytes hidden(Bytes to, String called, String words) {
        return to.put(Opcodes.INVOKESTATIC).putShort(constants.method(Calls.HIDDEN, called, words));
    }

    /** Adds what is to be known before a call that has no words but its object, and after it, for which that is kept on the stack. */
    private void surround(String called, int at, int next) {
        Bytes first = before(at).put(Opcodes.DUP);
        switch (called) {
            case "lock":
                call(site(first.put(Opcodes.DUP)), Hook.LOCKS);
                call(site(behind(next)), Hook.LOCKED);
                break;
            case "unlock":
                call(site(first), Hook.UNLOCKS);
                break;
            case "tryLock":
                call(site(behind(next)), Hook.TRIED);
                break;
            case "newCondition":
                call(behind(next), Hook.MADE_CONDITION);
                break;
            default:
                call(site(first), Hook.BEGINS);
        }
    }

    /** A call through `super` stays. In a method that is recorded where it is called, it isn't recorded again. */
    private void rewriteSuper(Calls.Call call, String receiver, int at, int next) {
        boolean isPart = call.owner.equals(type.name) || Calls.isRecordedOutside(type.name, name, descriptor, wanted.hierarchy);
        if (isPart && !call.name.equals("start")) return;
        boolean isLock = call.name.equals("lock") || call.name.equals("lockInterruptibly");
        if (call.name.equals("unlock") && call.descriptor.equals("()V")) {
            supers(site(before(at).put(Opcodes.DUP)), "unlocks", "(" + SuperCall.LOCK + "I)V");
        } else if (isLock || Calls.stays(call)) {
            surround(isLock ? "lock" : call.name, at, next);
        } else if (call.descriptor.startsWith("()")) {
            surroundWithoutWords(SuperCall.of(call), call, at, next);
        } else {
            surroundWithWords(SuperCall.of(call), call, "L" + receiver + ";", at, next);
        }
    }

    private void surroundWithoutWords(SuperCall call, Calls.Call called, int at, int next) {
        if (call.before != null) {
            supers(site(before(at).put(Opcodes.DUP)), call.before, "(" + SuperCall.STAMPED + "I)V");
        }
        if (call.after == null) return;
        before(at).put(Opcodes.DUP);
        String result = called.descriptor.substring(2);
        supers(site(behind(next)), call.after, "(" + SuperCall.STAMPED + result + "I)" + result);
    }

    /** The object of the call is below its words on the stack, and also in its variable. */
    private void surroundWithWords(SuperCall call, Calls.Call called, String receiver, int at, int next) {
        boolean hasObject = !method.isStatic() || descriptor.startsWith("(L" + type.name + ";");
        if (!hasObject || new Frames(type, method, descriptor).isStoredOver())
                throw new IllegalStateException("its method " + name + " changes `this`");
        if (call.after == null) {
            supers(site(before(at).put(Opcodes.ALOAD_0)), call.before, "(J" + receiver + "I)J");
            return;
        }
        boolean hasUnit = !called.descriptor.startsWith("(J)");
        Bytes first = before(at);
        if (hasUnit) first.put(Opcodes.DUP_X2).put(Opcodes.POP);
        supers(first.put(Opcodes.DUP2), call.before, "(J)V");
        if (hasUnit) first.put(Opcodes.DUP2_X1).put(Opcodes.POP2);
        String result = called.descriptor.substring(called.descriptor.indexOf(')') + 1);
        supers(site(behind(next).put(Opcodes.ALOAD_0)), call.after, "(" + result + receiver + "I)" + result);
    }

    /** A call stays whose object may be a lock or a thread, which is asked when it is made. */
    private void ask(Calls.Call call, int at, int next) {
        MaybeCall asked = MaybeCall.of(call);
        if (asked == null) {
            askWithWords(call, at, next);
            return;
        }
        if (asked.before != null) maybe(site(before(at).put(Opcodes.DUP)), asked.before, MaybeCall.wordsBefore());
        if (asked.after == null) return;
        before(at).put(Opcodes.DUP);
        Bytes last = behind(next);
        maybe(asked.after.equals("made") ? last : site(last), asked.after, asked.wordsAfter);
    }

    private void askWithWords(Calls.Call call, int at, int next) {
        Bytes first = before(at);
        if (!call.name.equals("tryLock")) {
            first.put(Opcodes.DUP2_X1).put(Opcodes.POP2).put(Opcodes.DUP_X2);
            maybe(site(first), "joins", "(JLjava/lang/Object;I)J");
            return;
        }
        String unit = "Ljava/util/concurrent/TimeUnit;";
        maybe(first, "tries", "(Ljava/lang/Object;J" + unit + ")Ljava/lang/Object;").put(Opcodes.DUP);
        if (call.opcode == Opcodes.INVOKEVIRTUAL) first.put(Opcodes.CHECKCAST).putShort(constants.type(call.owner));
        maybe(maybe(first, "time", "()J"), "unit", "()" + unit);
        maybe(site(behind(next)), "timed", "(Ljava/lang/Object;ZI)Z");
    }

    private Bytes maybe(Bytes to, String called, String words) {
        return to.put(Opcodes.INVOKESTATIC).putShort(constants.method(MaybeCall.MAYBE, called, words));
    }

    private Bytes supers(Bytes to, String called, String words) {
        return to.put(Opcodes.INVOKESTATIC).putShort(constants.method(SuperCall.SUPERS, called, words));
    }

    /**
     * References to methods of locks, such as `lock::unlock`, of conditions and of threads, or to constructors of locks, become
     * references to what is called instead, which gets their place first. None of their words but their object may be known.
     */
    private void rewriteReferences(int at) {
        int call = type.number(at + 1);
        String made = type.descriptor(call);
        int bootstrap = type.bootstrap(type.part(call, 1));
        if (!Calls.makesReference(type, bootstrap)) return;
        for (int word = 0; word < type.number(bootstrap + 2); word++) {
            int handle = type.number(bootstrap + 4 + 2 * word);
            if (type.kind(handle) != ClassFile.HANDLE || !Calls.mayBeReference(type, handle)) continue;
            boolean isMaker = Calls.isMaker(type, handle);
            String receiver = isMaker ? "" : Calls.receiverOfReference(Calls.referred(type, handle), wanted.hierarchy);
            if (receiver == null && MaybeCall.isOne(Calls.referred(type, handle), wanted.hierarchy)) {
                askByReference(at, call, word, handle);
                return;
            }
            String changed = receiver == null || isMaker && !made.startsWith("()") ? null : Calls.withPlace(made, receiver);
            if (changed == null) continue;
            int instead = isMaker ? maker(handle) : caller(receiver, handle);
            Bytes added = number(before(at), isMaker ? siteOfMade(-1) : Site.add(source, name, where(), 1));
            if (!made.startsWith("()")) added.put(Opcodes.SWAP);
            code.instead(at).put(Opcodes.INVOKEDYNAMIC).putShort(constants.dynamicCall(call, changed, word, instead)).putShort(0);
            return;
        }
    }

    /** A reference gets its place and what it refers to first, as its object may be a lock or a thread. */
    private void askByReference(int at, int call, int word, int handle) {
        String made = type.descriptor(call);
        String changed = Calls.withPlace(made, "java/lang/Object");
        if (changed == null) return;
        int called = type.part(handle, 2);
        String words = "(I" + MaybeCall.HANDLE + "Ljava/lang/Object;" + type.descriptor(called).substring(1);
        int instead = constants.handle(constants.method(MaybeCall.REFERENCES, type.nameOfMember(called), words));
        boolean hasObject = !made.startsWith("()");
        Bytes added = site(before(at));
        if (hasObject) added.put(Opcodes.SWAP);
        load(added, handle);
        if (hasObject) added.put(Opcodes.SWAP);
        String all = "(I" + MaybeCall.HANDLE + changed.substring(2);
        code.instead(at).put(Opcodes.INVOKEDYNAMIC).putShort(constants.dynamicCall(call, all, word, instead)).putShort(0);
    }

    /** What is called instead of a method of a lock, a condition or a thread. */
    private int caller(String receiver, int handle) {
        int called = type.part(handle, 2);
        String words = "(IL" + receiver + ";" + type.descriptor(called).substring(1);
        return constants.handle(constants.method(Calls.REFERENCES, type.nameOfMember(called), words));
    }

    /** What is called instead of a constructor. */
    private int maker(int handle) {
        int constructor = type.part(handle, 2);
        String owner = type.owner(constructor);
        String words = type.descriptor(constructor).substring(1).replace(")V", ")L" + owner + ";");
        return constants.handle(constants.method(Calls.REFERENCES, Calls.nameOfMaker(owner), "(I" + words));
    }

    // ---- Objects that are made.

    private void beginNew(int at) {
        news.push(at);
        hasNew = true;
    }

    private void endNew(int called, int at, int next) {
        if (!news.isEmpty() && isSameClass(type.number(news.peek() + 1), type.part(called, 1))) {
            int made = news.pop();
            if (wanted.isTold(method, called)) tell(called, at);
            boolean isNoted = wanted.matters(type.number(made + 1)) || isKeptInLockedField(next);
            if (isNoted && isOnStack(made, at)) noteMade(at, next, at);
        } else if (method.isConstructor && news.isEmpty() && wanted.locking.isOfItself()
                && !type.owner(called).equals(type.name) && isOfThis(at)) {
            call(behind(next).put(Opcodes.ALOAD_0), Hook.BORN);
        }
    }

    /** Whether an object that is being made is on the stack once its constructor has run, and nothing else above it. */
    private boolean isOnStack(int made, int at) {
        return type.opcode(made + 3) == Opcodes.DUP && new Depth(type, method).stays(2, made + 4, at);
    }

    /** Whether the constructor that is called is one for `this`, which stays in its variable. */
    private boolean isOfThis(int call) {
        if (new Frames(type, method, descriptor).isStoredOver()) return false;
        Depth depth = new Depth(type, method);
        boolean isFound = false;
        for (int at = method.start; at < call && !isFound; at = type.after(at, method)) {
            isFound = type.opcode(at) == Opcodes.ALOAD_0 && depth.stays(1, at + 1, call);
        }
        return isFound;
    }

    private boolean isSameClass(int one, int other) {
        return one == other || type.nameOfClass(one).equals(type.nameOfClass(other));
    }

    /** Whether what was made goes straight into a field that is locked. */
    private boolean isKeptInLockedField(int next) {
        int opcode = next < method.end ? type.opcode(next) : 0;
        return (opcode == Opcodes.PUTFIELD || opcode == Opcodes.PUTSTATIC) && wanted.matters(type.number(next + 1));
    }

    /** The object on the stack was made on this line. */
    private void noteMade(int at, int next, int constructor) {
        call(number(behind(next).put(Opcodes.DUP), siteOfMade(constructor)), Hook.MADE);
    }

    private int siteOfMade(int constructor) {
        int ordinal = line > 0 ? madeOnLine.getOrDefault(line, 0) + 1 : 1;
        if (line > 0) {
            madeOnLine.put(line, ordinal);
            noted.add(new Noted(line, ordinal, constructor));
        }
        return Site.add(source, name, where(), ordinal);
    }

    /** A constructor looks for its caller if it isn't told where it is called, and that costs much. */
    private void tell(int called, int at) {
        int site = Site.addCall(source, name, descriptor, where(), type.owner(called).replace('/', '.'));
        call(number(before(at), site), Hook.MAKES);
        told.put(site, at);
    }

    /** Once the class is written: says where in its code the constructors of noted objects are called. */
    void tellNoted() {
        for (Map.Entry<Integer, Integer> each : told.entrySet()) Site.calledAt(each.getKey(), code.placeOf(each.getValue()));
        for (Noted each : noted) {
            int at = each.constructor < 0 ? -1 : code.placeOf(each.constructor);
            OnLine.note(source, name, descriptor, each.line, each.ordinal, at);
        }
        for (int at : unlined) OnLine.notePlace(source, name, descriptor, code.placeOf(at), at - method.start);
    }

    // ---- Methods by which threads tell one another something.

    private void tellAtBeginning() {
        isChanged = true;
        line = lines.first;
        here = method.start;
        call(site(behind(method.start).put(Opcodes.ALOAD_0).put(telling.about)), telling.hook);
    }

    /** What the method returns, if that matters, is on the stack. */
    private void tellAtEnd(Bytes end) {
        boolean isOfResult = telling.about == Opcodes.SWAP || telling.hook == Hook.HEARS_IF_TRUE;
        call(site((isOfResult ? end.put(Opcodes.DUP) : end).put(Opcodes.ALOAD_0).put(telling.about)), telling.hook);
    }

    // ---- Synchronized methods.

    /**
     * Whether a method enters its monitor by instructions, so that threads can be held back before: the virtual machine
     * does it before all of them. That the method isn't synchronized then would change the number by which Java knows the
     * version of a class that is serialised, unless the class says it itself.
     */
    private boolean isToEnterByItself() {
        if (!Provoke.isOn() || source.isOfJdk) return false;
        return type.hasSerialVersion || !wanted.hierarchy.maySerialize(type.superName, type.interfaces,
                Hierarchy.MOST_ABOVE);
    }

    /** The method enters the monitor before its first line, and exits it on an error, as it does before each return. */
    private void wrap() {
        line = lines.first;
        here = method.start;
        Bytes entry = site(owner(behind(method.start)));
        if (isByItself) owner(call(entry, Hook.ENTER)).put(Opcodes.MONITORENTER);
        else call(entry, Hook.ENTERED);
        Bytes variables = new Bytes(8).putShort(method.isStatic() ? 0 : 1);
        if (!method.isStatic()) variables.put(Code.OBJECT).putShort(type.self);
        code.handle(exits(new Bytes(16)).put(Opcodes.ATHROW), variables, isByItself ? line : 0);
    }

    private Bytes exits(Bytes to) {
        call(owner(to), Hook.EXIT);
        return isByItself ? owner(to).put(Opcodes.MONITOREXIT) : to;
    }

    /** Whether the method takes the monitor of its class in a file from before version 49, where no constant is a class. */
    private boolean isLockedByName() {
        return method.isSynchronized() && method.isStatic() && type.version < Opcodes.V1_5;
    }

    /** The object whose monitor the method takes. */
    private Bytes owner(Bytes to) {
        if (!method.isStatic()) return to.put(Opcodes.ALOAD_0);
        if (!isLockedByName()) return load(to, type.self);
        return load(to, constants.string(type.name.replace('/', '.'))).put(Opcodes.INVOKESTATIC).putShort(
                constants.method("java/lang/Class", "forName", "(Ljava/lang/String;)Ljava/lang/Class;"));
    }
}
