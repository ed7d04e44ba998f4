package java.lockdep.agent;

/** The lines of a method's code. */
final class Lines {
    /** The line that begins with each instruction; 0 for others. */
    final int[] all;
    /** The line of the first instruction that has one; 0 if none has. */
    int first;
    private int firstPlace;

    Lines(ClassFile type, ClassFile.Method method) {
        all = new int[method.end - method.start];
        firstPlace = all.length;
        int next = method.end + 4 + 8 * type.number(method.end);
        for (int left = type.number(next - 2); left > 0; left--) {
            if (type.isText(type.number(next), ClassFile.LINES)) addAll(type, next + 6);
            next += 6 + type.longNumber(next + 2);
        }
    }

    private void addAll(ClassFile type, int at) {
        int next = at + 2;
        for (int left = type.number(at); left > 0; left--, next += 4) {
            int place = type.number(next);
            all[place] = type.number(next + 2);
            if (place >= firstPlace) continue;
            firstPlace = place;
            first = all[place];
        }
    }
}
