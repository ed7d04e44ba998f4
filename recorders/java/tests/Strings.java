import java.util.List;
import java.util.Vector;

/** Objects of the JDK that lock themselves and then another one, both ways; Vector.addAll takes one after the other since Java 9. */
public class Strings {
    public static void main(String[] words) throws InterruptedException {
        StringBuffer first = new StringBuffer("a");
        StringBuffer second = new StringBuffer("b");
        Vector<String> left = new Vector<>(List.of("c"));
        Vector<String> right = new Vector<>(List.of("d"));
        Vector<String> third = new Vector<>(List.of("e"));
        for (Runnable what : new Runnable[] {() -> first.append(second), () -> second.append(first), () -> left.containsAll(right),
            () -> right.containsAll(left), () -> left.addAll(third), () -> third.addAll(left)}) {
            Thread thread = new Thread(what);
            thread.start();
            thread.join();
        }
    }
}
