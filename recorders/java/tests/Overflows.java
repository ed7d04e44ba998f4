import java.util.ArrayList;
import java.util.List;

/** A thread whose stack overflows again and again in synchronized methods, and then takes two locks; another one takes them the other way round. */
public class Overflows {
    private static final Object JOURNAL = new Object();
    private static final Object INDEX = new Object();
    private static int count;

    private static final class Node {
        final List<Node> below = new ArrayList<>();

        synchronized void visit() {
            for (Node node : below) node.visit();
        }
    }

    private static void overflow(Node node) {
        try {
            node.visit();
        } catch (StackOverflowError full) {
            count++;
        }
    }

    private static void commit() {
        Node node = new Node();
        node.below.add(node);
        for (int each = 0; each < 40; each++) overflow(node);
        synchronized (JOURNAL) {
            synchronized (INDEX) {
                count++;
            }
        }
    }

    private static void rebuild() {
        synchronized (INDEX) {
            synchronized (JOURNAL) {
                count++;
            }
        }
    }

    public static void main(String[] words) throws InterruptedException {
        for (Runnable each : new Runnable[] {Overflows::commit, Overflows::rebuild}) {
            Thread thread = new Thread(each);
            thread.start();
            thread.join();
        }
        System.out.println(count);
        if (words.length > 0) System.exit(0);
    }
}
