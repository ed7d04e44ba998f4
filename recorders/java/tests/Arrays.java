import java.lang.reflect.Array;

/** Locks that are arrays which unseen code makes. */
public class Arrays {
    public static void main(String[] words) {
        Object numbers = Array.newInstance(int.class, 2, 2);
        Object texts = Array.newInstance(String.class, 1);
        synchronized (numbers) {
            synchronized (texts) {
                System.out.println("nested");
            }
        }
    }
}
