import java.io.ObjectStreamClass;
import java.io.Serializable;
import java.lang.reflect.Method;
import java.lang.reflect.Modifier;
import java.util.Arrays;

/** What a program can see of itself, which has to be the same with the recorder. */
public class Unchanged implements Serializable {
    private int count;

    public synchronized int next(int[] by) {
        return count += by[0];
    }

    static void overflows() {
        synchronized (Unchanged.class) {
            overflows();
        }
    }

    public static void main(String[] words) throws Exception {
        System.out.println(Arrays.toString(words));
        System.out.println(ObjectStreamClass.lookup(Unchanged.class).getSerialVersionUID());
        for (Method method : Unchanged.class.getDeclaredMethods()) {
            if (method.getName().equals("next")) System.out.println(Modifier.toString(method.getModifiers()) + " " + method);
        }
        System.out.println(Unchanged.class.getDeclaredFields().length + " " + Unchanged.class.getDeclaredMethods().length);
        try {
            overflows();
        } catch (StackOverflowError error) {
            System.out.println(Thread.holdsLock(Unchanged.class));
        }
        try {
            new Unchanged().next(null);
        } catch (NullPointerException error) {
            error.printStackTrace();
        }
        System.err.println(System.getProperty("java.class.path") + " " + System.getenv("JAVA_TOOL_OPTIONS"));
        new Unchanged().next(new int[0]);
    }
}
