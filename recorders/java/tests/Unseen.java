/** A monitor that is given back without having been seen to be taken: as to the recorder one is that began before it. */
public class Unseen {
    public static void main(String[] words) throws ReflectiveOperationException {
        synchronized (Unseen.class) {
            Class.forName("java.lockdep.Hooks").getMethod("exit", Object.class).invoke(null, new Object());
        }
    }
}
