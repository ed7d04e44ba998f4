/** Objects that lock themselves and are made by reflection, often enough that the JDK generates code: each class is its own. */
public class Reflected {
    synchronized void takes() {
    }

    public static void main(String[] words) throws ReflectiveOperationException {
        for (int count = 0; count < 40; count++) Reflected.class.getDeclaredConstructor().newInstance().takes();
    }
}
