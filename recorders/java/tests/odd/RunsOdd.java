import java.lang.reflect.InvocationTargetException;
import java.nio.file.Files;
import java.nio.file.Path;

/** Makes an object of each class that a file lists, and calls its method `run`: RunsOdd FILE. */
public final class RunsOdd {
    private RunsOdd() {
    }

    public static void main(String[] words) throws Exception {
        for (String name : Files.readAllLines(Path.of(words[0]))) System.out.println(name + ": " + result(name));
    }

    private static String result(String name) throws ReflectiveOperationException {
        try {
            Class<?> type = Class.forName(name);
            type.getConstructor().newInstance();
            type.getMethod("run").invoke(null);
            return "ran";
        } catch (InvocationTargetException error) {
            return error.getCause().getClass().getName();
        } catch (LinkageError error) {
            return error.getClass().getName();
        }
    }
}
