package lockdep_java_agent;

import java.io.File;
import java.lang.instrument.Instrumentation;
import java.util.jar.JarFile;

/**
 * What the JVM calls first. The agent has to be loaded by the boot loader, for which the jar's manifest names the jar.
 * That doesn't work if the jar's path has a space, so this class makes sure of it.
 */
public final class Start {
    private Start() {
    }

    public static void premain(String folder, Instrumentation machine) {
        try {
            if (Start.class.getClassLoader() != null) {
                File jar = new File(Start.class.getProtectionDomain().getCodeSource().getLocation().toURI());
                machine.appendToBootstrapClassLoaderSearch(new JarFile(jar));
            }
            Class.forName("java.lockdep.agent.Agent", true, null).getMethod("begin", String.class, Instrumentation.class)
                    .invoke(null, folder, machine);
        } catch (Throwable error) { // the program runs nevertheless, and `record` says that nothing was recorded
            System.err.println("record: this Java isn't recorded: " + (error.getCause() == null ? error
                    : error.getCause()));
        }
    }
}
