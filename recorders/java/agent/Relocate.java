package java.lockdep.agent;

import java.io.IOException;
import java.nio.charset.StandardCharsets;
import java.nio.file.Files;
import java.nio.file.Path;
import java.util.List;
import java.util.Map;
import java.util.stream.Collectors;
import java.util.stream.Stream;

/** Copies classes into another folder, with the JDK's own annotations in place of two: Relocate TO FROM. */
final class Relocate {
    private static final Map<String, String> ANNOTATIONS = Map.of("Ljava/lockdep/Apart;", "Ljdk/internal/vm/annotation/DontInline;",
            "Ljava/lockdep/Within;", "Ljdk/internal/vm/annotation/ForceInline;");

    private Relocate() {
    }

    /** (The numbers of constants stay, so a text among them may get another length.) */
    private static byte[] relocated(ClassFile type) {
        Bytes out = new Bytes(type.bytes.length);
        int done = 0;
        for (int constant = 1; constant < type.countOfConstants(); constant++) {
            String other = type.kind(constant) == ClassFile.TEXT ? ANNOTATIONS.get(type.text(constant)) : null;
            if (other == null) continue;
            byte[] letters = other.getBytes(StandardCharsets.US_ASCII);
            int place = type.place(constant);
            out.put(type.bytes, done, place + 1).putShort(letters.length).put(letters, 0, letters.length);
            done = place + 3 + type.part(constant, 1);
        }
        return out.put(type.bytes, done, type.bytes.length).toArray();
    }

    public static void main(String[] words) throws IOException {
        List<Path> files;
        try (Stream<Path> all = Files.walk(Path.of(words[1]))) {
            files = all.filter(file -> file.toString().endsWith(".class")).collect(Collectors.toList());
        }
        for (Path file : files) {
            ClassFile type = new ClassFile(Files.readAllBytes(file));
            if (ANNOTATIONS.containsKey("L" + type.name + ";")) continue;
            Path target = Path.of(words[0]).resolve(type.name + ".class");
            Files.createDirectories(target.getParent());
            Files.write(target, relocated(type));
        }
    }
}
