import java.io.IOException;
import java.nio.file.Files;
import java.nio.file.Path;
import java.util.ArrayList;
import java.util.List;
import java.util.stream.Stream;
import jdk.internal.org.objectweb.asm.ClassReader;
import jdk.internal.org.objectweb.asm.ClassWriter;

/** How long ASM takes to read and write every class file of a folder: the last of five rounds. */
public class AsmTimes {
    public static void main(String[] words) throws IOException {
        List<byte[]> files = new ArrayList<>();
        try (Stream<Path> paths = Files.walk(Path.of(words[0]))) {
            for (Path path : (Iterable<Path>) paths.filter(p -> p.toString().endsWith(".class"))::iterator) {
                files.add(Files.readAllBytes(path));
            }
        }
        for (int round = 1; round <= 5; round++) {
            long start = System.nanoTime();
            long read = 0;
            long bytes = 0;
            for (byte[] file : files) {
                try {
                    ClassWriter writer = new ClassWriter(0);
                    new ClassReader(file).accept(writer, 0);
                    bytes += writer.toByteArray().length;
                    read++;
                } catch (IllegalArgumentException tooNew) {
                    // A version that this ASM doesn't know.
                }
            }
            long took = (System.nanoTime() - start) / 1000;
            if (round == 5) {
                System.out.println("asm: " + read + " classes, " + bytes + " bytes written in " + took + " microseconds");
            }
        }
    }
}
