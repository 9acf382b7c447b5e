import java.io.IOException;
import java.net.URI;
import java.nio.file.FileSystems;
import java.nio.file.Files;
import java.nio.file.Path;
import java.util.List;
import java.util.Optional;
import java.util.stream.Collectors;
import java.util.stream.Stream;

/**
 * Loads and links every class that {@code jrt:/} of the JVM lists, without running its code, so that a JVM with {@code
 * -Xverify:all} verifies it; for modules that the JVM knows, so give it {@code --add-modules ALL-SYSTEM}. Prints a line
 * for each class that isn't loaded, with what the JVM threw, and then how many were.
 */
public class LoadClasses {
  public static void main(String[] words) throws IOException {
    Path modules = FileSystems.getFileSystem(URI.create("jrt:/")).getPath("/modules");
    List<Path> paths;
    try (Stream<Path> all = Files.walk(modules)) {
      paths = all.filter(path -> path.toString().endsWith(".class")).sorted().collect(Collectors.toList());
    }
    int loaded = 0;
    for (Path path : paths) {
      Optional<Module> module = ModuleLayer.boot().findModule(path.getName(1).toString());
      String file = path.subpath(2, path.getNameCount()).toString();
      if (file.equals("module-info.class")) {
        continue;
      }
      String name = file.substring(0, file.length() - 6).replace('/', '.');
      try {
        // A JVM links a class, and so verifies it, before it tells its methods.
        Class.forName(name, false, module.orElseThrow().getClassLoader()).getDeclaredMethods();
        loaded++;
      } catch (ReflectiveOperationException | LinkageError | RuntimeException thrown) {
        System.out.println(path + ": " + thrown.getClass().getName());
      }
    }
    System.out.println(loaded + " classes loaded");
  }
}
