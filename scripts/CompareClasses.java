import java.io.IOException;
import java.nio.file.Files;
import java.nio.file.Path;
import java.util.Arrays;
import java.util.List;
import java.util.stream.Collectors;
import java.util.stream.Stream;
import jdk.internal.org.objectweb.asm.ClassReader;
import jdk.internal.org.objectweb.asm.ClassWriter;

/**
 * Compares the files of two folders, {@code CompareClasses OURS THEIRS}. THEIRS has what {@code jlink
 * --strip-java-debug-attributes} leaves of a JDK's classes: it reads each class but module-info with
 * ASM, which skips what is for debuggers and writes the class anew with a constant pool of its own.
 * So a class of OURS, which keeps its constant pool, is read and written in that way too, and must
 * then be the same bytes. All other files must be the same as they stand, but for the debug
 * information of a module-info, which jlink leaves.
 */
public class CompareClasses {
  static byte[] rewritten(byte[] bytes, int flags) {
    ClassWriter writer = new ClassWriter(ClassWriter.COMPUTE_MAXS);
    new ClassReader(bytes).accept(writer, flags);
    return writer.toByteArray();
  }

  static List<Path> files(Path folder) throws IOException {
    try (Stream<Path> all = Files.walk(folder)) {
      return all.filter(Files::isRegularFile).map(folder::relativize).sorted().collect(Collectors.toList());
    }
  }

  public static void main(String[] words) throws IOException {
    Path ours = Path.of(words[0]);
    Path theirs = Path.of(words[1]);
    List<Path> names = files(ours);
    if (!names.equals(files(theirs))) {
      System.out.println("the folders have other files");
      System.exit(1);
    }
    int classes = 0;
    int differ = 0;
    int keep = 0;
    for (Path name : names) {
      byte[] our = Files.readAllBytes(ours.resolve(name));
      byte[] their = Files.readAllBytes(theirs.resolve(name));
      boolean same = Arrays.equals(our, their);
      if (name.endsWith("module-info.class")) {
        same = Arrays.equals(rewritten(our, ClassReader.SKIP_DEBUG), rewritten(their, ClassReader.SKIP_DEBUG));
      } else if (name.toString().endsWith(".class")) {
        classes++;
        same = Arrays.equals(rewritten(our, ClassReader.SKIP_DEBUG), their);
        if (!Arrays.equals(rewritten(our, 0), their)) {
          keep++;
        }
      }
      if (!same) {
        differ++;
        if (differ <= 10) {
          System.out.println("differs: " + name);
        }
      }
    }
    System.out.println(names.size() + " files, " + classes + " classes, " + differ + " differ");
    System.out.println(keep + " classes keep MethodParameters, which ASM drops and which describe the program");
    System.exit(differ == 0 ? 0 : 1);
  }
}
