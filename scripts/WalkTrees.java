import java.io.IOException;
import java.io.PrintStream;
import java.net.URI;
import java.nio.charset.StandardCharsets;
import java.nio.file.DirectoryStream;
import java.nio.file.FileSystems;
import java.nio.file.Files;
import java.nio.file.LinkOption;
import java.nio.file.Path;
import java.nio.file.attribute.BasicFileAttributes;
import java.util.ArrayDeque;
import java.util.ArrayList;
import java.util.Deque;
import java.util.List;

/**
 * Prints the file system `jrt:/` of the JVM that runs it, a request of a session and a tab before each line of its
 * reply. `stat PATH` and `ls PATH` stand for each folder, `stat PATH` alone for each file and each link.
 */
public class WalkTrees {
  private static final PrintStream OUT = new PrintStream(System.out, false, StandardCharsets.UTF_8);

  public static void main(String[] words) throws IOException {
    Deque<Path> left = new ArrayDeque<>();
    left.add(FileSystems.getFileSystem(URI.create("jrt:/")).getPath("/"));
    while (!left.isEmpty()) {
      Path path = left.remove();
      BasicFileAttributes attributes =
          Files.readAttributes(path, BasicFileAttributes.class, LinkOption.NOFOLLOW_LINKS);
      if (attributes.isSymbolicLink()) {
        put("stat", path, "link " + Files.readSymbolicLink(path));
      } else if (attributes.isDirectory()) {
        List<Path> children = children(path);
        String count = "folder " + children.size();
        put("stat", path, count);
        put("ls", path, count);
        for (Path child : children) {
          put("ls", path, child.toString());
        }
        left.addAll(children);
      } else {
        put("stat", path, "file " + attributes.size());
      }
    }
    OUT.flush();
  }

  private static List<Path> children(Path folder) throws IOException {
    List<Path> children = new ArrayList<>();
    try (DirectoryStream<Path> stream = Files.newDirectoryStream(folder)) {
      stream.forEach(children::add);
    }
    return children;
  }

  private static void put(String verb, Path path, String line) {
    OUT.print(verb + " " + path + "\t" + line + "\n");
  }
}
