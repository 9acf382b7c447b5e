import java.io.ByteArrayOutputStream;
import java.io.DataOutputStream;
import java.io.IOException;
import java.nio.charset.StandardCharsets;
import java.nio.file.Files;
import java.nio.file.Path;
import java.util.Map;
import java.util.TreeMap;
import java.util.stream.Stream;

/**
 * Makes the files that `jm_tool gen` makes of the same numbers, by a program of its own: `GenerateModules MODULES
 * CLASSES SEED [PLUGINS]` prints how many they are and the sum over them that jm_call_cases takes: of the
 * bytes of each path below `x` and of each file, by rising path. With the plug-ins `strip,compact` or `compact,strip`
 * they are as these leave them in this order. A FOLDER behind PLUGINS, which may be empty, has the files put there in
 * place of the sum, and `GenerateModules FOLDER` prints the sum over the files that are there.
 */
public class GenerateModules {
  private static long drawn;
  private static boolean stripped;
  private static boolean compacted;

  public static void main(String[] words) throws IOException {
    if (words.length == 1) {
      printSum(filesBelow(Path.of(words[0])));
      return;
    }
    int modules = Integer.parseInt(words[0]);
    int classes = Integer.parseInt(words[1]);
    drawn = Long.parseUnsignedLong(words[2]);
    String plugins = words.length > 3 ? words[3] : "";
    stripped = !plugins.isEmpty();
    // Compacting in front of stripping finds each constant named.
    compacted = plugins.equals("strip,compact");
    Map<String, byte[]> files = files(modules, classes);
    if (words.length > 4) {
      for (Map.Entry<String, byte[]> file : files.entrySet()) {
        Path path = Path.of(words[4], file.getKey());
        Files.createDirectories(path.getParent());
        Files.write(path, file.getValue());
      }
    } else {
      printSum(files);
    }
  }

  private static void printSum(Map<String, byte[]> files) {
    long sum = 0;
    for (Map.Entry<String, byte[]> file : files.entrySet()) {
      sum = sum(sum, ("x/" + file.getKey()).getBytes(StandardCharsets.US_ASCII));
      sum = sum(sum, file.getValue());
    }
    System.out.println(files.size() + " " + Long.toUnsignedString(sum));
  }

  private static Map<String, byte[]> filesBelow(Path folder) throws IOException {
    Map<String, byte[]> files = new TreeMap<>();
    try (Stream<Path> all = Files.walk(folder)) {
      for (Path path : (Iterable<Path>) all.filter(Files::isRegularFile)::iterator) {
        files.put(folder.relativize(path).toString(), Files.readAllBytes(path));
      }
    }
    return files;
  }

  private static Map<String, byte[]> files(int modules, int classes) throws IOException {
    Map<String, byte[]> files = new TreeMap<>();
    for (int module = 0; module < modules; module++) {
      String name = String.format("m%03d", module);
      long draw = draw();
      String[] needs =
          module == 0
              ? new String[0]
              : module == 1
                  ? new String[] {"m000"}
                  : new String[] {
                    String.format("m%03d", module - 1), String.format("m%03d", (draw >>> 33) % (module - 1))
                  };
      files.put(name + "/module-info.class", moduleInfo(name, needs));
      for (int place = 0; place < classes; place++) {
        String own = String.format("C%04d", place);
        String path = name + "/p" + place % 8 + "/" + own;
        files.put(name + "/" + path + ".class", classOf(path, own, draw()));
      }
    }
    return files;
  }

  private static long draw() {
    drawn = drawn * 6364136223846793005L + 1442695040888963407L;
    return drawn;
  }

  private static long sum(long sum, byte[] bytes) {
    for (byte each : bytes) {
      sum = sum * 31 + (each & 0xFF);
    }
    return sum;
  }

  private static byte[] moduleInfo(String name, String[] needs) throws IOException {
    ByteArrayOutputStream bytes = new ByteArrayOutputStream();
    DataOutputStream out = new DataOutputStream(bytes);
    out.writeInt(0xCAFEBABE);
    shorts(out, 0, 53, 6 + 2 * needs.length);
    text(out, "module-info");
    index(out, 7, 1);
    text(out, "Module");
    text(out, name);
    index(out, 19, 4);
    for (int place = 0; place < needs.length; place++) {
      text(out, needs[place]);
      index(out, 19, 6 + 2 * place);
    }
    shorts(out, 0x8000, 2, 0, 0, 0, 0, 1, 3);
    out.writeInt(16 + 6 * needs.length);
    shorts(out, 5, 0, 0, needs.length);
    for (int place = 0; place < needs.length; place++) {
      shorts(out, 7 + 2 * place, 0, 0);
    }
    shorts(out, 0, 0, 0, 0);
    return bytes.toByteArray();
  }

  private static byte[] classOf(String path, String own, long value) throws IOException {
    ByteArrayOutputStream bytes = new ByteArrayOutputStream();
    DataOutputStream out = new DataOutputStream(bytes);
    out.writeInt(0xCAFEBABE);
    String[] debug = compacted ? new String[0] : new String[] {"LineNumberTable", "SourceFile", own + ".java"};
    int number = 8 + debug.length;
    shorts(out, 0, 61, number + 2);
    text(out, path);
    index(out, 7, 1);
    text(out, "java/lang/Object");
    index(out, 7, 3);
    for (String each : new String[] {"v", "()J", "Code"}) {
      text(out, each);
    }
    for (String each : debug) {
      text(out, each);
    }
    out.writeByte(5);
    out.writeLong(value);
    shorts(out, 0x0021, 2, 4, 0, 0, 1, 0x0009, 5, 6, 1, 7);
    out.writeInt(stripped ? 16 : 28);
    shorts(out, 2, 0);
    out.writeInt(4);
    // ldc2_w of the long, lreturn
    out.writeInt(0x140000AD | number << 8);
    shorts(out, 0);
    if (stripped) {
      shorts(out, 0, 0);
    } else {
      shorts(out, 1, 8);
      out.writeInt(6);
      shorts(out, 1, 0, 1, 1, 9);
      out.writeInt(2);
      shorts(out, 10);
    }
    return bytes.toByteArray();
  }

  private static void text(DataOutputStream out, String text) throws IOException {
    out.writeByte(1);
    out.writeUTF(text);
  }

  private static void index(DataOutputStream out, int tag, int index) throws IOException {
    out.writeByte(tag);
    out.writeShort(index);
  }

  private static void shorts(DataOutputStream out, int... values) throws IOException {
    for (int value : values) {
      out.writeShort(value);
    }
  }
}
