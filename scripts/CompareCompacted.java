import java.io.IOException;
import java.nio.ByteBuffer;
import java.nio.file.Files;
import java.nio.file.Path;
import java.util.ArrayList;
import java.util.Arrays;
import java.util.BitSet;
import java.util.List;
import java.util.Map;
import java.util.Set;
import java.util.TreeMap;
import java.util.stream.Collectors;
import java.util.stream.Stream;

/**
 * Compares the classes of two folders, {@code CompareCompacted STRIPPED COMPACTED}: each of the second must say what
 * that of the first says, where each number of a constant stands for what it names.
 *
 * <p>It reads class files by itself, with all attributes of Java 17. A class that was changed must say the same, and
 * have those constants of the old one, in their order, that the class names by a chain of numbers, and no other. For a
 * class that wasn't changed it says why: the first attribute that isn't to be taken apart, or that all constants are
 * named already. Where neither holds, that is wrong too. All other files must be the same.
 */
public class CompareCompacted {
  /** The attributes that are taken apart, with their place. */
  static final Set<String> LISTED = listed(
      "class Signature SourceFile NestHost NestMembers InnerClasses EnclosingMethod BootstrapMethods",
      "class SourceDebugExtension Deprecated Synthetic", "field ConstantValue Signature Deprecated Synthetic",
      "method Code Signature Exceptions MethodParameters Deprecated Synthetic",
      "code LineNumberTable LocalVariableTable LocalVariableTypeTable StackMapTable");

  static Set<String> listed(String... lines) {
    return Arrays.stream(lines).map(line -> line.split(" "))
        .flatMap(words -> Arrays.stream(words).skip(1).map(word -> words[0] + " " + word)).collect(Collectors.toSet());
  }

  static class Faulty extends RuntimeException {
    Faulty(String text) {
      super(text);
    }
  }

  /** What a class says, with constants in the place of their numbers, and which of them are named. */
  static class Said {
    final ByteBuffer in;
    final StringBuilder text = new StringBuilder();
    final int[] places;
    final String[] constants;
    final BitSet named = new BitSet();
    String unlisted;

    Said(byte[] bytes) {
      in = ByteBuffer.wrap(bytes);
      number(8);
      places = new int[Short.toUnsignedInt(in.getShort())];
      constants = new String[places.length];
      for (int i = 1; i < places.length; i++) {
        places[i] = in.position();
        int tag = in.get();
        in.position(in.position() + size(tag, in));
        i += tag == 5 || tag == 6 ? 1 : 0;
      }
      number(2);
      index();
      index();
      each(2, this::index);
      each(2, () -> member("field"));
      each(2, () -> member("method"));
      attributes("class");
      if (in.hasRemaining()) {
        throw new Faulty("bytes behind the class");
      }
    }

    static int size(int tag, ByteBuffer in) {
      switch (tag) {
        case 1: return 2 + Short.toUnsignedInt(in.getShort(in.position()));
        case 7: case 8: case 16: case 19: case 20: return 2;
        case 15: return 3;
        case 3: case 4: case 9: case 10: case 11: case 12: case 17: case 18: return 4;
        case 5: case 6: return 8;
        default: throw new Faulty("a tag " + tag);
      }
    }

    /** The constant of a number with all that it names, which are then named. */
    String constant(int index, int depth) {
      if (index == 0) {
        return "none";
      }
      if (index >= places.length || places[index] == 0 || depth > 8) {
        throw new Faulty("number " + index + " is that of no constant");
      }
      named.set(index);
      if (constants[index] == null) {
        int at = places[index] + 1;
        int tag = in.get(at - 1);
        switch (tag) {
          case 7: case 8: case 16: case 19: case 20: constants[index] = parts(tag, "", depth, at); break;
          case 9: case 10: case 11: case 12: constants[index] = parts(tag, "", depth, at, at + 2); break;
          case 15: constants[index] = parts(tag, " " + in.get(at), depth, at + 1); break;
          case 17: case 18: constants[index] = parts(tag, " " + in.getShort(at), depth, at + 2); break;
          default:
            byte[] body = new byte[size(tag, in.duplicate().position(at))];
            in.duplicate().position(at).get(body);
            constants[index] = "{" + tag + " " + new String(body, java.nio.charset.StandardCharsets.ISO_8859_1) + "}";
        }
      }
      return constants[index];
    }

    String parts(int tag, String plain, int depth, int... at) {
      StringBuilder all = new StringBuilder("{" + tag + plain);
      for (int place : at) {
        all.append(' ').append(constant(Short.toUnsignedInt(in.getShort(place)), depth + 1));
      }
      return all.append('}').toString();
    }

    /** A constant that was said once more names its constants once more. */
    void name(int index) {
      text.append(constant(index, 0)).append('\n');
    }

    void index() {
      name(Short.toUnsignedInt(in.getShort()));
    }

    int number(int size) {
      int value = 0;
      for (int k = 0; k < size; k++) {
        int each = Byte.toUnsignedInt(in.get());
        text.append(each).append(' ');
        value = value << 8 | each;
      }
      return value;
    }

    void each(int size, Runnable item) {
      for (int left = number(size); left > 0; left--) {
        item.run();
      }
    }

    void indices(int count) {
      for (int k = 0; k < count; k++) {
        index();
      }
    }

    void member(String where) {
      number(2);
      indices(2);
      attributes(where);
    }

    void attributes(String where) {
      each(2, () -> attribute(where));
    }

    void attribute(String where) {
      String name = constant(Short.toUnsignedInt(in.getShort(in.position())), 0);
      name = name.substring(Math.min(5, name.length()), name.length() - 1);
      index();
      int end = number(4) + in.position();
      if (!LISTED.contains(where + " " + name) && unlisted == null) {
        unlisted = name + " in a " + where;
      }
      body(name, end);
      if (in.position() != end) {
        throw new Faulty(name + " isn't of its length");
      }
    }

    void body(String name, int end) {
      switch (name) {
        case "ConstantValue": case "Signature": case "SourceFile": case "NestHost": case "ModuleMainClass":
        case "ModuleTarget": index(); break;
        case "Exceptions": case "NestMembers": case "PermittedSubclasses": case "ModulePackages":
          each(2, this::index); break;
        case "InnerClasses": each(2, () -> { indices(3); number(2); }); break;
        case "EnclosingMethod": indices(2); break;
        case "BootstrapMethods": each(2, () -> { index(); each(2, this::index); }); break;
        case "MethodParameters": each(1, () -> { index(); number(2); }); break;
        case "LocalVariableTable": case "LocalVariableTypeTable":
          each(2, () -> { number(4); indices(2); number(2); }); break;
        case "StackMapTable": each(2, this::frame); break;
        case "Code": code(); break;
        case "LineNumberTable": case "SourceDebugExtension": case "Deprecated": case "Synthetic":
        case "ModuleResolution": plain(end); break;
        case "RuntimeVisibleAnnotations": case "RuntimeInvisibleAnnotations": each(2, this::annotation); break;
        case "RuntimeVisibleParameterAnnotations": case "RuntimeInvisibleParameterAnnotations":
          each(1, () -> each(2, this::annotation)); break;
        case "RuntimeVisibleTypeAnnotations": case "RuntimeInvisibleTypeAnnotations":
          each(2, this::typeAnnotation); break;
        case "AnnotationDefault": element(); break;
        case "Record": each(2, () -> { indices(2); attributes("record component"); }); break;
        case "Module": module(); break;
        case "ModuleHashes": index(); each(2, () -> { index(); each(2, () -> number(1)); }); break;
        default: throw new Faulty("an unknown attribute " + name);
      }
    }

    void plain(int end) {
      while (in.position() < end) {
        number(1);
      }
    }

    void annotation() {
      index();
      each(2, () -> { index(); element(); });
    }

    void element() {
      switch (number(1)) {
        case 'e': indices(2); break;
        case '@': annotation(); break;
        case '[': each(2, this::element); break;
        default: index();
      }
    }

    void typeAnnotation() {
      int target = number(1);
      if (target <= 0x01 || target == 0x16) {
        number(1);
      } else if (target == 0x11 || target == 0x12) {
        number(2);
      } else if (target == 0x40 || target == 0x41) {
        each(2, () -> number(6));
      } else if (target >= 0x47) {
        number(3);
      } else if (target < 0x13 || target > 0x15) {
        number(2);
      }
      each(1, () -> number(2));
      annotation();
    }

    void module() {
      index();
      number(2);
      index();
      each(2, () -> { index(); number(2); index(); });
      each(2, () -> { index(); number(2); each(2, this::index); });
      each(2, () -> { index(); number(2); each(2, this::index); });
      each(2, this::index);
      each(2, () -> { index(); each(2, this::index); });
    }

    void frame() {
      int type = number(1);
      if (type >= 64 && type < 128) {
        type();
      } else if (type >= 128) {
        number(2);
        if (type == 247) {
          type();
        } else if (type == 255) {
          each(2, this::type);
          each(2, this::type);
        }
        for (int k = 252; k <= type && type < 255; k++) {
          type();
        }
      }
    }

    void type() {
      switch (number(1)) {
        case 7: index(); break;
        case 8: number(2); break;
        default:
      }
    }

    void code() {
      number(4);
      int size = number(4);
      int start = in.position();
      while (in.position() < start + size) {
        instruction(start);
      }
      each(2, () -> { number(6); index(); });
      attributes("code");
    }

    void instruction(int start) {
      int opcode = number(1);
      switch (opcode) {
        case 0x12: name(Byte.toUnsignedInt(in.get())); break;
        case 0x13: case 0x14: case 0xb2: case 0xb3: case 0xb4: case 0xb5: case 0xb6: case 0xb7: case 0xb8:
        case 0xbb: case 0xbd: case 0xc0: case 0xc1: index(); break;
        case 0xb9: case 0xba: index(); number(2); break;
        case 0xc5: index(); number(1); break;
        case 0xaa: case 0xab:
          number((start - in.position()) & 3);
          number(4);
          int first = number(4);
          for (int left = opcode == 0xaa ? number(4) - first + 1 : 2 * first; left > 0; left--) {
            number(4);
          }
          break;
        case 0xc4: number(number(1) == 0x84 ? 4 : 2); break;
        case 0x10: case 0xbc: case 0xa9: number(1); break;
        case 0x11: case 0x84: case 0xc6: case 0xc7: number(2); break;
        case 0xc8: case 0xc9: number(4); break;
        default:
          boolean variable = opcode >= 0x15 && opcode <= 0x19 || opcode >= 0x36 && opcode <= 0x3a;
          number(variable ? 1 : opcode >= 0x99 && opcode <= 0xa8 ? 2 : 0);
      }
    }

    /** The constants that are named, in their order, or that there is one which isn't. */
    List<String> namedOnes() {
      List<String> all = new ArrayList<>();
      for (int index = named.nextSetBit(0); index >= 0; index = named.nextSetBit(index + 1)) {
        all.add(constants[index]);
      }
      return all;
    }

    int unnamed() {
      int count = 0;
      for (int index = 1; index < places.length; index++) {
        count += places[index] != 0 && !named.get(index) ? 1 : 0;
      }
      return count;
    }
  }

  /** What is wrong with a class that was changed, or null. */
  static String wrong(byte[] old, byte[] small) {
    Said before = new Said(old);
    Said after;
    try {
      after = new Said(small);
    } catch (RuntimeException fault) {
      return fault.toString();
    }
    if (before.unlisted != null) {
      return "it has " + before.unlisted;
    }
    if (!after.text.toString().equals(before.text.toString())) {
      return "it says something else";
    }
    if (after.unnamed() > 0) {
      return after.unnamed() + " of its constants are named by nothing";
    }
    return after.namedOnes().equals(before.namedOnes()) ? null : "its constants are others, or in another order";
  }

  /** Why a class stays as it is, or null where there is no reason. */
  static String reason(byte[] bytes) {
    Said said = new Said(bytes);
    if (said.unlisted != null) {
      return (said.unnamed() > 0 ? "some constants named by nothing, but " : "nothing to drop, and ") + said.unlisted;
    }
    return said.unnamed() == 0 ? "nothing to drop" : null;
  }

  static List<Path> files(Path folder) throws IOException {
    try (Stream<Path> all = Files.walk(folder)) {
      return all.filter(Files::isRegularFile).map(folder::relativize).sorted().collect(Collectors.toList());
    }
  }

  public static void main(String[] words) throws IOException {
    Path stripped = Path.of(words[0]);
    Path compacted = Path.of(words[1]);
    List<Path> names = files(stripped);
    if (!names.equals(files(compacted))) {
      System.out.println("the folders have other files");
      System.exit(1);
    }
    Map<String, Integer> reasons = new TreeMap<>();
    int changed = 0;
    int wrong = 0;
    for (Path name : names) {
      byte[] old = Files.readAllBytes(stripped.resolve(name));
      byte[] small = Files.readAllBytes(compacted.resolve(name));
      boolean same = Arrays.equals(old, small);
      String fault = same ? null : "it isn't a class";
      if (name.toString().endsWith(".class")) {
        changed += same ? 0 : 1;
        String reason = same ? reason(old) : null;
        fault = !same ? wrong(old, small) : reason == null ? "it has constants named by nothing" : null;
        if (reason != null) {
          reasons.merge(reason, 1, Integer::sum);
        }
      }
      if (fault != null && ++wrong <= 10) {
        System.out.println(name + ": " + fault);
      }
    }
    System.out.println(names.size() + " files, " + changed + " classes smaller, " + wrong + " files wrong");
    reasons.forEach((reason, count) -> System.out.println(count + " as before: " + reason));
    System.exit(wrong == 0 ? 0 : 1);
  }
}
