import java.io.IOException;
import java.nio.file.Files;
import java.nio.file.Path;
import java.util.ArrayList;
import java.util.HashSet;
import java.util.List;
import java.util.Set;
import java.util.TreeMap;
import java.util.TreeSet;
import java.util.regex.Matcher;
import java.util.regex.Pattern;

/**
 * Computes the answers to the lines `close` of jm_call_cases, plainly and slowly: `java scripts/SlowClosure.java
 * crates/jm_call_cases`.
 *
 * A module is reached where a list of modules leads to it from a root, each requiring the next without `static`: all
 * such lists are gone through. A module is bound where it is in every closed set: all sets of modules are gone
 * through. What is refused is looked for in the stated order, and the least names are taken.
 */
public class SlowClosure {
  record Module(
      String name, Set<String> needs, Set<String> uses, Set<String> provides, Set<String> packages) {}

  public static void main(String[] words) throws IOException {
    List<String> answers = Files.readAllLines(Path.of(words[0], "stdout"));
    Pattern form = Pattern.compile("(close [^:]*: )\"([^\"]*)\" \"([^\"]*)\"");
    int rows = 0;
    int good = 0;
    for (String line : Files.readAllLines(Path.of(words[0], "stdin"))) {
      Matcher row = form.matcher(line);
      if (row.matches()) {
        rows++;
        String due = row.group(1) + answer(row.group(3), row.group(2));
        if (answers.contains(due)) {
          good++;
        } else {
          System.out.println("due is " + due);
        }
      }
    }
    System.out.println("SlowClosure: " + good + " of " + rows + " graphs");
    System.exit(rows > 0 && good == rows ? 0 : 1);
  }

  /** What `bind` answers, and behind a bar what `close` does. */
  private static String answer(String lines, String words) {
    List<Module> found = new ArrayList<>();
    Set<String> names = new HashSet<>();
    for (String line : lines.split(",")) {
      Module module = module(line);
      if (!names.add(module.name)) {
        return "one name twice";
      }
      found.add(module);
    }
    Set<String> roots = new TreeSet<>(List.of(words.split(" ")));
    return judged(found, roots, bound(found, roots)) + " | " + judged(found, roots, reached(found, roots));
  }

  private static Module module(String line) {
    String[] words = line.split(" ");
    Module module =
        new Module(words[0], new TreeSet<>(), new TreeSet<>(), new TreeSet<>(), new TreeSet<>());
    for (int place = 1; place < words.length; place++) {
      String rest = words[place].substring(1);
      switch (words[place].charAt(0)) {
        case '~' -> {}
        case '?' -> module.uses.add(rest);
        case '!' -> module.provides.add(rest);
        case '/' -> module.packages.add(rest);
        default -> module.needs.add(words[place]);
      }
    }
    return module;
  }

  /** The modules at the ends of all lists without a module twice that begin with a root. */
  private static Set<Module> reached(List<Module> found, Set<String> roots) {
    Set<Module> reached = new HashSet<>();
    for (Module module : found) {
      if (roots.contains(module.name)) {
        follow(found, List.of(module), reached);
      }
    }
    return reached;
  }

  private static void follow(List<Module> found, List<Module> list, Set<Module> reached) {
    Module last = list.get(list.size() - 1);
    reached.add(last);
    for (Module next : found) {
      if (last.needs.contains(next.name) && !list.contains(next)) {
        List<Module> longer = new ArrayList<>(list);
        longer.add(next);
        follow(found, longer, reached);
      }
    }
  }

  /** The modules that are in every closed set. */
  private static Set<Module> bound(List<Module> found, Set<String> roots) {
    Set<Module> bound = new HashSet<>(found);
    for (int bits = 0; bits < 1 << found.size(); bits++) {
      Set<Module> set = new HashSet<>();
      for (int place = 0; place < found.size(); place++) {
        if ((bits >> place & 1) == 1) {
          set.add(found.get(place));
        }
      }
      if (isClosed(found, roots, set)) {
        bound.retainAll(set);
      }
    }
    return bound;
  }

  private static boolean isClosed(List<Module> found, Set<String> roots, Set<Module> set) {
    for (Module other : found) {
      boolean due = roots.contains(other.name);
      for (Module module : set) {
        due |= module.needs.contains(other.name);
        due |= module.uses.stream().anyMatch(other.provides::contains);
      }
      if (due && !set.contains(other)) {
        return false;
      }
    }
    return true;
  }

  /** The names of chosen modules, or the first refusal with its least names. */
  private static String judged(List<Module> found, Set<String> roots, Set<Module> chosen) {
    TreeMap<String, Module> byName = new TreeMap<>();
    for (Module module : found) {
      byName.put(module.name, module);
    }
    for (String root : roots) {
      if (!byName.containsKey(root)) {
        return "NoRoot " + root;
      }
    }
    TreeMap<String, Module> taken = new TreeMap<>();
    for (Module module : chosen) {
      taken.put(module.name, module);
    }
    TreeSet<String> missing = new TreeSet<>();
    TreeMap<String, TreeSet<String>> holders = new TreeMap<>();
    for (Module module : taken.values()) {
      missing.addAll(module.needs);
      for (String held : module.packages) {
        holders.computeIfAbsent(held, none -> new TreeSet<>()).add(module.name);
      }
    }
    missing.removeAll(byName.keySet());
    if (!missing.isEmpty()) {
      String least = missing.first();
      for (Module module : taken.values()) {
        if (module.needs.contains(least)) {
          return "Missing " + least + " " + module.name;
        }
      }
    }
    for (Module module : taken.values()) {
      for (Module next : found) {
        Set<Module> behind = new HashSet<>();
        if (module.needs.contains(next.name)) {
          follow(found, List.of(next), behind);
        }
        if (behind.contains(module)) {
          return "Cycle " + module.name;
        }
      }
    }
    for (var held : holders.entrySet()) {
      if (held.getValue().size() > 1) {
        String first = held.getValue().first();
        return "SplitPackage " + held.getKey() + " " + first + " " + held.getValue().higher(first);
      }
    }
    return String.join(" ", taken.keySet());
  }
}
