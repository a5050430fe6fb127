import java.io.IOException;
import java.nio.charset.StandardCharsets;
import java.nio.file.Files;
import java.nio.file.Path;
import java.util.Arrays;
import java.util.HashMap;
import java.util.HashSet;
import java.util.Locale;
import java.util.Map;
import java.util.Set;
import java.util.function.Function;
import java.util.stream.Collectors;
import java.util.stream.LongStream;
import java.util.stream.Stream;
import s2union.CellId;
import s2union.CellUnion;
import s2union.Refusal;
import s2union.UnionFile;

/**
 * Asks the package for Java the questions of tests/model/vectors.py: java Vectors FILE. The last line is 'N passed, M
 * failed'.
 */
final class Vectors extends Checks {
  private static final Map<String, Function<Given, String>> QUESTIONS = new HashMap<>();

  private Vectors() {}

  /** The arguments of a question. */
  private static final class Given {
    private final String[] texts;

    Given(String[] texts) {
      this.texts = texts;
    }

    long cell(int place) {
      return Long.parseUnsignedLong(texts[place], 16);
    }

    long[] cells(int place) {
      return Arrays.stream(texts[place].split(" ")).filter(text -> !text.isEmpty())
          .mapToLong(text -> Long.parseUnsignedLong(text, 16)).toArray();
    }

    CellUnion union(int place) {
      return CellUnion.fromNormalized(cells(place));
    }

    UnionFile file(int place) {
      return new UnionFile(union(place).encode());
    }

    byte[] bytes(int place) {
      byte[] bytes = new byte[texts[place].length() / 2];
      for (int k = 0; k < bytes.length; k++) {
        bytes[k] = (byte) Integer.parseInt(texts[place].substring(2 * k, 2 * k + 2), 16);
      }
      return bytes;
    }

    String text(int place) {
      return new String(bytes(place), StandardCharsets.UTF_8);
    }

    int[] numbers(int place) {
      return Arrays.stream(texts[place].split(" ")).mapToInt(Integer::parseInt).toArray();
    }

    int number(int place) {
      return number(place, 0);
    }

    int number(int place, int k) {
      return numbers(place)[k];
    }
  }

  private static String shown(long cell) {
    return cell == 0 ? "none" : Long.toHexString(cell);
  }

  private static String shown(long[] cells) {
    return LongStream.of(cells).mapToObj(Long::toHexString).collect(Collectors.joining(" "));
  }

  private static String shown(CellUnion union) {
    return shown(union.cellIds());
  }

  private static String shown(boolean answer) {
    return answer ? "yes" : "no";
  }

  private static String shown(boolean[] answers) {
    StringBuilder text = new StringBuilder();
    for (boolean answer : answers) text.append(text.length() == 0 ? "" : " ").append(shown(answer));
    return text.toString();
  }

  private static String shown(byte[] bytes) {
    StringBuilder text = new StringBuilder();
    for (byte each : bytes) text.append(String.format("%02x", each));
    return text.toString();
  }

  private static String shown(String text) {
    return shown(text.getBytes(StandardCharsets.UTF_8));
  }

  /** The answer of several ways, which have to agree. */
  private static String same(String... answers) {
    return new HashSet<>(Arrays.asList(answers)).size() == 1 ? answers[0] : String.join(" but ", answers);
  }

  /** Adds a question, or another way to answer it: all ways have to agree. */
  private static void ask(String question, Function<Given, String> way) {
    QUESTIONS.merge(question, way, (one, other) -> g -> same(one.apply(g), other.apply(g)));
  }

  private static void regular() {
    // questions: all but version, child, square_of, levels, token_fields, from_points, denormalised, denormalised_len,
    //   file_count, file_cell
  }

  private static void others() {
    ask("level", g -> "" + CellId.levels(g.cell(0))[0]);
    ask("children", Vectors::children);
    ask("square", g -> Arrays.stream(CellId.square(g.cell(0))).mapToObj(String::valueOf)
        .collect(Collectors.joining(" ")));
    ask("from_tokens", g -> shown(CellUnion.fromTokens(g.text(0))));
    ask("levels", g -> {
      byte[] levels = CellId.levels(g.cells(0));
      String[] texts = new String[levels.length];
      for (int k = 0; k < texts.length; k++) texts[k] = "" + levels[k];
      return String.join(" ", texts);
    });
    ask("token_fields", g -> {
      StringBuilder text = new StringBuilder();
      for (String token : CellId.toTokens(g.cells(0))) text.append(token).append("\0".repeat(16 - token.length()));
      return shown(text.toString());
    });
    ask("from_points", g -> shown(CellId.fromPoints(g.numbers(0))));
    ask("union", g -> shown(united(g)));
    ask("compare", g -> "" + -g.union(1).compareTo(g.union(0)));
    ask("intersection_with_cell", g -> shown(g.union(0).intersection(g.cell(1))));
    ask("leaves", Vectors::leaves);
    ask("denormalised", g -> {
      int[] n = g.numbers(1);
      long[] cut = g.union(0).denormalized(n[0], n[1], 100_000);
      return cut.length == g.union(0).denormalizedSize(n[0], n[1]) ? shown(cut) : "another length";
    });
  }

  private static String children(Given g) {
    long[] found = LongStream.range(0, 4).map(k -> CellId.child(g.cell(0), (int) k)).toArray();
    return found[0] == 0 ? "none" : shown(found);
  }

  /** The union of the first and of each cell of the second, in one call. */
  private static CellUnion united(Given g) {
    Stream<CellUnion> cells = LongStream.of(g.cells(1)).mapToObj(CellUnion::of);
    return CellUnion.unionOf(Stream.concat(cells, Stream.of(g.union(0))).toList());
  }

  /** All leaves from one to another, without the other; the end may be one after the last leaf. */
  private static String leaves(Given g) {
    long end = g.cell(1);
    long last = end == 0xc000000000000001L ? 0xbfffffffffffffffL : CellId.prev(end);
    if (last == 0) throw new AssertionError("an end without a leaf before it");
    return shown(CellUnion.fromRange(g.cell(0), last));
  }

  /** The answer; a refusal has its place if the wanted one has. */
  private static String answer(Function<Given, String> question, String[] texts, String wanted) {
    try {
      return question.apply(new Given(texts));
    } catch (Refusal refusal) {
      return "!" + refusal.kind().name().toLowerCase(Locale.ROOT) + (wanted.contains(" ") ? " " + refusal.place() : "");
    }
  }

  public static void main(String[] words) throws IOException {
    regular();
    others();
    Set<String> never = new HashSet<>(QUESTIONS.keySet());
    for (String line : Files.readAllLines(Path.of(words[0]))) {
      String[] fields = line.split("\t", -1);
      String wanted = fields[fields.length - 1];
      String found = answer(QUESTIONS.get(fields[0]), Arrays.copyOfRange(fields, 1, fields.length - 1), wanted);
      never.remove(fields[0]);
      check(found.equals(wanted), line + ": " + found);
    }
    check(never.isEmpty(), "never asked: " + never);
    end();
  }
}
