import java.io.ByteArrayInputStream;
import java.io.ByteArrayOutputStream;
import java.io.IOException;
import java.io.ObjectInputStream;
import java.io.ObjectOutputStream;
import java.util.Arrays;
import java.util.List;
import java.util.stream.IntStream;
import java.util.stream.LongStream;
import s2union.CellId;
import s2union.CellUnion;
import s2union.Refusal;
import s2union.UnionFile;

/**
 * What the package for Java refuses, and what stays as it is: java Refusals VERSION. The last line is 'N passed, M
 * failed'.
 */
final class Refusals extends Checks {
  private static final long FACE = 0x1000000000000000L;

  private Refusals() {}

  private static void refused(int status, long place, String words, Runnable action) {
    try {
      action.run();
      check(false, "nothing refused: " + words);
    } catch (Refusal refusal) {
      check(refusal.status() == status && refusal.place() == place && refusal.getMessage().equals(words),
          refusal + " " + refusal.status() + " " + refusal.place() + ", not " + words);
      check(statusOf(refusal.kind()) == status, refusal.kind() + " of " + status);
    }
  }

  /** The status that has the name of a kind. */
  private static int statusOf(Refusal.Kind kind) {
    try {
      return Refusal.class.getField(kind.name()).getInt(null);
    } catch (ReflectiveOperationException error) {
      return 0;
    }
  }

  /** A status that a later library may have, and the longest list that Java has. */
  private static void whatIsUnknown() {
    try {
      var refusal = Refusal.class.getDeclaredConstructor(int.class, long.class);
      refusal.setAccessible(true);
      for (int status : new int[] {-99, -1, -7, -17}) {
        check(refusal.newInstance(status, 0L).kind() == Refusal.Kind.OTHER, "the kind of " + status);
      }
      var length = Class.forName("s2union.Calls").getDeclaredMethod("lengthOf", long.class);
      length.setAccessible(true);
      check(length.invoke(null, Integer.MAX_VALUE - 8L).equals(Integer.MAX_VALUE - 8), "the longest list");
      for (long more : new long[] {Integer.MAX_VALUE - 7L, Integer.MAX_VALUE, 1L << 31, 1L << 40, -1}) {
        try {
          check(false, "a list of " + more + ": " + length.invoke(null, more));
        } catch (java.lang.reflect.InvocationTargetException error) {
          check(error.getCause() instanceof Refusal many && many.kind() == Refusal.Kind.MANY, "" + more);
        }
      }
    } catch (ReflectiveOperationException error) {
      check(false, error.toString());
    }
  }

  private static void noCell(long place, Runnable action) {
    refused(-3, place, "not a cell", action);
  }

  private static void outOfRange(long place, Runnable action) {
    refused(-5, place, "argument out of range", action);
  }

  /** Every call, about a number that is no cell in the place of each cell, alone or in a list. */
  private static void numbersThatAreNoCells() {
    int asked = 0;
    for (EachCall call : EachCall.about(CellUnion.of(1, 5))) {
      Class<?>[] types = call.method().getParameterTypes();
      for (int place = 0; place < types.length; place++) {
        if (call.isOfShape() || types[place] != long.class && types[place] != long[].class) continue;
        asked++;
        int before = failed();
        for (long wrong : new long[] {0, 2, -1, 12 * FACE}) {
          boolean isList = types[place] == long[].class;
          EachCall about = call.with(place, isList ? new long[] {1, wrong} : (Object) wrong);
          if (call.method().getName().matches("isCell|isNormalized")) {
            check(about.answer().equals(false), call + " of " + wrong);
          } else if (call.method().getName().equals("fromNormalized")) {
            refused(-4, 0, "not a normalized list of cells", about::answer);
          } else {
            noCell(isList ? 1 : 0, about::answer);
          }
        }
        if (failed() > before) System.out.println("  of " + call + ", argument " + place);
      }
    }
    check(asked > 35, "the calls about cells are found: " + asked);
  }

  private static void numbersOutOfRange() {
    for (int wrong : new int[] {-1, 31, Integer.MIN_VALUE}) {
      outOfRange(0, () -> CellId.parent(FACE, wrong));
      outOfRange(0, () -> CellId.child(FACE, wrong));
      outOfRange(0, () -> CellId.parents(new long[] {1}, wrong));
      outOfRange(0, () -> CellUnion.of(FACE).outer(wrong));
      outOfRange(0, () -> CellUnion.of(FACE).inner(wrong));
      outOfRange(0, () -> CellUnion.of(FACE).denormalized(wrong, 1, 10));
      outOfRange(0, () -> CellId.fromFaceIJ(wrong, 0, 0));
      outOfRange(1, () -> CellId.fromPoints(0, 0, 0, wrong, 0, 0));
    }
    outOfRange(0, () -> CellId.child(FACE, 4));
    outOfRange(1, () -> CellId.fromPoints(0, 0, 0, 0, 0));
    outOfRange(1, () -> CellId.parents(new long[] {1, FACE}, 3));
    outOfRange(0, () -> CellUnion.of(FACE).denormalized(3, 4, 10));
    outOfRange(0, () -> CellUnion.outer(0, 5, 4, 0, 0, 30));
    check(CellUnion.outer(0, 0, 999_999, 0, 0, 30).size() == 1_000_000, "the most cells of a covering");
    refused(-6, 0, "too many cells", () -> CellUnion.outer(0, 0, 1_000_000, 0, 0, 30));
    refused(-6, 0, "too many cells", () -> CellUnion.of(FACE).denormalized(30, 1, 1_000_000));
    refused(-6, 0, "too many cells", () -> CellUnion.of(FACE).denormalized(30, 1, -1));
    refused(-6, 0, "too many cells", () -> CellUnion.of(FACE).denormalized(1, 1, -1));
    check(CellUnion.of().denormalized(1, 1, -1).length == 0, "a limit below 0, which is 0");
    refused(-6, 0, "too many cells", () -> CellUnion.of(FACE).denormalized(1, 1, 3));
    check(CellUnion.of(FACE).denormalized(1, 1, 4).length == 4, "a limit that is just met");
    refused(-4, 0, "not a normalized list of cells", () -> CellUnion.fromNormalized(FACE, FACE));
  }

  private static void files() {
    byte[] good = CellUnion.of(FACE).encode();
    byte[] version = good.clone();
    version[0] = 2;
    byte[] damaged = good.clone();
    damaged[9] = 2;
    damaged[16] = 0;
    refused(-10, 0, "union file: bytes are missing", () -> CellUnion.decode(Arrays.copyOf(good, 12)));
    refused(-10, 0, "union file: bytes are missing", () -> new UnionFile(new byte[0]));
    refused(-11, 0, "union file: unknown version", () -> UnionFile.check(version));
    refused(-12, 0, "union file: bytes after the last cell", () -> new UnionFile(Arrays.copyOf(good, 18)));
    refused(-13, 0, "union file: a number that is not a cell", () -> CellUnion.decode(damaged));
    refused(-13, 0, "union file: a number that is not a cell", () -> new UnionFile(damaged));
    byte[] twice = Arrays.copyOf(good, 25);
    twice[1] = 2;
    System.arraycopy(good, 9, twice, 17, 8);
    check(CellUnion.decode(twice).equals(CellUnion.of(FACE)) && !UnionFile.check(twice), "a file of one cell twice");
    refused(-4, 0, "not a normalized list of cells", () -> new UnionFile(twice));
    byte[] given = good.clone();
    UnionFile kept = new UnionFile(given);
    Arrays.fill(given, (byte) 255);
    check(kept.contains(FACE) && !kept.intersects(3 * FACE) && kept.size() == 1 && kept.cellId(0) == FACE
        && kept.leafCellsCovered() == 1L << 60 && kept.toUnion().equals(CellUnion.of(FACE)), "a file's own bytes");
    outOfRange(0, () -> new UnionFile(good).cellId(1));
    outOfRange(0, () -> new UnionFile(good).cellId(-1));
    check(new UnionFile(good).toUnion().equals(CellUnion.of(FACE)), "a file's union");
  }

  private static void values() {
    long[] given = {FACE};
    CellUnion union = CellUnion.fromNormalized(given);
    given[0] = 3;
    union.cellIds()[0] = 3;
    check(union.cellId(0) == FACE && union.size() == 1, "a union never changes");
    check(union.hashCode() == CellUnion.of(FACE).hashCode() && !union.equals(null), "equal unions");
    CellUnion other = CellUnion.of(3 * FACE);
    check(!union.equals(other) && !other.equals(union) && union.hashCode() != other.hashCode(), "unions of one length");
    check(CellUnion.unionOf(List.of()).isEmpty(), "the union of none");
    check(CellUnion.of().isEmpty() && CellUnion.of().toString().isEmpty(), "the empty union");
    check(CellUnion.fromTokens("04, 0c 14\n1c").toString().equals("1"), "texts");
  }

  /** Lists that are copied, and lists that are not, answer alike. */
  private static void longLists() {
    long[] cells = IntStream.range(0, 1_200_000).mapToLong(k -> CellId.fromFaceIJ(k % 6, 17 * k, 31 * k)).toArray();
    CellUnion whole = CellUnion.of(cells);
    CellUnion half = CellUnion.of(Arrays.copyOf(cells, cells.length / 2));
    CellUnion rest = whole.difference(half);
    check(whole.size() > 1_000_000 && half.size() < 1_000_000, "sizes");
    check(rest.union(half).equals(whole) && !rest.intersects(half), "a union in two parts");
    check(CellUnion.unionOf(List.of(rest, half, rest)).equals(whole), "a union in three parts");
    check(CellUnion.decode(whole.encode()).equals(whole), "a long file");
    check(CellUnion.fromTokens(whole.toString()).equals(whole), "a long text");
    UnionFile file = new UnionFile(whole.encode());
    long[] few = Arrays.copyOf(cells, 9);
    for (boolean[] found : List.of(whole.containsEach(cells), file.containsEach(cells), whole.containsEach(few),
        file.containsEach(few))) {
      check(IntStream.range(0, found.length).allMatch(k -> found[k]), "many questions");
    }
    check(IntStream.range(0, 1000).mapToLong(k -> cells[1200 * k]).allMatch(cell -> whole.contains(cell)
        && file.contains(cell) && !rest.intersects(cell) == half.contains(cell)), "single questions");
    check(whole.contains(half) && !half.contains(whole) && file.contains(file) && whole.compareTo(whole) == 0
        && file.size() == whole.size() && file.cellId(1_000_000) == whole.cellId(1_000_000), "questions of two");
    check(whole.leafCellsCovered() == LongStream.of(whole.cellIds()).map(CellId::leafCellsCovered).sum(), "leaves");
    List<Thread> threads = IntStream.range(0, 4)
        .mapToObj(k -> new Thread(() -> check(whole.intersection(half).equals(half), "threads"))).toList();
    threads.forEach(Thread::start);
    for (Thread thread : threads) {
      try {
        thread.join();
      } catch (InterruptedException error) {
        throw new AssertionError(error);
      }
    }
  }

  /** The class of bindings/java/README.md answers after Java's own serialization, as it did before. */
  private static void regions(CellUnion union) throws IOException, ClassNotFoundException {
    Region before = new Region(union);
    before.contains(FACE);
    ByteArrayOutputStream bytes = new ByteArrayOutputStream();
    new ObjectOutputStream(bytes).writeObject(before);
    Region after = (Region) new ObjectInputStream(new ByteArrayInputStream(bytes.toByteArray())).readObject();
    for (long cell : new long[] {FACE, CellId.child(FACE, 2), CellId.child(FACE, 3), 5 * FACE, 1}) {
      boolean wanted = union.contains(cell);
      check(before.contains(cell) == wanted && after.contains(cell) == wanted, "a region of " + union + " at " + cell);
    }
  }

  public static void main(String[] words) throws Exception {
    check(CellId.version().equals(words[0]), "the version");
    check(Arrays.equals(CellId.toTokens(FACE, 1), new String[] {"1", "0000000000000001"}), "tokens of many");
    numbersThatAreNoCells();
    whatIsUnknown();
    numbersOutOfRange();
    files();
    values();
    for (CellUnion union : List.of(CellUnion.of(), CellUnion.of(CellId.child(FACE, 2)), CellUnion.of(FACE, 5 * FACE))) {
      regions(union);
    }
    longLists();
    end();
  }
}
