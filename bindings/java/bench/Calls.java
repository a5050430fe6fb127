import java.util.Arrays;
import java.util.SplittableRandom;
import java.util.function.BooleanSupplier;
import java.util.function.LongPredicate;
import java.util.function.Supplier;
import java.util.stream.IntStream;
import java.util.stream.LongStream;
import s2union.CellId;
import s2union.CellUnion;
import s2union.UnionFile;

/**
 * The time of calls of the package for Java, beside what a user would write: java Calls [WORD [ROUNDS]]. The plain
 * sides share nothing with the package: a binary search over the first and last leaves of a union's cells in long[]. A
 * row has the nanoseconds of a question, the least of the rounds, the sides in turn; each round repeats until it takes
 * 20 ms. A row counts only if all answers are the same.
 */
final class Calls {
  private static final int QUESTIONS = 1 << 14;
  private static final long LEAST = 20_000_000;
  private static String word = "";
  private static int rounds = 5;
  private static int wrong;

  private Calls() {}

  /** This many cells of levels from one to another, anywhere. */
  private static long[] cells(int count, long seed, int least, int most) {
    SplittableRandom random = new SplittableRandom(seed);
    return IntStream.range(0, count).mapToLong(k -> {
      long leaf = CellId.fromFaceIJ(random.nextInt(6), random.nextInt(1 << 30), random.nextInt(1 << 30));
      return CellId.parent(leaf, least + random.nextInt(most - least + 1));
    }).toArray();
  }

  /** A union as a user would hold it: the ends of its cells, in the order of unsigned numbers. */
  private record Plain(long[] firsts, long[] lasts) {
    static Plain of(CellUnion union) {
      return new Plain(union.stream().map(id -> id - (id & -id) + 1 + Long.MIN_VALUE).toArray(),
          union.stream().map(id -> id + (id & -id) - 1 + Long.MIN_VALUE).toArray());
    }

    boolean contains(long id) {
      long size = id & -id;
      return holds(id - size + 1 + Long.MIN_VALUE, id + size - 1 + Long.MIN_VALUE);
    }

    private boolean holds(long first, long last) {
      int place = Arrays.binarySearch(firsts, first);
      int before = place < 0 ? -place - 2 : place;
      return before >= 0 && last <= lasts[before];
    }

    /** Whether all cells of another are in it: each is looked for. */
    boolean contains(Plain other) {
      return IntStream.range(0, other.firsts.length).allMatch(k -> holds(other.firsts[k], other.lasts[k]));
    }

    /** Whether they share a leaf: a walk over both. */
    boolean intersects(Plain other) {
      int i = 0;
      int j = 0;
      while (i < firsts.length && j < other.firsts.length) {
        if (lasts[i] < other.firsts[j]) i++;
        else if (other.lasts[j] < firsts[i]) j++;
        else return true;
      }
      return false;
    }
  }

  private interface Question {
    boolean of(long cell);
  }

  private interface Questions {
    boolean[] of(long[] cells);
  }

  private static Questions each(Question question) {
    return cells -> {
      boolean[] answers = new boolean[cells.length];
      for (int k = 0; k < cells.length; k++) answers[k] = question.of(cells[k]);
      return answers;
    };
  }

  /** The nanoseconds of one run of each side, in turn, the least of the rounds. */
  private static double[] times(Runnable... sides) {
    double[] least = new double[sides.length];
    long[] repeats = new long[sides.length];
    Arrays.fill(least, Double.POSITIVE_INFINITY);
    Arrays.fill(repeats, 1);
    for (int round = 0; round < rounds; round++) {
      for (int k = 0; k < sides.length; k++) {
        for (; ; repeats[k] *= 2) {
          long begun = System.nanoTime();
          for (long turn = 0; turn < repeats[k]; turn++) sides[k].run();
          least[k] = Math.min(least[k], (double) (System.nanoTime() - begun) / repeats[k]);
          if (least[k] * repeats[k] >= LEAST) break;
        }
      }
    }
    return least;
  }

  private static void line(String name, int units, boolean isSame, Runnable ours, Runnable plain) {
    double[] taken = times(ours, plain);
    if (!isSame) wrong++;
    System.out.printf("%-32s ours %11.1f  plain %11.1f ns  ours/plain %5.2f%s%n", name, taken[0] / units,
        taken[1] / units, taken[0] / taken[1], isSame ? "" : "  THE ANSWERS DIFFER");
  }

  private static void row(String name, long[] asked, Questions ours, Questions plain) {
    if (!name.contains(word)) return;
    boolean isSame = Arrays.equals(ours.of(asked), plain.of(asked));
    line(name, asked.length, isSame, () -> ours.of(asked), () -> plain.of(asked));
  }

  private static boolean answer;

  private static void row(String name, BooleanSupplier ours, BooleanSupplier plain) {
    if (!name.contains(word)) return;
    boolean isSame = ours.getAsBoolean() == plain.getAsBoolean();
    line(name, 1, isSame, () -> answer ^= ours.getAsBoolean(), () -> answer ^= plain.getAsBoolean());
  }

  /** The cells of one without a part of it: three beside each cell from the part up. */
  private static long[] without(long id, long part) {
    LongStream.Builder beside = LongStream.builder();
    for (long size = part & -part, inside = part; inside != id; size <<= 2) {
      long above = (inside & -(size << 2)) | size << 2;
      for (long child = above - 3 * size; child != above + 5 * size; child += 2 * size) {
        if (child != inside) beside.add(child);
      }
      inside = above;
    }
    return ordered(beside.build());
  }

  private static long[] ordered(LongStream ids) {
    return ids.map(id -> id ^ Long.MIN_VALUE).sorted().map(id -> id ^ Long.MIN_VALUE).toArray();
  }

  /** A list with others in place of one of its elements, or before it. */
  private static long[] spliced(long[] ids, int place, int removed, long... others) {
    long[] made = new long[ids.length - removed + others.length];
    System.arraycopy(ids, 0, made, 0, place);
    System.arraycopy(others, 0, made, place, others.length);
    System.arraycopy(ids, place + removed, made, place + others.length, ids.length - removed - place);
    return made;
  }

  private static int placeOf(long[] ids, long id) {
    int from = 0;
    for (int to = ids.length; from < to; ) {
      int middle = (from + to) >>> 1;
      if (Long.compareUnsigned(ids[middle], id) < 0) from = middle + 1;
      else to = middle;
    }
    return from;
  }

  private static long[] made;

  private static void row(String name, Supplier<CellUnion> ours, Supplier<long[]> plain) {
    if (!name.contains(word)) return;
    boolean isSame = Arrays.equals(ours.get().cellIds(), plain.get());
    line(name, 1, isSame, () -> answer ^= ours.get().isEmpty(), () -> made = plain.get());
  }

  /** A union of two cells, one inside a cell of a large one and one apart from it, with the large one. */
  private static void smallWithLarge(int count) {
    CellUnion large = CellUnion.of(cells(count, 4, 14, 20));
    long[] ids = large.cellIds();
    int holder = ids.length / 2;
    long inside = CellId.rangeMin(ids[holder]);
    long apart = Arrays.stream(cells(100, 6, 24, 24)).filter(id -> !large.intersects(id)).findFirst().getAsLong();
    CellUnion small = CellUnion.of(inside, apart);
    long[] two = ordered(LongStream.of(inside, apart));
    Plain plain = Plain.of(large);
    LongPredicate isIn = plain::contains;
    Supplier<long[]> without = () -> spliced(ids, holder, 1, without(ids[holder], inside));
    Supplier<long[]> shared = () -> Arrays.stream(two).filter(isIn).toArray();
    row("small_intersection_" + count, () -> small.intersection(large), shared);
    row("large_intersection_" + count, () -> large.intersection(small), shared);
    row("small_difference_" + count, () -> small.difference(large),
        () -> Arrays.stream(two).filter(isIn.negate()).toArray());
    row("large_difference_" + count, () -> large.difference(small), without);
    row("small_union_" + count, () -> small.union(large), () -> spliced(ids, placeOf(ids, apart), 0, apart));
    row("small_symmetricDifference_" + count, () -> small.symmetricDifference(large), () -> {
      long[] rest = without.get();
      return spliced(rest, placeOf(rest, apart), 0, apart);
    });
  }

  public static void main(String[] words) {
    if (words.length > 0) word = words[0];
    if (words.length > 1) rounds = Integer.parseInt(words[1]);
    for (int count : new int[] {1_000, 100_000, 1_000_000, 1_100_000}) smallWithLarge(count);
    for (int count : new int[] {100, 10_000, 100_000, 1_000_000, 3_000_000}) {
      CellUnion union = CellUnion.of(cells(count, 4, 14, 20));
      CellUnion larger = union.union(CellUnion.of(cells(count, 5, 14, 20)));
      CellUnion apart = CellUnion.of(cells(count, 6, 21, 24)).difference(union);
      UnionFile file = new UnionFile(union.encode());
      Plain plain = Plain.of(union);
      Plain plainLarger = Plain.of(larger);
      Plain plainApart = Plain.of(apart);
      SplittableRandom random = new SplittableRandom(9);
      long[] anywhere = cells(QUESTIONS, 9, 20, 30);
      long[] asked = IntStream.range(0, QUESTIONS) // every second one is about a leaf of one of its cells
          .mapToLong(k -> k % 2 == 0 ? anywhere[k] : CellId.rangeMin(union.cellId(random.nextInt(union.size()))))
          .toArray();
      long[] ascending = Arrays.stream(asked).map(id -> id ^ Long.MIN_VALUE).sorted()
          .map(id -> id ^ Long.MIN_VALUE).toArray();
      row("contains_" + count, asked, each(union::contains), each(plain::contains));
      row("file_contains_" + count, asked, each(file::contains), each(plain::contains));
      row("containsEach_" + count, asked, union::containsEach, each(plain::contains));
      row("file_containsEach_" + count, asked, file::containsEach, each(plain::contains));
      row("containsEach_ascending_" + count, ascending, union::containsEach, each(plain::contains));
      row("contains_union_" + count, () -> larger.contains(union), () -> plainLarger.contains(plain));
      row("not_contains_union_" + count, () -> union.contains(larger), () -> plain.contains(plainLarger));
      row("intersects_" + count, () -> union.intersects(larger), () -> plain.intersects(plainLarger));
      row("intersects_apart_" + count, () -> union.intersects(apart), () -> plain.intersects(plainApart));
    }
    System.out.println(wrong > 0 ? wrong + " rows differ" : "all answers are the same");
    System.exit(wrong > 0 ? 1 : 0);
  }
}
