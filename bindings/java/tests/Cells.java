import java.util.ArrayList;
import java.util.List;
import java.util.Random;
import s2union.CellId;
import s2union.CellUnion;
import s2union.Refusal;

/**
 * What Java answers about one cell or two by itself, beside the calls of the library for lists and unions of them: java
 * Cells. The last line is 'N passed, M failed'.
 */
final class Cells extends Checks {
  private Cells() {}

  private static void same(Object found, Object wanted, String what) {
    check(found.equals(wanted), what + ": " + found + ", not " + wanted);
  }

  /** An answer, or the kind of the refusal. */
  private interface Ask {
    Object of();
  }

  private static Object answer(Ask ask) {
    try {
      return ask.of();
    } catch (Refusal refusal) {
      return refusal.kind();
    }
  }

  private static void one(long id) {
    long[] list = {id};
    String name = Long.toHexString(id);
    Object level = answer(() -> (int) CellId.levels(list)[0]);
    same(CellId.isCell(id), level instanceof Integer, "isCell " + name);
    same(answer(() -> CellId.level(id)), level, "level " + name);
    same(answer(() -> CellId.face(id)), answer(() -> CellId.square(id)[0]), "face " + name);
    same(answer(() -> CellId.rangeMin(id)), answer(() -> CellId.rangeMins(list)[0]), "rangeMin " + name);
    same(answer(() -> CellId.rangeMax(id)), answer(() -> CellId.rangeMaxes(list)[0]), "rangeMax " + name);
    same(answer(() -> CellId.leafCellsCovered(id)), answer(() -> CellUnion.of(id).leafCellsCovered()), "size " + name);
    for (int above = -1; above <= 31; above++) {
      int to = above;
      boolean isDeeper = above <= 30 && level instanceof Integer own && own < above;
      Object wanted = !(level instanceof Integer) ? level : isDeeper ? 0L : answer(() -> CellId.parents(list, to)[0]);
      same(answer(() -> CellId.parent(id, to)), wanted, "parent " + name + " at " + above);
    }
  }

  private static void two(long a, long b) {
    String name = Long.toHexString(a) + " " + Long.toHexString(b);
    same(answer(() -> CellId.contains(a, b)), answer(() -> CellUnion.of(a).contains(CellUnion.of(b))),
        "contains " + name);
    same(answer(() -> CellId.intersects(a, b)), answer(() -> CellUnion.of(a).intersects(CellUnion.of(b))),
        "intersects " + name);
  }

  /** The first and the last cell of each level on each face, one between, and numbers that are no cells. */
  private static List<Long> numbers(Random random) {
    List<Long> ids = new ArrayList<>(List.of(0L, 1L, 2L, 3L, -1L, -2L, 6L << 61, 6L << 61 | 1, 1L << 63, 15L << 60));
    for (long face = 0; face < 6; face++) {
      for (int level = 0; level <= 30; level++) {
        long lowest = 1L << 60 - 2 * level;
        long leaf = face << 61 | random.nextLong() >>> 4 << 1 | 1;
        ids.addAll(List.of(face << 61 | lowest, (face + 1 << 61) - lowest, leaf & -lowest | lowest));
        ids.addAll(List.of(lowest << 1, leaf << 1));
      }
    }
    for (int k = 0; k < 1000; k++) ids.addAll(List.of(random.nextLong(), random.nextLong() << random.nextInt(64)));
    return ids;
  }

  public static void main(String[] words) {
    Random random = new Random(30);
    List<Long> ids = numbers(random);
    for (int k = 0; k < ids.size(); k++) {
      long id = ids.get(k);
      one(id);
      two(id, id);
      two(id, ids.get(random.nextInt(ids.size())));
      two(id, ids.get((k + 1) % ids.size()));
      if (!CellId.isCell(id)) continue;
      long above = CellId.parent(id, random.nextInt(CellId.level(id) + 1));
      for (long near : new long[] {above, CellId.rangeMin(above), CellId.rangeMax(above), CellId.next(above)}) {
        two(id, near);
        two(near, id);
      }
    }
    end();
  }
}
