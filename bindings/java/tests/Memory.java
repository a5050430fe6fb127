import java.util.Arrays;
import java.util.List;
import java.util.Set;
import java.util.stream.IntStream;
import s2union.CellId;
import s2union.CellUnion;
import s2union.Shape;
import s2union.Zones;

/**
 * Each call without memory, and what each keeps: java Memory REFUSE, with tests/refuse.c built as the library REFUSE
 * and loaded before the C library, and with a library of the package that copies lists of more than SHORT elements. The
 * last line is 'N passed, M failed'.
 */
final class Memory extends Checks {
  private static final int SHORT = 3;
  /** The questions that end soon, to which an array of any length is passed where it lies. */
  private static final Set<String> END_SOON = Set.of("CellUnion.contains", "CellUnion.intersects",
      "CellUnion.cellIdsAt", "CellUnion.compareTo", "UnionFile.contains", "UnionFile.intersects", "UnionFile.size",
      "UnionFile.cellId");

  private Memory() {}

  /** From now on the n-th call for memory of this thread is refused, or none if n is 0; how many there were. */
  private static native long refuse(long n);

  /** How many blocks of memory this thread has. */
  private static native long taken();

  /** Asks once more, with one call for memory refused: the answer is the same, or there is no memory. */
  private static boolean isRefused(EachCall call, long turn, Object wanted) {
    try {
      refuse(turn);
      Object answer = call.answer();
      refuse(0);
      check(EachCall.isSame(answer, wanted), call + " answers otherwise without memory");
      return false;
    } catch (OutOfMemoryError | RuntimeException error) {
      refuse(0);
      boolean isRight = error.toString().equals("java.lang.OutOfMemoryError: s2union: out of memory");
      check(isRight, call + " without memory: " + error);
      return true;
    }
  }

  private static void askedInTurn(EachCall call, boolean isLong) {
    Object wanted = call.answer();
    call.answer();
    refuse(0);
    call.answer();
    long allocations = refuse(0);
    check(allocations == 0 || !END_SOON.contains(call.toString()), call + " copies nothing");
    int refusals = 0;
    for (long turn = 1; turn <= allocations; turn++) refusals += isRefused(call, turn, wanted) ? 1 : 0;
    boolean isCopied = isLong && Arrays.stream(call.given()).anyMatch(word -> word.getClass().isArray());
    check(refusals > 0 || !isCopied, call + " of a long list, which is copied, is refused without memory");
    long before = taken();
    for (int k = 0; k < 10; k++) call.answer();
    check(taken() - before < 10, call + " keeps memory: " + (taken() - before) + " blocks in 10 calls");
  }

  /** Adds a zone and asks for its places, with one call for memory refused: then the zones are as they were. */
  private static boolean isZoneRefused(long turn) {
    Zones zones = new Zones();
    Shape shape = Shape.box(2, 48, 3, 49);
    int count = zones.add(shape) + 1;
    double[] x = {2.5, 9};
    double[] y = {48.5, 9};
    boolean isRefused = false;
    try {
      refuse(turn);
      count = zones.add(shape) + 1;
      int found = zones.pairs(x, y, true).zones().length;
      refuse(0);
      check(found == 2, "both zones");
    } catch (OutOfMemoryError error) {
      refuse(0);
      isRefused = true;
      check(error.getMessage().equals("s2union: out of memory"), "zones without memory: " + error);
    }
    check(zones.pairs(x, y, true).zones().length == count, "the zones are as they were");
    return isRefused;
  }

  public static void main(String[] words) {
    System.load(words[0]);
    long turn = 1;
    while (isZoneRefused(turn)) turn++;
    check(turn > 10, "a zone takes memory: " + turn);
    for (int count : new int[] {SHORT, 100}) {
      long[] cells = IntStream.range(0, count).mapToLong(k -> CellId.fromFaceIJ(k % 6, 17 * k, 31 * k)).toArray();
      List<EachCall> calls = EachCall.about(CellUnion.of(cells));
      for (EachCall call : calls) askedInTurn(call, count > SHORT);
      check(calls.size() > 60, "the calls are found");
    }
    end();
  }
}
