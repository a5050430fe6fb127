package s2union;

import java.io.File;
import java.io.IOException;
import java.io.InputStream;
import java.io.OutputStream;
import java.lang.reflect.Array;
import java.nio.file.DirectoryStream;
import java.nio.file.Files;
import java.nio.file.Path;
import java.nio.file.StandardOpenOption;
import java.util.Arrays;
import java.util.function.IntFunction;

/** The calls of s2union.h, by their numbers in s2union.c, and what their statuses mean. */
final class Calls {
  static final int LAST_LEVEL = 30;
  static final long[] NONE = {};

  // numbers: of the calls

  private Calls() {}

  static {
    load();
  }

  private static final String LIBRARY = "libs2union_java";
  private static final long UNUSED_FOR = 60_000; // milliseconds

  /** The library in the jar for a system and a processor, by the names that Java has for them. */
  static String placeOf(String system, String processor) {
    if (system.startsWith("Windows")) return "windows-" + processor + "/" + LIBRARY + ".dll";
    if (system.startsWith("Mac")) return "macos-" + processor + "/" + LIBRARY + ".dylib";
    return (system.equals("Linux") ? "" : system + "-") + processor + "/" + LIBRARY + ".so";
  }

  /** Deletes a copy of the library; those that are in use stay on Windows, so the next program deletes them. */
  private static void delete(Path copy) throws IOException {
    if (!copy.toString().endsWith(".dll")) {
      Files.delete(copy);
      return;
    }
    long before = System.currentTimeMillis() - UNUSED_FOR; // a younger one may be about to be loaded
    try (DirectoryStream<Path> copies = Files.newDirectoryStream(copy.getParent(), LIBRARY + "*.dll")) {
      for (Path other : copies) {
        File file = other.toFile();
        if (file.lastModified() < before || other.equals(copy)) file.delete();
      }
    }
  }

  /** Loads the library that the property s2union.library names, or the one in the jar for this system. */
  private static void load() {
    String named = System.getProperty("s2union.library");
    if (named != null) {
      System.load(Path.of(named).toAbsolutePath().toString());
      return;
    }
    String system = System.getProperty("os.name"), processor = System.getProperty("os.arch");
    String place = placeOf(system, processor);
    try (InputStream library = Calls.class.getResourceAsStream("/s2union/" + place)) {
      if (library == null) {
        throw new UnsatisfiedLinkError("s2union has no library for " + system + " on " + processor);
      }
      Path copy = Files.createTempFile(LIBRARY, place.substring(place.lastIndexOf('.')));
      try {
        // Into the file that was made, which nobody else may write: to replace it would make one by the umask.
        try (OutputStream to = Files.newOutputStream(copy, StandardOpenOption.WRITE)) {
          library.transferTo(to);
        }
        System.load(copy.toString());
      } finally {
        delete(copy);
      }
    } catch (IOException error) {
      throw new UnsatisfiedLinkError("s2union can't unpack its library: " + error);
    }
  }

  /**
   * The answer of a call about two lists, each a long[] or a byte[], numbers and a rectangle. The list that it makes is
   * put to `out`, and the number that it writes to `found`. Each may be null.
   */
  private static native long call(int call, Object xs, Object ys, Object out, long a, long b, int[] rect, long[] found);

  static native long leafAt(int face, int i, int j);

  static native int square(long id, long[] out);

  static native int cellsAt(long[] xs, long cell, long[] out);

  static native int fromPoints(int[] points, long[] out, long[] bad);

  static native long leafAtPosition(double longitude, double latitude);

  static native int leavesAt(double[] positions, long[] out, long[] bad);

  static native int middle(long cell, double[] out);

  static native String shapeText(int status);

  static native int cover(int call, int wanted, Object given, long[] rings, long[] options, double[] meters,
      long[][] made, long[] at);

  /**
   * Makes both coverings of a text or of bytes on the map, in some room at first. Of a fault of the shape its numbers
   * are put to {@code fault}.
   */
  private static native int map(int call, long room, byte[] given, int level, long most, long[][] made, long[] fault);

  static native long zones();

  static native void freeZones(long zones);

  static native int addZone(long zones, int call, Object given, long[] rings, long[] at);

  static native int pairs(
      long zones, double[] longitudes, double[] latitudes, boolean borders, int[][] made, long[] bad);

  static native int draw(int call, long[] cells, Object[] made);

  static native int around(int call, long[] cells, int level, long[][] made);

  static native int bounds(long[] cells, double[] sides);

  static native int area(long[] cells, double[] one);

  /** The status of a call, which is refused if it is negative. */
  static int checked(int status, long place) {
    if (status == MEMORY) throw new OutOfMemoryError("s2union: out of memory");
    if (status < 0) throw new Refusal(status, place);
    return status;
  }

  /** The number that a call answers of numbers. */
  static long number(int call, long a, long b) {
    return call(call, null, null, null, a, b, null, null);
  }

  /** The answer of a question of lists, yes or no. */
  static boolean asks(int call, Object xs, Object ys, long cell) {
    return checked((int) call(call, xs, ys, null, cell, 0, null, null), 0) == 1;
  }

  /** The number that a question of lists answers, which is above MEMORY. */
  static long numberOf(int call, Object xs, Object ys) {
    long answer = call(call, xs, ys, null, 0, 0, null, null);
    if (answer == MEMORY) checked(MEMORY, 0);
    return answer;
  }

  /** The number that a call of a list and numbers writes. */
  static long found(int call, Object xs, long a, long b) {
    long[] found = new long[1];
    checked((int) call(call, xs, null, null, a, b, null, found), 0);
    return found[0];
  }

  private static int lengthOf(Object list) {
    return list == null ? 0 : Array.getLength(list);
  }

  /** The list that a call makes of lists, numbers and a rectangle. */
  static long[] made(int call, Object xs, Object ys, long a, long b, int[] rect) {
    return madeIn(roomOf(call, lengthOf(xs), lengthOf(ys)), call, xs, ys, a, b, rect);
  }

  static long[] made(int call, Object xs, Object ys) {
    return made(call, xs, ys, 0, 0, null);
  }

  /** The same in some room. */
  static long[] madeIn(long room, int call, Object xs, Object ys, long a, long b, int[] rect) {
    return (long[]) put(room, long[]::new, call, xs, ys, a, b, rect);
  }

  /** The bytes that a call writes of a list or a cell, in some room. */
  static byte[] written(long room, int call, Object xs, long cell) {
    return (byte[]) put(room, byte[]::new, call, xs, null, cell, 0, null);
  }

  static byte[] written(int call, long[] xs) {
    return written(roomOf(call, xs.length, 0), call, xs, 0);
  }

  /** What a call makes, in an array with some room; it is called once more if that was too little. */
  private static Object put(
      long room, IntFunction<Object> array, int call, Object xs, Object ys, long a, long b, int[] rect) {
    long[] length = new long[1];
    for (long next = room; ; next = length[0]) {
      Object out = array.apply(lengthOf(next));
      int status = (int) call(call, xs, ys, out, a, b, rect, length);
      if (status == ROOM) continue;
      checked(status, length[0]);
      if (length[0] == lengthOf(out)) return out;
      Object copy = array.apply((int) length[0]);
      System.arraycopy(out, 0, copy, 0, (int) length[0]);
      return copy;
    }
  }

  /** The entries that a call makes, one for each number; the first that has none is refused at its place. */
  static long[] entries(int call, long[] cells, long number) {
    long[] out = new long[cells.length];
    putEach(call, cells, number, out);
    return out;
  }

  static byte[] bytesOfEach(int call, long[] cells, int each) {
    byte[] out = new byte[lengthOf((long) each * cells.length)];
    putEach(call, cells, 0, out);
    return out;
  }

  private static void putEach(int call, long[] cells, long number, Object out) {
    long[] bad = new long[1];
    int status = (int) call(call, cells, null, out, number, 0, null, bad);
    if (status == MEMORY) checked(status, bad[0]);
    if (bad[0] >= cells.length) return;
    throw new Refusal(CellId.isCell(cells[(int) bad[0]]) ? Refusal.ARGUMENT : Refusal.NO_CELL, bad[0]);
  }

  /** The answers about many cells of a list, or of the bytes of a file. */
  static boolean[] asksEach(int call, Object of, long[] cells) {
    byte[] marks = new byte[cells.length];
    long[] bad = new long[1];
    checked((int) call(call, of, cells, marks, 0, 0, null, bad), bad[0]);
    boolean[] answers = new boolean[cells.length];
    for (int k = 0; k < answers.length; k++) answers[k] = marks[k] == 1;
    return answers;
  }

  /** The rings that a call draws of cells, those of each polygon in turn. */
  static double[][][] drawn(int call, long[] cells) {
    Object[] made = new Object[3];
    checked(draw(call, cells, made), 0);
    double[] positions = (double[]) made[0];
    long[] ringEnds = (long[]) made[1];
    long[] ends = call == BOUNDARY ? new long[] {ringEnds.length} : (long[]) made[2];
    double[][][] polygons = new double[ends.length][][];
    int ring = 0;
    for (int k = 0; k < ends.length; k++) {
      polygons[k] = new double[(int) ends[k] - ring][];
      for (int first = ring; ring < ends[k]; ring++) {
        int begin = ring == 0 ? 0 : (int) ringEnds[ring - 1];
        polygons[k][ring - first] = Arrays.copyOfRange(positions, 2 * begin, 2 * (int) ringEnds[ring]);
      }
    }
    return polygons;
  }

  /** Both coverings that a call makes of a text or of bytes. */
  static RegionCoverer.Coverings mapped(int call, byte[] given, int level, long most) {
    long[][] made = new long[2][];
    long[] fault = new long[5];
    int status = map(call, roomOf(call, 0, 0), given, level, most, made, fault);
    if (status == Refusal.SHAPE) throw new Refusal(fault);
    checked(status, 0);
    return new RegionCoverer.Coverings(CellUnion.holding(made[0]), CellUnion.holding(made[1]));
  }

  /** The cells of a level that a call finds around others. */
  static long[] around(int call, int level, long... cells) {
    long[][] made = new long[1][];
    checked(around(call, cells, level, made), 0);
    return made[0];
  }

  /** The length of an array, if Java has arrays of that length. */
  static int lengthOf(long room) {
    if (room < 0 || room > Integer.MAX_VALUE - 8) throw new Refusal(Refusal.MANY, 0);
    return (int) room;
  }

  /** A number from 0 to this; any other is refused. */
  static int within(int number, int most) {
    if (number < 0 || number > most) throw new Refusal(Refusal.ARGUMENT, 0);
    return number;
  }
}
