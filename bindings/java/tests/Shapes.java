import java.io.IOException;
import java.nio.ByteBuffer;
import java.nio.file.Files;
import java.nio.file.Path;
import java.util.ArrayList;
import java.util.Arrays;
import java.util.HashSet;
import java.util.List;
import java.util.Locale;
import java.util.Set;
import java.util.function.Supplier;
import java.util.stream.Collectors;
import java.util.stream.DoubleStream;
import java.util.stream.IntStream;
import java.util.stream.LongStream;
import s2union.CellId;
import s2union.CellUnion;
import s2union.Refusal;
import s2union.RegionCoverer;
import s2union.Shape;
import s2union.Zones;

/**
 * Asks the package for Java the questions of tests/model/shapes.py about shapes in degrees, and what these don't ask:
 * java Shapes FILE. The last line is 'N passed, M failed'.
 */
final class Shapes extends Checks {
  private static final double[] SQUARE = {2, 48, 3, 48, 3, 49, 2, 49, 2, 48};

  private Shapes() {}

  /** An answer, or the name of what is refused, with its place if it has one. */
  private static String answered(Supplier<String> question) {
    try {
      return question.get();
    } catch (Refusal refusal) {
      String name = refusal.kind().name().toLowerCase(Locale.ROOT).replace("shape_", "");
      boolean isOfBytes = refusal.status() <= Refusal.SHAPE_WKB;
      boolean hasPlace = refusal.getMessage().contains(", position ");
      return "!" + name + (isOfBytes ? " " + refusal.place() : "")
          + (hasPlace ? " " + refusal.ring() + " " + refusal.place() : "");
    }
  }

  private static String shown(CellUnion union) {
    return shown(union.cellIds());
  }

  private static String shown(long... cells) {
    return LongStream.of(cells).mapToObj(Long::toHexString).collect(Collectors.joining(" "));
  }

  private static byte[] bytes(String text) {
    byte[] bytes = new byte[text.length() / 2];
    for (int k = 0; k < bytes.length; k++) bytes[k] = (byte) Integer.parseInt(text.substring(2 * k, 2 * k + 2), 16);
    return bytes;
  }

  private static double[] numbers(String text) {
    ByteBuffer data = ByteBuffer.wrap(bytes(text));
    return IntStream.range(0, text.length() / 16).mapToDouble(k -> data.getDouble(8 * k)).toArray();
  }

  private static String shown(double... numbers) {
    return DoubleStream.of(numbers).mapToObj(number -> String.format("%016x", Double.doubleToRawLongBits(number)))
        .collect(Collectors.joining());
  }

  /** A shape of rings and lines. */
  private static Shape shape(String text) {
    List<List<double[]>> polygons = new ArrayList<>();
    List<double[]> lines = new ArrayList<>();
    for (String word : text.isEmpty() ? new String[0] : text.split(" ")) {
      String[] parts = word.split(":", 2);
      if (parts[0].equals("-")) {
        lines.add(numbers(parts[1]));
      } else {
        int polygon = Integer.parseInt(parts[0]);
        if (polygon == polygons.size()) polygons.add(new ArrayList<>());
        polygons.get(polygon).add(numbers(parts[1]));
      }
    }
    if (polygons.isEmpty()) return lines(lines);
    double[][][] rings = polygons.stream().map(rows -> rows.toArray(double[][]::new)).toArray(double[][][]::new);
    if (!lines.isEmpty()) return Shape.collection(rings, lines.toArray(double[][]::new));
    return rings.length == 1 ? Shape.polygon(rings[0]) : Shape.polygons(rings);
  }

  private static Shape lines(List<double[]> lines) {
    boolean arePoints = lines.stream().allMatch(line -> line.length == 2);
    return arePoints ? Shape.points(lines.stream().flatMapToDouble(Arrays::stream).toArray())
        : Shape.lines(lines.toArray(double[][]::new));
  }

  private static Shape shape(String call, String text) {
    double[] n = call.equals("circle") || call.equals("box") ? numbers(text) : null;
    switch (call) {
      case "wkb": return Shape.wkb(bytes(text));
      case "circle": return Shape.circle(n[0], n[1], n[2]);
      case "box": return Shape.box(n[0], n[1], n[2], n[3]);
      default: return shape(text);
    }
  }

  /** The coverer of some options; null of edges that Java has not. */
  private static RegionCoverer coverer(String text) {
    String[] words = text.split(" ");
    int edges = Integer.parseInt(words[3]);
    if (edges >= RegionCoverer.Edges.values().length) return null;
    RegionCoverer made = new RegionCoverer().maxCells(Integer.parseInt(words[0]))
        .minLevel(Integer.parseInt(words[1])).maxLevel(Integer.parseInt(words[2]))
        .edges(RegionCoverer.Edges.values()[edges]).margin(numbers(words[4])[0]);
    double within = numbers(words[5])[0];
    return within == 0 ? made : made.within(within);
  }

  /** Both coverings, if each alone is the same. */
  private static String covered(RegionCoverer coverer, Shape shape) {
    String both = answered(() -> {
      RegionCoverer.Coverings made = coverer.coverings(shape);
      return shown(made.outer()) + "\t" + shown(made.inner());
    });
    String outer = answered(() -> shown(coverer.covering(shape)));
    String inner = answered(() -> shown(coverer.interiorCovering(shape)));
    boolean isError = both.startsWith("!");
    boolean isSame = isError ? both.equals(outer) && both.equals(inner) : both.equals(outer + "\t" + inner);
    return isSame ? both : "they differ: " + both + ", " + outer + ", " + inner;
  }

  private static boolean hasEach(CellUnion union, String places, boolean wanted) {
    long[] leaves = CellId.fromPositions(numbers(places));
    boolean holds = leaves.length > 0;
    for (boolean has : union.containsEach(leaves)) holds &= has == wanted;
    return holds;
  }

  private static CellUnion union(String text) {
    return text.isEmpty() ? CellUnion.of() : CellUnion.fromNormalized(
        Arrays.stream(text.split(" ")).mapToLong(word -> Long.parseUnsignedLong(word, 16)).toArray());
  }

  private static String shown(double[][][] polygons) {
    return IntStream.range(0, polygons.length).boxed()
        .flatMap(k -> Arrays.stream(polygons[k]).map(ring -> k + ":" + shown(ring))).collect(Collectors.joining(" "));
  }

  /** The pairs of zones and places, twice the same. */
  private static String joined(String[] fields) {
    Zones zones = new Zones();
    String[] each = fields[1].split("\\|", -1);
    for (int k = 0; k < each.length; k++) {
      String kind = each[k].matches("(wkb|box):.*") ? each[k].substring(0, 3) : "rings";
      int number = zones.add(shape(kind, kind.equals("rings") ? each[k] : each[k].substring(4)));
      if (number != k) return "zone " + k + " has the number " + number;
    }
    return IntStream.range(0, 2).mapToObj(turn -> {
      try {
        Zones.Pairs pairs = zones.pairs(numbers(fields[3]), numbers(fields[4]), fields[2].equals("1"));
        return IntStream.range(0, pairs.places().length).mapToObj(k -> pairs.places()[k] + ":" + pairs.zones()[k])
            .collect(Collectors.joining(" "));
      } catch (Refusal refusal) {
        return refusal.kind() == Refusal.Kind.SHAPE_NUMBER ? "!number " + refusal.place() : refusal.toString();
      }
    }).distinct().collect(Collectors.joining(", but then "));
  }

  /** The answer to a question, of which the last fields are the answers that are wanted. */
  private static String answer(String[] fields) {
    double[] place = fields[0].equals("leaf") ? numbers(fields[1]) : null;
    long cell = fields[0].matches("middle|.*neighbors") ? Long.parseUnsignedLong(fields[1], 16) : 0;
    int level = fields[0].matches("neighbors|vertex_neighbors|expanded") ? Integer.parseInt(fields[2]) : 0;
    switch (fields[0]) {
      case "leaf": return answered(() -> Long.toHexString(CellId.fromPosition(place[0], place[1])));
      case "middle": return shown(CellId.longitude(cell), CellId.latitude(cell));
      case "neighbors": return answered(() -> shown(CellId.neighbors(cell, level)));
      case "edge_neighbors": return shown(CellId.edgeNeighbors(cell));
      case "vertex_neighbors": return answered(() -> shown(CellId.vertexNeighbors(cell, level)));
      case "expanded": return answered(() -> shown(union(fields[1]).expanded(level)));
      case "bounds":
        double[] sides = union(fields[1]).bounds();
        return sides.length == 0 ? "none" : shown(sides);
      case "area": return shown(new double[] {union(fields[1]).area()});
      case "outline": return shown(union(fields[1]).outline());
      case "boundary":
        return Arrays.stream(union(fields[1]).boundary()).map(line -> "-:" + shown(line))
            .collect(Collectors.joining(" "));
      case "zones": return answered(() -> joined(fields));
      case "holds":
        RegionCoverer.Coverings made = coverer(fields[2]).coverings(shape(fields[1]));
        return hasEach(made.outer(), fields[3], true) && hasEach(made.inner(), fields[4], false)
            ? fields[3] + "\t" + fields[4] : "a place is missing, or one outside is in the interior";
      default:
        RegionCoverer coverer = coverer(fields[2]);
        return coverer == null ? "!option" : covered(coverer, shape(fields[0], fields[1]));
    }
  }

  private static void questions(Path path) throws IOException {
    Set<String> calls = new HashSet<>();
    for (String line : Files.readAllLines(path)) {
      String[] fields = line.split("\t", -1);
      int given = fields[0].matches("leaf|middle|outline|boundary|edge_neighbors|bounds|area") ? 2 : 3;
      if (fields[0].equals("zones")) given = 5;
      String wanted = String.join("\t", Arrays.copyOfRange(fields, given, fields.length));
      String found = answer(fields);
      check(found.equals(wanted), String.format("%.200s is %.200s, not %.200s", line, found, wanted));
      calls.add(fields[0]);
    }
    check(calls.size() == 16, "16 calls are asked: " + calls);
  }

  // ---- what the questions don't ask

  private static void refused(Refusal.Kind kind, long ring, long place, String words, Runnable action) {
    try {
      action.run();
      check(false, "nothing refused: " + words);
    } catch (Refusal refusal) {
      check(refusal.kind() == kind && refusal.ring() == ring && refusal.place() == place
          && refusal.getMessage().equals(words), refusal + " " + refusal.ring() + " " + refusal.place());
    }
  }

  private static void refusals() {
    RegionCoverer usual = new RegionCoverer();
    double[] open = Arrays.copyOf(SQUARE, 8);
    refused(Refusal.Kind.SHAPE_OPEN, 1, 3, "a ring is open: its last position is not its first: ring 1, position 3",
        () -> usual.covering(Shape.polygon(SQUARE, open)));
    refused(Refusal.Kind.SHAPE_WKB, 0, 5, "the bytes are no WKB: at byte 5",
        () -> usual.coverings(Shape.wkb(new byte[] {1, 3, 0, 0, 0})));
    String range = "a longitude is from -540 to 540 and a latitude from -90 to 90 (the longitude first)";
    refused(Refusal.Kind.SHAPE_NUMBER, 0, 1, range, () -> CellId.fromPositions(0, 0, 0, 91));
    refused(Refusal.Kind.ARGUMENT, 0, 1, "argument out of range", () -> CellId.fromPositions(0, 0, 0));
    for (Runnable odd : List.<Runnable>of(() -> Shape.polygon(SQUARE, new double[3]), () -> Shape.points(1, 2, 3),
        () -> Shape.lines(SQUARE, new double[1]), () -> Shape.polygons(new double[][] {SQUARE, new double[9]}))) {
      refused(Refusal.Kind.ARGUMENT, 0, 1, "argument out of range", odd);
    }
    for (Runnable none : List.<Runnable>of(() -> CellId.neighbors(2, 30), () -> CellId.edgeNeighbors(0),
        () -> CellId.vertexNeighbors(-1, 0))) {
      refused(Refusal.Kind.NO_CELL, 0, 0, "not a cell", none);
    }
    for (Runnable wrong : List.<Runnable>of(() -> CellId.neighbors(1, -1), () -> CellId.vertexNeighbors(1, -1),
        () -> CellUnion.of(1).expanded(-1))) {
      refused(Refusal.Kind.ARGUMENT, 0, 0, "argument out of range", wrong);
    }
    String option = "a number of cells, a level, a number of meters or a kind of edges is out of range";
    for (RegionCoverer wrong : List.of(usual.maxCells(-1), usual.maxCells(Integer.MAX_VALUE), usual.minLevel(-1),
        usual.minLevel(31), usual.maxLevel(-1), usual.maxLevel(31), usual.margin(-1), usual.margin(Double.NaN),
        usual.within(0), usual.within(-1), usual.within(Double.NaN), usual.minLevel(3).maxLevel(2))) {
      for (Shape shape : List.of(Shape.polygon(SQUARE), Shape.box(2, 48, 3, 49), Shape.circle(0, 0, 1))) {
        refused(Refusal.Kind.SHAPE_OPTION, 0, 0, option, () -> wrong.coverings(shape));
      }
    }
  }

  private static void usual() {
    RegionCoverer usual = new RegionCoverer();
    Shape square = Shape.polygon(SQUARE);
    check(usual.covering(square).equals(usual.maxCells(200).minLevel(0).maxLevel(30).margin(0)
        .edges(RegionCoverer.Edges.MAP).covering(square)), "what is usual");
    check(usual.within(500).covering(square).equals(usual.maxCells(1_000_000).within(500).covering(square)),
        "many cells within some meters");
    byte[] wkb = {1, 7, 0, 0, 0, 0, 0, 0, 0};
    double[] point = {2, 48};
    Shape empty = Shape.wkb(wkb);
    Shape points = Shape.points(point);
    wkb[0] = 9;
    point[0] = 99;
    check(usual.covering(empty).isEmpty() && usual.covering(points).contains(CellId.fromPosition(2, 48)),
        "a shape keeps what it was given");
  }

  private static void zones() {
    Zones zones = new Zones();
    double[] x = {0, 2.5};
    double[] y = {0, 48.5};
    check(zones.pairs(x, y, true).zones().length == 0, "no zones");
    refused(Refusal.Kind.ARGUMENT, 0, 0, "argument out of range", () -> zones.add(Shape.circle(0, 0, 1)));
    refused(Refusal.Kind.ARGUMENT, 0, 0, "argument out of range", () -> zones.pairs(x, new double[1], true));
    refused(Refusal.Kind.SHAPE_WKB, 0, 0, "the bytes are no WKB: at byte 0", () -> zones.add(Shape.wkb(new byte[1])));
    for (int k = 0; k < 100; k++) check(zones.add(Shape.polygon(SQUARE)) == k, "its number");
    IntStream threads = IntStream.range(0, 64).parallel();
    boolean areRight = threads.allMatch(k -> IntStream.of(zones.pairs(x, y, false).zones()).sum() == 4950);
    check(areRight && zones.pairs(x, y, false).places()[99] == 1, "threads that share zones");
    for (int k = 0; k < 2000; k++) new Zones().add(Shape.polygon(SQUARE)); // which the collector frees
    System.gc();
  }

  /** A million positions, and threads that share a shape. */
  private static void many() {
    double[] ring = new double[2_000_002];
    for (int k = 0; k <= 1_000_000; k++) {
      ring[2 * k] = 10 * Math.cos(2e-6 * Math.PI * (k % 1_000_000));
      ring[2 * k + 1] = 10 * Math.sin(2e-6 * Math.PI * (k % 1_000_000));
    }
    CellUnion outer = new RegionCoverer().maxCells(50).covering(Shape.polygon(ring));
    check(outer.size() <= 50 && outer.contains(CellId.fromPosition(ring[14], ring[15])), "a million positions");
    check(CellId.fromPositions(ring).length == 1_000_001, "a million leaves");
    ring[2_000_001] = 1;
    check(answered(() -> shown(new RegionCoverer().covering(Shape.polygon(ring)))).equals("!open 0 1000000"), "open");
    Shape square = Shape.polygon(SQUARE);
    IntStream threads = IntStream.range(0, 64).parallel();
    check(threads.mapToObj(k -> new RegionCoverer().coverings(square)).distinct().count() == 1, "threads");
  }

  public static void main(String[] words) throws IOException {
    questions(Path.of(words[0]));
    refusals();
    usual();
    zones();
    many();
    end();
  }
}
