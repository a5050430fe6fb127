package s2union;

import java.nio.charset.StandardCharsets;

/**
 * Calls for cells, which are numbers, S2CellId.id(). The sign of a number means nothing. A number that is no cell is
 * refused by a {@link Refusal}; a cell that there is not is 0, which is no cell.
 *
 * @since 1.1
 */
public final class CellId {
  private static final long MARKERS = 0x1555555555555555L; // the bits at which the lowest of a cell can stand

  private CellId() {}

  // comment: version
  public static String version() {
    long number = Calls.number(Calls.VERSION, 0, 0);
    return number / 10000 + "." + number / 100 % 100 + "." + number % 100;
  }

  // comment: is_cell
  public static boolean isCell(long id) {
    return id >>> 61 < 6 && (lowest(id) & MARKERS) != 0;
  }

  /** The lowest bit of a number, which says the level of a cell: it is 4^(30 - level). */
  private static long lowest(long id) {
    return id & -id;
  }

  static long checked(long id) {
    if (!isCell(id)) throw new Refusal(Refusal.NO_CELL, 0);
    return id;
  }

  // comment: level
  public static int level(long id) {
    return Calls.LAST_LEVEL - Long.numberOfTrailingZeros(checked(id)) / 2;
  }

  // comment: face
  public static int face(long id) {
    return (int) (checked(id) >>> 61);
  }

  // comment: parent
  public static long parent(long id, int level) {
    int own = level(id);
    long lowest = 1L << 2 * (Calls.LAST_LEVEL - Calls.within(level, Calls.LAST_LEVEL));
    return level > own ? 0 : id & -lowest | lowest;
  }

  // methods: child

  // comment: range_min
  public static long rangeMin(long id) {
    return checked(id) - (lowest(id) - 1);
  }

  // comment: range_max
  public static long rangeMax(long id) {
    return checked(id) + (lowest(id) - 1);
  }

  // comment: size
  public static long leafCellsCovered(long id) {
    return lowest(checked(id));
  }

  // methods: next, prev, common_ancestor

  // comment: cell_contains
  public static boolean contains(long whole, long part) {
    return Long.compareUnsigned(rangeMin(whole), checked(part)) <= 0
        && Long.compareUnsigned(part, rangeMax(whole)) <= 0;
  }

  // comment: cell_intersects
  public static boolean intersects(long a, long b) {
    return Long.compareUnsigned(rangeMin(a), rangeMax(b)) <= 0 && Long.compareUnsigned(rangeMin(b), rangeMax(a)) <= 0;
  }

  // comment: from_face_ij
  public static long fromFaceIJ(int face, int i, int j) {
    long id = Calls.leafAt(face, i, j);
    if (id == 0) throw new Refusal(Refusal.ARGUMENT, 0);
    return id;
  }

  // comment: square_of
  public static int[] square(long id) {
    long[] found = new long[4];
    Calls.checked(Calls.square(id, found), 0);
    return new int[] {(int) found[0], (int) found[1], (int) found[2], (int) found[3]};
  }

  // methods: token, from_token, debug, from_debug

  private static String text(int call, long id) {
    return new String(Calls.written(Calls.MOST_DEBUG, call, null, id), StandardCharsets.US_ASCII);
  }

  // Many cells in one call.

  // methods: all others

  // comment: from_points
  public static long[] fromPoints(int... points) {
    if (points.length % 3 != 0) throw new Refusal(Refusal.ARGUMENT, points.length / 3);
    long[] out = new long[points.length / 3];
    long[] bad = new long[1];
    Calls.checked(Calls.fromPoints(points, out, bad), 0);
    if (bad[0] < out.length) throw new Refusal(Refusal.ARGUMENT, bad[0]);
    return out;
  }

  /**
   * The leaf at a position in degrees.
   * S2: {@code S2CellId(S2LatLng)}, which takes the latitude first.
   *
   * <pre>{@code
   * CellId.toToken(CellId.fromPosition(2.3522, 48.8566)) // 47e66e1d8f8be23b
   * }</pre>
   *
   * @param longitude from -540 to 540; it comes first
   * @param latitude from -90 to 90
   * @return the leaf
   * @throws Refusal {@link Refusal.Kind#SHAPE_NUMBER} if one is out of range, or not a number
   * @since 1.4
   */
  public static long fromPosition(double longitude, double latitude) {
    long leaf = Calls.leafAtPosition(longitude, latitude);
    if (leaf == 0) throw new Refusal(Refusal.SHAPE_NUMBER, 0);
    return leaf;
  }

  /**
   * The leaves at positions in degrees, in one call.
   * S2: {@code S2CellId(S2LatLng)}.
   *
   * <pre>{@code
   * CellId.toToken(CellId.fromPositions(2.3522, 48.8566, 0, 90)[1]) // 5000000000000001
   * }</pre>
   *
   * @param positions positions, each of which is two numbers: a longitude, -540 to 540, and a latitude, -90 to 90
   * @return as many leaves
   * @throws Refusal {@link Refusal.Kind#SHAPE_NUMBER} if a number is out of range, or not a number, or
   *     {@link Refusal.Kind#ARGUMENT} if a latitude is missing; the place is that of the first such position
   * @since 1.4
   */
  public static long[] fromPositions(double... positions) {
    if (positions.length % 2 != 0) throw new Refusal(Refusal.ARGUMENT, positions.length / 2);
    long[] out = new long[positions.length / 2];
    long[] bad = new long[1];
    Calls.checked(Calls.leavesAt(positions, out, bad), 0);
    if (bad[0] < out.length) throw new Refusal(Refusal.SHAPE_NUMBER, bad[0]);
    return out;
  }

  /**
   * The longitude of the middle of a cell.
   * S2: {@code S2CellId::ToLatLng}.
   *
   * <pre>{@code
   * CellId.longitude(CellId.fromToken("3")) // 90.0
   * }</pre>
   *
   * @param cell a cell
   * @return degrees, from -180 to 180
   * @throws Refusal {@link Refusal.Kind#NO_CELL} if the number is no cell
   * @since 1.4
   */
  public static double longitude(long cell) {
    return middle(cell)[0];
  }

  /**
   * The latitude of the middle of a cell.
   * S2: {@code S2CellId::ToLatLng}.
   *
   * <pre>{@code
   * CellId.latitude(CellId.fromToken("5")) // 90.0
   * }</pre>
   *
   * @param cell a cell
   * @return degrees, from -90 to 90
   * @throws Refusal {@link Refusal.Kind#NO_CELL} if the number is no cell
   * @since 1.4
   */
  public static double latitude(long cell) {
    return middle(cell)[1];
  }

  private static double[] middle(long cell) {
    double[] place = new double[2];
    Calls.checked(Calls.middle(cell, place), 0);
    return place;
  }

  /**
   * The cells of a level that touch a cell, at an edge or a corner, each once.
   * S2: {@code S2CellId::AppendAllNeighbors}.
   *
   * <pre>{@code
   * CellId.neighbors(CellId.fromToken("89c25"), 8) // 89c21 89c23 89c27 89c29 89c2f 89c31 89c3b 89c3d
   * }</pre>
   *
   * @param id a cell
   * @param level its own level or a deeper one
   * @return a union: of its own level eight cells, seven at a corner of the cube, and four of a face
   * @throws Refusal {@link Refusal.Kind#NO_CELL} if the number is no cell, {@link Refusal.Kind#ARGUMENT} if the level
   *     is above that of the cell or beyond 30, or {@link Refusal.Kind#MANY} if there are more than 1,000,000
   * @since 1.4.1
   */
  public static CellUnion neighbors(long id, int level) {
    return CellUnion.holding(Calls.around(Calls.NEIGHBORS, level, id));
  }

  /**
   * The four cells of a cell's level that share an edge with it.
   * S2: {@code S2CellId::GetEdgeNeighbors}.
   *
   * <pre>{@code
   * CellId.toToken(CellId.edgeNeighbors(CellId.fromToken("1"))[0]) // b
   * }</pre>
   *
   * @param id a cell
   * @return the one below it on its face, and then counterclockwise
   * @throws Refusal {@link Refusal.Kind#NO_CELL} if the number is no cell
   * @since 1.4.1
   */
  public static long[] edgeNeighbors(long id) {
    return Calls.around(Calls.EDGE_NEIGHBORS, 0, id);
  }

  /**
   * The cells of a level around the corner that is nearest to a cell, of those of its ancestor there.
   * S2: {@code S2CellId::AppendVertexNeighbors}.
   *
   * <pre>{@code
   * String.join(" ", CellId.toTokens(CellId.vertexNeighbors(CellId.fromToken("89c25"), 3))) // 89c 4cc 884 4d4
   * }</pre>
   *
   * @param id a cell
   * @param level 0 to its own less 1
   * @return four cells, or three at a corner of the cube; the first has the cell
   * @throws Refusal {@link Refusal.Kind#NO_CELL} if the number is no cell, or {@link Refusal.Kind#ARGUMENT} if the
   *     level is not above that of the cell
   * @since 1.4.1
   */
  public static long[] vertexNeighbors(long id, int level) {
    return Calls.around(Calls.VERTEX_NEIGHBORS, level, id);
  }

  // comment: token_fields
  public static String[] toTokens(long... cells) {
    byte[] fields = Calls.bytesOfEach(Calls.TOKEN_FIELDS, cells, Calls.MOST_TOKEN);
    String text = new String(fields, StandardCharsets.US_ASCII);
    String[] tokens = new String[cells.length];
    for (int k = 0; k < cells.length; k++) {
      String field = text.substring(Calls.MOST_TOKEN * k, Calls.MOST_TOKEN * (k + 1));
      int end = field.indexOf(0);
      tokens[k] = end < 0 ? field : field.substring(0, end);
    }
    return tokens;
  }

  // methods: from_tokens
}
