package s2union;

import java.nio.charset.StandardCharsets;
import java.util.ArrayList;
import java.util.Arrays;
import java.util.List;
import java.util.stream.LongStream;

/**
 * A set of leaves as the one normalized list of cells that covers it. It never changes, so threads may share it. Its
 * cells ascend as unsigned numbers. A call that gets no memory throws an {@link OutOfMemoryError}.
 *
 * @since 1.1
 */
public final class CellUnion implements Comparable<CellUnion> {
  /** The most cells of a covering, if nothing else is asked for. */
  public static final int MOST_COVERING = 1_000_000;

  private final long[] ids;

  private CellUnion(long[] ids) {
    this.ids = ids;
  }

  // comment: normalise
  public static CellUnion of(long... cells) {
    return new CellUnion(Calls.madeIn(cells.length, Calls.NORMALISE, cells, null, 0, 0, null));
  }

  /**
   * The union of a list that is normalized already.
   * S2: {@code S2CellUnion::FromNormalized}.
   *
   * <pre>{@code
   * CellUnion.fromNormalized(CellId.fromToken("04")) // 04
   * }</pre>
   *
   * @param cells cells
   * @return the union
   * @throws Refusal {@link Refusal.Kind#NO_UNION} if the list is not normalized
   * @since 1.1
   */
  public static CellUnion fromNormalized(long... cells) {
    long[] ids = cells.clone();
    if (!isNormalized(ids)) throw new Refusal(Refusal.NO_UNION, 0);
    return new CellUnion(ids);
  }

  // methods: is_union

  /**
   * The leaves of any of many unions, in one call, which merges them in pairs.
   * S2: {@code S2CellUnion::Union}.
   *
   * <pre>{@code
   * CellUnion.unionOf(java.util.List.of(CellUnion.fromTokens("04 0c"), CellUnion.fromTokens("14 1c"))) // 1
   * }</pre>
   *
   * @param unions any number of unions
   * @return the union; the empty one of none
   * @since 1.1
   */
  public static CellUnion unionOf(Iterable<CellUnion> unions) {
    List<long[]> lists = new ArrayList<>();
    unions.forEach(union -> lists.add(union.ids));
    long[] ids = lists.stream().flatMapToLong(Arrays::stream).toArray();
    long[] ends = lists.stream().mapToLong(list -> list.length).toArray();
    Arrays.parallelPrefix(ends, Long::sum);
    return new CellUnion(Calls.madeIn(3L * ids.length, Calls.UNION_OF_MANY, ids, ends, 0, 0, null));
  }

  // methods: range

  /**
   * The union of the cells that the words of a text name.
   * S2: {@code S2CellId::FromToken}.
   *
   * <pre>{@code
   * CellUnion.fromTokens("0c, 0/0") // 04 0c
   * }</pre>
   *
   * @param text words with blanks, tabs, line ends or commas between them, each a token or a debug text
   * @return the union
   * @throws Refusal {@link Refusal.Kind#NO_CELL} if a word names no cell; the place is that of the byte at which the
   *     word begins
   * @since 1.1
   */
  public static CellUnion fromTokens(String text) {
    return of(CellId.fromTokens(text));
  }

  // methods: decode, outer, inner

  /**
   * Work for {@code coverGeoJson} and {@code coverWkb} if you have no better bound: a second for a shape of a country,
   * and some seconds for any text. Of texts of strangers 2^24 is enough for a country at level 10.
   *
   * @since 1.5
   */
  public static final long MAP_WORK = Calls.MAP_WORK;

  // comment: map_geojson
  public static RegionCoverer.Coverings coverGeoJson(String text, int level, long work) {
    return coverGeoJson(text.getBytes(StandardCharsets.UTF_8), level, work);
  }

  // comment: map_geojson
  public static RegionCoverer.Coverings coverGeoJson(byte[] text, int level, long work) {
    return Calls.mapped(Calls.MAP_GEOJSON, text, level, work);
  }

  // comment: map_wkb
  public static RegionCoverer.Coverings coverWkb(byte[] wkb, int level, long work) {
    return Calls.mapped(Calls.MAP_WKB, wkb, level, work);
  }

  // comment: map_geojson_up_to
  public static RegionCoverer.Coverings coverGeoJsonUpTo(String text, int deepest, int most) {
    return coverGeoJsonUpTo(text.getBytes(StandardCharsets.UTF_8), deepest, most);
  }

  // comment: map_geojson_up_to
  public static RegionCoverer.Coverings coverGeoJsonUpTo(byte[] text, int deepest, int most) {
    return Calls.mapped(Calls.MAP_GEOJSON_UP_TO, text, deepest, Calls.within(most, Integer.MAX_VALUE));
  }

  // comment: map_wkb_up_to
  public static RegionCoverer.Coverings coverWkbUpTo(byte[] wkb, int deepest, int most) {
    return Calls.mapped(Calls.MAP_WKB_UP_TO, wkb, deepest, Calls.within(most, Integer.MAX_VALUE));
  }

  // comment: geodesic_geojson
  public static RegionCoverer.Coverings coverGeodesicGeoJson(String text, int level, int most) {
    return coverGeodesicGeoJson(text.getBytes(StandardCharsets.UTF_8), level, most);
  }

  // comment: geodesic_geojson
  public static RegionCoverer.Coverings coverGeodesicGeoJson(byte[] text, int level, int most) {
    return Calls.mapped(Calls.GEODESIC_GEOJSON, text, level, Calls.within(most, Integer.MAX_VALUE));
  }

  // comment: geodesic_wkb
  public static RegionCoverer.Coverings coverGeodesicWkb(byte[] wkb, int level, int most) {
    return Calls.mapped(Calls.GEODESIC_WKB, wkb, level, Calls.within(most, Integer.MAX_VALUE));
  }

  /**
   * How many cells it has.
   * S2: {@code S2CellUnion::num_cells}.
   *
   * <pre>{@code
   * CellUnion.fromTokens("04 0c").size() // 2
   * }</pre>
   *
   * @return 0 or more
   * @since 1.1
   */
  public int size() {
    return ids.length;
  }

  /**
   * Whether it has no cells.
   * S2: {@code S2CellUnion::empty}.
   *
   * <pre>{@code
   * CellUnion.of().isEmpty() // true
   * }</pre>
   *
   * @return true if it has none
   * @since 1.1
   */
  public boolean isEmpty() {
    return ids.length == 0;
  }

  /**
   * The cell at a place.
   * S2: {@code S2CellUnion::cell_id}.
   *
   * <pre>{@code
   * CellId.toToken(CellUnion.fromTokens("0c 04").cellId(1)) // 0c
   * }</pre>
   *
   * @param place 0 to one less than the size
   * @return the cell
   * @throws ArrayIndexOutOfBoundsException if there is no such place
   * @since 1.1
   */
  public long cellId(int place) {
    return ids[place];
  }

  /**
   * Its cells, ascending, in an array that the caller may change.
   * S2: {@code S2CellUnion::cell_ids}.
   *
   * <pre>{@code
   * CellUnion.fromTokens("0c 04").cellIds().length // 2
   * }</pre>
   *
   * @return a copy
   * @since 1.1
   */
  public long[] cellIds() {
    return ids.clone();
  }

  /**
   * Its cells, in their order.
   * S2: {@code S2CellUnion::begin}.
   *
   * <pre>{@code
   * CellUnion.fromTokens("0c 04").stream().count() // 2
   * }</pre>
   *
   * @return a stream of them
   * @since 1.1
   */
  public LongStream stream() {
    return Arrays.stream(ids);
  }

  // methods: leaf_count, contains_cell, intersects_cell, contains, intersects, contains_cells, intersects_cells

  // comment: cells_at
  public long[] cellIdsAt(long cell) {
    long[] places = new long[2];
    Calls.checked(Calls.cellsAt(ids, cell, places), 0);
    return Arrays.copyOfRange(ids, (int) places[0], (int) (places[0] + places[1]));
  }

  // methods: all others

  /**
   * The leaves that it shares with a cell.
   * S2: {@code S2CellUnion::Intersection}.
   *
   * <pre>{@code
   * CellUnion.fromTokens("04 3").intersection(CellId.fromToken("1")) // 04
   * }</pre>
   *
   * @param cell a cell
   * @return a new union
   * @throws Refusal {@link Refusal.Kind#NO_CELL} if the number is no cell
   * @since 1.1
   */
  public CellUnion intersection(long cell) {
    return intersection(new CellUnion(new long[] {CellId.checked(cell)}));
  }

  // methods: outer_of, inner_of, outer_in, inner_in, ancestors

  // comment: denormalised
  public long[] denormalized(int min, int modulus, int most) {
    long count = denormalizedSize(min, modulus);
    if (Long.compareUnsigned(count, Math.max(most, 0)) > 0) throw new Refusal(Refusal.MANY, 0);
    return Calls.madeIn(count, Calls.DENORMALISED, ids, null, min, modulus, null);
  }

  // methods: denormalised_len

  /**
   * Its outline as polygons on a map: for each part that hangs together a ring around it, counterclockwise, and then
   * its holes, clockwise. The date line cuts polygons in two, and one with a pole goes along the map's edge.
   *
   * <pre>{@code
   * CellUnion.fromTokens("04 24").outline().length // 2
   * }</pre>
   *
   * @return the rings of each polygon: the longitude and the latitude of each position in turn, of which the last is
   *     the first. {@code Shape.polygons} takes them
   * @since 1.4
   */
  public double[][][] outline() {
    return Calls.drawn(Calls.OUTLINE, ids);
  }

  /**
   * Its boundary as closed lines through corners of cells, with the union on their left. A line goes on beyond 180 or
   * -180 degrees.
   * S2: {@code S2Polygon::InitToCellUnionBorder}.
   *
   * <pre>{@code
   * CellUnion.fromTokens("1").boundary()[0].length // 10
   * }</pre>
   *
   * @return the lines: the longitude and the latitude of each position in turn
   * @since 1.4
   */
  public double[][] boundary() {
    return Calls.drawn(Calls.BOUNDARY, ids)[0];
  }

  /**
   * With each cell of a level that touches one of its cells. Of its cells that are deeper than the level, those of the
   * level that have them are taken.
   * S2: {@code S2CellUnion::Expand}.
   *
   * <pre>{@code
   * CellUnion.fromTokens("89c25").expanded(8) // 89c24 89c29 89c2f 89c31 89c3b 89c3d
   * }</pre>
   *
   * @param level 0 to 30
   * @return the union
   * @throws Refusal {@link Refusal.Kind#ARGUMENT} if the level is out of range, or {@link Refusal.Kind#MANY} if there
   *     are more than 4,000,000 cells around it, and nine for each of its own
   * @since 1.4.1
   */
  public CellUnion expanded(int level) {
    return holding(Calls.around(Calls.EXPANDED, level, ids));
  }

  /**
   * The box of degrees in which it lies: at most 1e-13 degrees wider on each side than the narrowest one.
   * S2: {@code S2CellUnion::GetRectBound}.
   *
   * <pre>{@code
   * Math.round(CellUnion.fromTokens("7").bounds()[0]) // 135
   * }</pre>
   *
   * @return the west, south, east and north. It goes over the date line if the east is less than the west; with a pole,
   *     or where there is no gap, it has all longitudes, from -180 to 180. Without cells nothing: an array of length 0
   * @since 1.4.1
   */
  public double[] bounds() {
    double[] sides = new double[4];
    Calls.checked(Calls.bounds(ids, sides), 0);
    return sides[1] <= sides[3] ? sides : new double[0];
  }

  /**
   * The area in square kilometers, on a sphere with the earth's mean radius. The earth is flattened, so an area there
   * differs by less than 1 percent.
   * S2: {@code S2CellUnion::ExactArea}, which is that on a sphere of radius 1.
   *
   * <pre>{@code
   * Math.round(CellUnion.fromTokens("1").area()) // 85011012
   * }</pre>
   *
   * @return the area; without cells 0
   * @since 1.5
   */
  public double area() {
    double[] one = new double[1];
    Calls.checked(Calls.area(ids, one), 0);
    return one[0];
  }

  /** The union of cells that a call has made, which become its own. */
  static CellUnion holding(long[] ids) {
    return new CellUnion(ids);
  }

  // methods: encode

  // comment: compare
  @Override
  public int compareTo(CellUnion other) {
    return (int) Calls.numberOf(Calls.COMPARE, ids, other.ids);
  }

  /**
   * Whether both have the same leaves, and so the same list.
   * S2: {@code S2CellUnion::operator==}.
   *
   * <pre>{@code
   * CellUnion.fromTokens("1").equals(CellUnion.fromTokens("04 0c 14 1c")) // true
   * }</pre>
   *
   * @param other a union, or anything else
   * @return true if they have
   * @since 1.1
   */
  @Override
  public boolean equals(Object other) {
    return other instanceof CellUnion && Arrays.equals(ids, ((CellUnion) other).ids);
  }

  /**
   * The hash of its list: equal unions have equal ones.
   *
   * <pre>{@code
   * CellUnion.of().hashCode() == CellUnion.of().hashCode() // true
   * }</pre>
   *
   * @return any number
   * @since 1.1
   */
  @Override
  public int hashCode() {
    return Arrays.hashCode(ids);
  }

  // comment: tokens
  @Override
  public String toString() {
    return new String(Calls.written(Calls.TOKENS, ids), StandardCharsets.US_ASCII);
  }
}
