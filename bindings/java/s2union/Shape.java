package s2union;

import java.nio.charset.StandardCharsets;
import java.util.Arrays;
import java.util.stream.LongStream;
import java.util.stream.Stream;

/**
 * What a {@link RegionCoverer} covers: polygons, lines, points, a circle or a box, in degrees. The longitude comes
 * first, from -540 to 540, then the latitude, from -90 to 90. Whether the numbers are in range, and the rings closed,
 * is looked at when it is covered. A shape never changes, so threads may share it.
 *
 * @since 1.4
 */
public final class Shape {
  /** Stands in the place of a polygon's number. */
  private static final long LINE = -1;

  final int call;
  /** Bytes of WKB or of a text, or numbers. */
  final Object given;
  /** Where each ring ends, in positions, and its polygon. */
  final long[] rings;

  private Shape(int call, Object given, long[] rings) {
    this.call = call;
    this.given = given;
    this.rings = rings;
  }

  /**
   * The shape in bytes of WKB: points, lines, polygons and collections of them, in either order of bytes, as
   * {@code WKBWriter} of JTS writes them. Z and M are passed over, and an SRID is 0 or 4326.
   *
   * <pre>{@code
   * new RegionCoverer().covering(Shape.wkb(new byte[] {1, 7, 0, 0, 0, 0, 0, 0, 0})).size() // 0
   * }</pre>
   *
   * @param bytes the bytes, which are copied
   * @return the shape
   * @since 1.4
   */
  public static Shape wkb(byte[] bytes) {
    return new Shape(Calls.COVER_WKB, bytes.clone(), Calls.NONE);
  }

  /**
   * The shape in a text of GeoJSON: a geometry, a feature, or a collection of either. Further coordinates are passed
   * over, and so are members that say nothing of the shape.
   *
   * <pre>{@code
   * new RegionCoverer().covering(Shape.geoJson("{\"type\": \"Polygon\", \"coordinates\": []}")).size() // 0
   * }</pre>
   *
   * @param text the text
   * @return the shape
   * @since 1.5
   */
  public static Shape geoJson(String text) {
    return new Shape(Calls.COVER_GEOJSON, text.getBytes(StandardCharsets.UTF_8), Calls.NONE);
  }

  /**
   * A polygon. A place is inside if a way to it from outside crosses the rings an odd number of times: a hole is a ring
   * too, and rings may cross. One goes on beyond 180 degrees where it crosses the date line.
   *
   * <pre>{@code
   * new RegionCoverer().maxCells(4)
   *     .covering(Shape.polygon(new double[] {2, 48, 3, 48, 3, 49, 2, 48})) // 47e5 47e604 47e8c 47ef
   * }</pre>
   *
   * @param rings rings of positions, the longitude and the latitude of each in turn; the last is the first
   * @return the shape
   * @throws Refusal {@link Refusal.Kind#ARGUMENT} if a latitude is missing; the place is that of the ring
   * @since 1.4
   */
  public static Shape polygon(double[]... rings) {
    return polygons(new double[][][] {rings});
  }

  /**
   * Several polygons, which may overlap on the map.
   *
   * <pre>{@code
   * new RegionCoverer().covering(Shape.polygons(CellUnion.fromTokens("04 24").outline())).size() // 98
   * }</pre>
   *
   * @param polygons the rings of each polygon, as {@code polygon} takes them
   * @return the shape
   * @throws Refusal {@link Refusal.Kind#ARGUMENT} if a latitude is missing; the place is that of the ring
   * @since 1.4
   */
  public static Shape polygons(double[][]... polygons) {
    return collection(polygons, new double[0][]);
  }

  /**
   * Lines, each from position to position. A line of one position is a point.
   *
   * <pre>{@code
   * new RegionCoverer().maxCells(6).covering(Shape.lines(new double[] {1, 1, 2, 2})).size() // 5
   * }</pre>
   *
   * @param lines lines of positions, the longitude and the latitude of each in turn
   * @return the shape
   * @throws Refusal {@link Refusal.Kind#ARGUMENT} if a latitude is missing; the place is that of the line
   * @since 1.4
   */
  public static Shape lines(double[]... lines) {
    return collection(new double[0][][], lines);
  }

  /**
   * Polygons and lines together.
   *
   * <pre>{@code
   * new RegionCoverer()
   *     .covering(Shape.collection(CellUnion.fromTokens("04").outline(), new double[][] {{1, 1, 2, 2}}))
   *     .contains(CellId.fromPosition(1, 1)) // true
   * }</pre>
   *
   * @param polygons the rings of each polygon, as {@code polygon} takes them
   * @param lines lines of positions, as {@code lines} takes them
   * @return the shape
   * @throws Refusal {@link Refusal.Kind#ARGUMENT} if a latitude is missing; the place is that of the ring or line
   * @since 1.4.1
   */
  public static Shape collection(double[][][] polygons, double[][] lines) {
    Stream<double[]> rings = Arrays.stream(polygons).flatMap(Arrays::stream);
    LongStream owners = LongStream.range(0, polygons.length)
        .flatMap(number -> Arrays.stream(polygons[(int) number]).mapToLong(ring -> number));
    return of(Stream.concat(rings, Arrays.stream(lines)).toArray(double[][]::new),
        LongStream.concat(owners, Arrays.stream(lines).mapToLong(line -> LINE)).toArray());
  }

  /**
   * Points.
   *
   * <pre>{@code
   * new RegionCoverer().maxLevel(2).covering(Shape.points(2.35, 48.86)) // 47
   * }</pre>
   *
   * @param positions the longitude and the latitude of each point in turn
   * @return the shape
   * @throws Refusal {@link Refusal.Kind#ARGUMENT} if a latitude is missing; the place is that of the point
   * @since 1.4
   */
  public static Shape points(double... positions) {
    if (positions.length % 2 != 0) throw new Refusal(Refusal.ARGUMENT, positions.length / 2);
    long[] rings = new long[positions.length];
    for (int k = 0; k < rings.length; k += 2) {
      rings[k] = k / 2 + 1;
      rings[k + 1] = LINE;
    }
    return new Shape(Calls.COVER, positions.clone(), rings);
  }

  /**
   * The places within a radius of a position, on a sphere with the earth's mean radius.
   * S2: {@code S2Cap}.
   *
   * <pre>{@code
   * new RegionCoverer().maxCells(4).covering(Shape.circle(2.35, 48.86, 1000)) // 47e66e1 47e66e3 47e671dc 47e671f
   * }</pre>
   *
   * @param longitude from -540 to 540
   * @param latitude from -90 to 90
   * @param radius meters, 0 to 20,000,000
   * @return the shape
   * @since 1.4
   */
  public static Shape circle(double longitude, double latitude, double radius) {
    return new Shape(Calls.COVER_CIRCLE, new double[] {longitude, latitude, radius}, Calls.NONE);
  }

  /**
   * The places between two meridians and two parallels. A box that ends west of where it begins crosses the date line.
   * One that ends south of where it begins has no covering: {@link Refusal.Kind#ARGUMENT}.
   * S2: {@code S2LatLngRect}.
   *
   * <pre>{@code
   * new RegionCoverer().maxCells(4).covering(Shape.box(2, 48, 3, 49)) // 47e5 47e7 47e8b 47ef
   * }</pre>
   *
   * @param west the longitude where it begins
   * @param south the least latitude
   * @param east the longitude where it ends
   * @param north the greatest latitude
   * @return the shape
   * @since 1.4
   */
  public static Shape box(double west, double south, double east, double north) {
    return new Shape(Calls.COVER_BOX, new double[] {west, south, east, north}, Calls.NONE);
  }

  /** The shape of rings and lines, by the number of each one's polygon. */
  private static Shape of(double[][] lines, long[] owners) {
    long length = Arrays.stream(lines).mapToLong(line -> line.length).sum();
    double[] positions = new double[Calls.lengthOf(length)];
    long[] rings = new long[Calls.lengthOf(2L * lines.length)];
    int end = 0;
    for (int k = 0; k < lines.length; k++) {
      if (lines[k].length % 2 != 0) throw new Refusal(Refusal.ARGUMENT, k);
      System.arraycopy(lines[k], 0, positions, end, lines[k].length);
      end += lines[k].length;
      rings[2 * k] = end / 2;
      rings[2 * k + 1] = owners[k];
    }
    return new Shape(Calls.COVER, positions, rings);
  }
}
