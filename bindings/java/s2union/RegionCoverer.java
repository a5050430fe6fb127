package s2union;

/**
 * Makes coverings of shapes in degrees, by the proved calls of the library. A corner is rounded to 3 mm, for which a
 * covering pays; how degrees become whole numbers is tested beside S2. Its options have the names of S2's
 * {@code S2RegionCoverer}. It never changes: a call for an option returns another one, so threads may share it. A call
 * that gets no memory throws an {@link OutOfMemoryError}.
 *
 * @since 1.4
 */
public final class RegionCoverer {
  /** What leads from a position to the next one. */
  public enum Edges {
    /** Straight in longitude and latitude, as in GeoJSON. */
    MAP,
    /** The shortest ways on the sphere, and of each ring the smaller side is inside. */
    GEODESIC,
    /** The shortest ways on the sphere, and what the rings have on their left is inside. */
    LEFT
  }

  /**
   * Both coverings of a shape.
   *
   * @param outer the union that contains the shape
   * @param inner the union of cells that lie in it
   */
  public record Coverings(CellUnion outer, CellUnion inner) {}

  private static final long USUAL = 200;
  private static final long MOST = 1_000_000;
  private static final int OUTER = 1;
  private static final int INNER = 2;

  /** The most cells, or null if nothing is said. */
  private final Long maxCells;
  private final int minLevel;
  private final int maxLevel;
  private final Edges edges;
  private final double margin;
  private final double within;

  /**
   * Of at most 200 cells, none deeper than level 30, with edges that are straight on the map.
   *
   * <pre>{@code
   * new RegionCoverer().covering(Shape.box(2, 48, 3, 49)).size() <= 200 // true
   * }</pre>
   *
   * @since 1.4
   */
  public RegionCoverer() {
    this(null, 0, Calls.LAST_LEVEL, Edges.MAP, 0, 0);
  }

  private RegionCoverer(Long maxCells, int minLevel, int maxLevel, Edges edges, double margin, double within) {
    this.maxCells = maxCells;
    this.minLevel = minLevel;
    this.maxLevel = maxLevel;
    this.edges = edges;
    this.margin = margin;
    this.within = within;
  }

  /**
   * With at most this number of cells.
   * S2: {@code S2RegionCoverer::Options::set_max_cells}.
   *
   * <pre>{@code
   * new RegionCoverer().maxCells(8).covering(Shape.box(2, 48, 3, 49)).size() <= 8 // true
   * }</pre>
   *
   * @param cells 0 to 1,000,000; where a shape meets more faces, the outer covering has these
   * @return the coverer
   * @since 1.4
   */
  public RegionCoverer maxCells(int cells) {
    return new RegionCoverer((long) cells, minLevel, maxLevel, edges, margin, within);
  }

  /**
   * With cells at the border that are at least so deep, even if there are more than {@code maxCells} then.
   * S2: {@code S2RegionCoverer::Options::set_min_level}.
   *
   * <pre>{@code
   * new RegionCoverer().maxCells(8).minLevel(9).covering(Shape.box(2, 48, 3, 49)).size() > 8 // true
   * }</pre>
   *
   * @param level 0 to the deepest level
   * @return the coverer
   * @since 1.4
   */
  public RegionCoverer minLevel(int level) {
    return new RegionCoverer(maxCells, level, maxLevel, edges, margin, within);
  }

  /**
   * With no cell deeper than a level.
   * S2: {@code S2RegionCoverer::Options::set_max_level}.
   *
   * <pre>{@code
   * new RegionCoverer().maxLevel(4).covering(Shape.box(2, 48, 3, 49)) // 47f
   * }</pre>
   *
   * @param level 0 to 30
   * @return the coverer
   * @since 1.4
   */
  public RegionCoverer maxLevel(int level) {
    return new RegionCoverer(maxCells, minLevel, level, edges, margin, within);
  }

  /**
   * With cells at the border so small that no place of a covering is farther from the shape, and each place that is
   * farther from the border lies in the inner one, if {@code maxCells} allows it: 1,000,000 if nothing is said.
   *
   * <pre>{@code
   * new RegionCoverer().within(500).covering(Shape.box(2, 48, 3, 49)).size() > 200 // true
   * }</pre>
   *
   * @param meters more than 0
   * @return the coverer
   * @since 1.4
   */
  public RegionCoverer within(double meters) {
    return new RegionCoverer(maxCells, minLevel, maxLevel, edges, margin, meters == 0 ? -1 : meters);
  }

  /**
   * With coverings that go these meters beyond the shape, and inner ones that stay as far from its border. The margin
   * of a line or a point makes a corridor, and its inner covering lies in that.
   *
   * <pre>{@code
   * new RegionCoverer().margin(5000).covering(Shape.points(2, 48)).contains(CellId.fromPosition(2.05, 48)) // true
   * }</pre>
   *
   * @param meters 0 to 300,000
   * @return the coverer
   * @since 1.4
   */
  public RegionCoverer margin(double meters) {
    return new RegionCoverer(maxCells, minLevel, maxLevel, edges, meters, within);
  }

  /**
   * With other edges, of all shapes but circles.
   *
   * <pre>{@code
   * new RegionCoverer().edges(RegionCoverer.Edges.GEODESIC).covering(Shape.box(0, 40, 10, 49))
   *     .contains(CellId.fromPosition(5, 49.05)) // true
   * }</pre>
   *
   * @param kind what leads from a position to the next one
   * @return the coverer
   * @since 1.4
   */
  public RegionCoverer edges(Edges kind) {
    return new RegionCoverer(maxCells, minLevel, maxLevel, kind, margin, within);
  }

  /**
   * A union that contains all of a shape.
   * S2: {@code S2RegionCoverer::GetCovering}.
   *
   * <pre>{@code
   * new RegionCoverer().covering(Shape.box(2, 48, 3, 49)).contains(CellId.fromPosition(2.35, 48.86)) // true
   * }</pre>
   *
   * @param shape the shape
   * @return the union
   * @throws Refusal {@link Refusal.Kind#SHAPE_OPTION} if an option is out of range, {@link Refusal.Kind#MANY} if the
   *     least level asks for more than 1,000,000 cells at the border, or another kind whose name begins with
   *     {@code SHAPE}; {@code ring()} and {@code place()} say where the shape is wrong
   * @since 1.4
   */
  public CellUnion covering(Shape shape) {
    return CellUnion.holding(covered(shape, OUTER)[0]);
  }

  /**
   * A union of cells that lie in the polygons, the circle or the box. Lines and points have nothing inside.
   * S2: {@code S2RegionCoverer::GetInteriorCovering}.
   *
   * <pre>{@code
   * new RegionCoverer().maxCells(4).interiorCovering(Shape.box(2, 48, 3, 49)) // 47e5c 47e604 47e60c 47e674
   * }</pre>
   *
   * @param shape the shape
   * @return the union
   * @throws Refusal the kinds of {@code covering}
   * @since 1.4
   */
  public CellUnion interiorCovering(Shape shape) {
    return CellUnion.holding(covered(shape, INNER)[1]);
  }

  /**
   * Both in one call: {@code covering} and {@code interiorCovering}.
   *
   * <pre>{@code
   * new RegionCoverer().coverings(Shape.points(2, 48)).inner().size() // 0
   * }</pre>
   *
   * @param shape the shape
   * @return both
   * @throws Refusal the kinds of {@code covering}
   * @since 1.4
   */
  public Coverings coverings(Shape shape) {
    long[][] made = covered(shape, OUTER + INNER);
    return new Coverings(CellUnion.holding(made[0]), CellUnion.holding(made[1]));
  }

  private long[][] covered(Shape shape, int wanted) {
    long most = maxCells != null ? maxCells : within == 0 ? USUAL : MOST;
    long[] options = {most, minLevel, maxLevel, edges.ordinal()};
    long[][] made = new long[2][];
    long[] at = new long[4];
    int status = Calls.cover(
        shape.call, wanted, shape.given, shape.rings, options, new double[] {margin, within}, made, at);
    if (status <= Refusal.SHAPE_NUMBER) throw Refusal.ofShape(status, at);
    Calls.checked(status, 0);
    return made;
  }
}
