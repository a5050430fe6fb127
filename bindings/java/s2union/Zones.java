package s2union;

import java.lang.ref.Cleaner;

/**
 * Polygons that are asked which of them have which places, exactly, also beside their borders. They take a copy of each
 * shape. Edges are straight on the map. Threads may share zones, and ask them one after the other. A call that gets no
 * memory throws an {@link OutOfMemoryError}.
 *
 * @since 1.5
 */
public final class Zones {
  /**
   * Places, and for each a zone that has it, by their numbers.
   *
   * @param places the numbers of places among those that were asked, from 0 on
   * @param zones the number of the zone of each, as {@code add} answered it
   * @since 1.5
   */
  public record Pairs(int[] places, int[] zones) {}

  private static final Cleaner CLEANER = Cleaner.create();

  /** Where the zones lie in the memory of C. */
  private final long made;
  private int count;

  /**
   * Zones of shapes, whose numbers are their places, or none.
   *
   * <pre>{@code
   * new Zones().pairs(new double[] {2.35}, new double[] {48.86}, true).places().length // 0
   * }</pre>
   *
   * @param shapes the shapes, as {@code add} takes them
   * @throws Refusal the kinds of {@code add}
   * @since 1.5
   */
  public Zones(Shape... shapes) {
    made = Calls.zones();
    if (made == 0) Calls.checked(Calls.MEMORY, 0);
    CLEANER.register(this, freeing(made));
    for (Shape shape : shapes) add(shape);
  }

  /** What frees zones, which may not hold them. */
  private static Runnable freeing(long made) {
    return () -> Calls.freeZones(made);
  }

  /**
   * Adds a zone. After an error the zones are as they were.
   *
   * <pre>{@code
   * new Zones().add(Shape.box(177, -19, -179, -16)) // 0
   * }</pre>
   *
   * @param shape any shape but a circle
   * @return its number, which is 0 for the first
   * @throws Refusal {@link Refusal.Kind#ARGUMENT} of a circle, or of a box that ends south of where it begins, or
   *     another kind whose name begins with {@code SHAPE}; {@code ring()} and {@code place()} say where the shape is
   *     wrong
   * @since 1.5
   */
  public synchronized int add(Shape shape) {
    long[] at = new long[4];
    int status = Calls.addZone(made, shape.call, shape.given, shape.rings, at);
    if (status <= Refusal.SHAPE_NUMBER) throw Refusal.ofShape(status, at);
    Calls.checked(status, 0);
    return count++;
  }

  /**
   * Each place and each zone that has it, in the order of places, and of zones for each: an exact join. A place takes a
   * step for each zone in whose box it lies, and for each edge there at its longitude.
   *
   * <pre>{@code
   * new Zones(Shape.box(2, 48, 3, 49), Shape.polygon(new double[] {2, 48, 4, 48, 4, 50, 2, 48}))
   *     .pairs(new double[] {2.7, 0, 2.5}, new double[] {48.5, 0, 48.9}, true).places()[2] // 2
   * }</pre>
   *
   * @param longitudes of the places, -540 to 540
   * @param latitudes of the places, -90 to 90
   * @param borders whether a place on a border is in the zone; else it is in none of the polygons that have that
   *     border, and lines have no place
   * @return the pairs
   * @throws Refusal {@link Refusal.Kind#ARGUMENT} if there are more longitudes than latitudes, or fewer, or
   *     {@link Refusal.Kind#SHAPE_NUMBER} if a place is out of range; {@code place()} is its number
   * @since 1.5
   */
  public synchronized Pairs pairs(double[] longitudes, double[] latitudes, boolean borders) {
    if (longitudes.length != latitudes.length) throw new Refusal(Refusal.ARGUMENT, 0);
    int[][] pairs = new int[2][];
    long[] bad = new long[1];
    int status = Calls.pairs(made, longitudes, latitudes, borders, pairs, bad);
    if (status == Refusal.ARGUMENT) throw new Refusal(Refusal.SHAPE_NUMBER, bad[0]);
    Calls.checked(status, 0);
    return new Pairs(pairs[0], pairs[1]);
  }
}
