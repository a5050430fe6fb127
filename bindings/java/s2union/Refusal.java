package s2union;

/**
 * A refusal of the library, with its words, its kind, and the place that it reports. Out of memory is an
 * {@link OutOfMemoryError}.
 *
 * <pre>{@code
 * try {
 *   return CellUnion.decode(bytes);
 * } catch (Refusal refusal) {
 *   if (refusal.kind() == Refusal.Kind.FILE_SHORT) return readOn();
 *   throw refusal;
 * }
 * }</pre>
 *
 * @since 1.1
 */
public final class Refusal extends IllegalArgumentException {
  /**
   * The kind of an error, by the name that it has in s2union.h.
   *
   * @since 1.2
   */
  public enum Kind {
    /** A number is not a cell, or a text names none. */
    NO_CELL(-3),
    /** A list is not normalized. */
    NO_UNION(-4),
    /** A level, coordinate, modulus or place is out of range. */
    ARGUMENT(-5),
    /** The result would have more cells than are allowed, or than an array can have. */
    MANY(-6),
    /** Bytes of a file are missing. */
    FILE_SHORT(-10),
    /** The first byte of a file is not 1. */
    FILE_VERSION(-11),
    /** Bytes follow the last cell of a file. */
    FILE_TRAILING(-12),
    /** A number in a file is not a cell. */
    FILE_CELL(-13),
    /** A corner of a polygon is no direction, or lies opposite the next corner of its ring. */
    CORNER(-14),
    /** A ring of a polygon ends in a wrong place or has fewer than three corners, or there is none. */
    RING(-15),
    /** A text or bytes are no shape of polygons, whose {@link Refusal#shapeFault} says why. */
    SHAPE(-16),
    /** A longitude or a latitude is out of range, or not a number. */
    SHAPE_NUMBER(-101),
    /** A ring has fewer than four positions, or a line none. */
    SHAPE_FEW(-102),
    /** The last position of a ring is not its first. */
    SHAPE_OPEN(-103),
    /** The edges are too long for the number of positions. */
    SHAPE_PIECES(-104),
    /** No place was found that is outside of the shape. */
    SHAPE_OUTSIDE(-105),
    /** Two positions that follow each other lie opposite each other on the sphere. */
    SHAPE_OPPOSITE(-106),
    /** A number of cells, a level or a number of meters is out of range. */
    SHAPE_OPTION(-107),
    /** The bytes are no WKB. */
    SHAPE_WKB(-108),
    /** The WKB has a type of geometry that has no covering. */
    SHAPE_TYPE(-109),
    /** The coordinates of the WKB are no degrees: its SRID is neither 0 nor 4326. */
    SHAPE_SRID(-110),
    /** The WKB has collections in more than 32 collections. */
    SHAPE_DEEP(-111),
    /** An error of a later version of the library. */
    OTHER(0);

    private final int status;

    Kind(int status) {
      this.status = status;
    }

    private static Kind of(int status) {
      for (Kind kind : values()) {
        if (kind.status == status) return kind;
      }
      return OTHER;
    }
  }

  /**
   * Why a text of GeoJSON, or bytes of WKB, are no shape of polygons.
   *
   * @since 1.5
   */
  public enum Fault {
    // numbers: of the faults
    /** A fault of a later version of the library. */
    OTHER("unknown fault");

    private final String text;

    Fault(String text) {
      this.text = text;
    }

    private static Fault of(long number) {
      return number > 0 && number < values().length ? values()[(int) number - 1] : OTHER;
    }
  }

  /** A number is not a cell, or a text names none. */
  public static final int NO_CELL = -3;
  /** A list is not normalized. */
  public static final int NO_UNION = -4;
  /** A level, coordinate, modulus or place is out of range. */
  public static final int ARGUMENT = -5;
  /** The result would have more cells than are allowed, or than an array can have. */
  public static final int MANY = -6;
  /** Bytes of a file are missing. */
  public static final int FILE_SHORT = -10;
  /** The first byte of a file is not 1. */
  public static final int FILE_VERSION = -11;
  /** Bytes follow the last cell of a file. */
  public static final int FILE_TRAILING = -12;
  /** A number in a file is not a cell. */
  public static final int FILE_CELL = -13;
  /** A corner of a polygon is no direction, or lies opposite the next corner of its ring. */
  public static final int CORNER = -14;
  /** A ring of a polygon ends in a wrong place or has fewer than three corners, or there is none. */
  public static final int RING = -15;
  /** A text or bytes are no shape of polygons. */
  public static final int SHAPE = -16;
  /** A longitude or a latitude is out of range, or not a number. */
  public static final int SHAPE_NUMBER = -101;
  /** A ring has fewer than four positions, or a line none. */
  public static final int SHAPE_FEW = -102;
  /** The last position of a ring is not its first. */
  public static final int SHAPE_OPEN = -103;
  /** The edges are too long for the number of positions. */
  public static final int SHAPE_PIECES = -104;
  /** No place was found that is outside of the shape. */
  public static final int SHAPE_OUTSIDE = -105;
  /** Two positions that follow each other lie opposite each other on the sphere. */
  public static final int SHAPE_OPPOSITE = -106;
  /** A number of cells, a level or a number of meters is out of range. */
  public static final int SHAPE_OPTION = -107;
  /** The bytes are no WKB. */
  public static final int SHAPE_WKB = -108;
  /** The WKB has a type of geometry that has no covering. */
  public static final int SHAPE_TYPE = -109;
  /** The coordinates of the WKB are no degrees: its SRID is neither 0 nor 4326. */
  public static final int SHAPE_SRID = -110;
  /** The WKB has collections in more than 32 collections. */
  public static final int SHAPE_DEEP = -111;

  private static final int NO_GEOJSON = -112;
  private static final long serialVersionUID = 1;
  /** The status of s2union.h. */
  private final int status;
  /** The place that the library reports, or 0. */
  private final long place;
  /** The ring of a shape, or 0. */
  private final long ring;
  /** The fault of a text or of bytes, or null. */
  private final Fault fault;
  /** How many bytes come before it, or 0. */
  private final long offset;
  /** How many points, lines and polygons come before it, or 0. */
  private final long part;

  Refusal(int status, long place) {
    super(words(status));
    this.status = status;
    this.place = place;
    this.ring = 0;
    this.fault = null;
    this.offset = 0;
    this.part = 0;
  }

  /** Of a text or of bytes, whose fault has these numbers: its name, byte, part, ring and position. */
  Refusal(long[] numbers) {
    super(Fault.of(numbers[0]).text + ": byte " + numbers[1] + ", part " + numbers[2] + ", ring " + numbers[3]
        + ", position " + numbers[4]);
    this.status = SHAPE;
    this.fault = Fault.of(numbers[0]);
    this.offset = numbers[1];
    this.part = numbers[2];
    this.ring = numbers[3];
    this.place = numbers[4];
  }

  /** Of a shape in degrees, at a ring and a position, or at a byte of WKB. */
  Refusal(int status, long ring, long position) {
    super(words(status) + whereOf(status, ring, position));
    this.status = status;
    this.place = position;
    this.ring = ring;
    this.fault = null;
    this.offset = 0;
    this.part = 0;
  }

  /** Of a shape in degrees, by its ring, its position, and the name and the part of what can't be read. */
  static Refusal ofShape(int status, long[] at) {
    if (status != NO_GEOJSON) return new Refusal(status, at[0], at[1]);
    return new Refusal(new long[] {at[2], 0, at[3], at[0], at[1]});
  }

  private static String whereOf(int status, long ring, long position) {
    if (status <= SHAPE_WKB) return ": at byte " + position;
    boolean hasPlace = status >= SHAPE_OPEN && status <= SHAPE_NUMBER || status == SHAPE_OPPOSITE;
    return hasPlace ? ": ring " + ring + ", position " + position : "";
  }

  private static String words(int status) {
    switch (status) {
      case -1: return "too little room";
      case -3: return "not a cell";
      case -4: return "not a normalized list of cells";
      case -5: return "argument out of range";
      case -6: return "too many cells";
      case -10: return "union file: bytes are missing";
      case -11: return "union file: unknown version";
      case -12: return "union file: bytes after the last cell";
      case -13: return "union file: a number that is not a cell";
      case -14: return "a corner of a polygon is no direction, or lies opposite the next one";
      case -15: return "a ring of a polygon has a wrong end or fewer than three corners";
      case -16: return "a text or bytes are no shape of polygons";
      default: return status <= SHAPE_NUMBER ? Calls.shapeText(status) : "unknown refusal " + status;
    }
  }

  /**
   * The kind of the error, for a {@code switch}.
   *
   * @return a kind, never null
   * @since 1.2
   */
  public Kind kind() {
    return Kind.of(status);
  }

  /**
   * The kind of the error, as a number.
   *
   * @return the status of s2union.h, a constant of this class
   * @since 1.1
   */
  public int status() {
    return status;
  }

  /**
   * The place of the first number of a list that is wrong, or of the byte at which the first wrong word of a text
   * begins; of a shape the position in its ring, or the byte of WKB.
   *
   * @return 0 or more; 0 where one number or level is refused
   * @since 1.1
   */
  public long place() {
    return place;
  }

  /**
   * The ring or the line of a shape that is wrong, at the position {@code place()}.
   *
   * @return how many rings and lines come before it; 0 where no ring is wrong
   * @since 1.4
   */
  public long ring() {
    return ring;
  }

  /**
   * Why a text of GeoJSON, or bytes of WKB, are no shape of polygons.
   *
   * @return null of another kind than {@code SHAPE}
   * @since 1.5
   */
  public Fault shapeFault() {
    return fault;
  }

  /**
   * How many bytes of WKB come before its fault.
   *
   * @return 0 of a text, and of another kind than {@code SHAPE}
   * @since 1.5
   */
  public long offset() {
    return offset;
  }

  /**
   * How many points, lines and polygons come before its fault.
   *
   * @return 0 of another kind than {@code SHAPE}
   * @since 1.5
   */
  public long part() {
    return part;
  }
}
