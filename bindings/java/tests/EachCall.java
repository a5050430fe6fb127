import java.lang.reflect.InvocationTargetException;
import java.lang.reflect.Method;
import java.lang.reflect.Modifier;
import java.nio.ByteBuffer;
import java.nio.charset.StandardCharsets;
import java.util.Arrays;
import java.util.List;
import java.util.Map;
import s2union.CellId;
import s2union.CellUnion;
import s2union.RegionCoverer;
import s2union.Shape;
import s2union.UnionFile;

/** A public call of the package with its arguments, and the object that it is a method of, if it is one. */
record EachCall(Method method, Object of, Object[] given) {
  private static final Map<String, Object[]> OWN = Map.of("denormalized", new Object[] {1, 1, Integer.MAX_VALUE},
      "fromToken", new Object[] {"1"}, "fromDebugString", new Object[] {"0/2"}, "vertexNeighbors",
      new Object[] {1L, 1});
  private static final String SQUARE =
      "{\"type\": \"Polygon\", \"coordinates\": [[[0, 0], [9, 0], [9, 9], [0, 9], [0, 0]]]}";

  /** Whether a call is about a shape as it is written: its last number is no cell. */
  boolean isOfShape() {
    return isOfShape(method);
  }

  private static boolean isOfShape(Method method) {
    return method.getName().matches("cover(Geodesic)?(GeoJson|Wkb)(UpTo)?");
  }

  private static byte[] bytesOf(double... positions) {
    ByteBuffer data = ByteBuffer.allocate(13 + 8 * positions.length);
    data.put((byte) 0).putInt(3).putInt(1).putInt(positions.length / 2);
    for (double number : positions) data.putDouble(number);
    return data.array();
  }

  /** A shape, in the form that the call takes, and few levels. */
  private static Object[] ofShape(Method method) {
    Object text = method.getParameterTypes()[0] == String.class ? SQUARE : SQUARE.getBytes(StandardCharsets.UTF_8);
    boolean isWkb = method.getName().contains("Wkb");
    Object most = method.getParameterTypes()[2] == int.class ? (Object) 1000 : CellUnion.MAP_WORK;
    return new Object[] {isWkb ? bytesOf(0, 0, 9, 0, 9, 9, 0, 9, 0, 0) : text, 2, most};
  }

  /** All of them, about a union of leaves: what an argument is follows from its type. */
  static List<EachCall> about(CellUnion union) {
    byte[] bytes = union.encode();
    UnionFile file = new UnionFile(bytes);
    int[] points = new int[3 * union.size()];
    RegionCoverer coverer = new RegionCoverer().maxCells(9);
    Map<Class<?>, Object> words = Map.ofEntries(Map.entry(long.class, 0x1000000000000000L), Map.entry(int.class, 1),
        Map.entry(long[].class, union.cellIds()), Map.entry(byte[].class, bytes), Map.entry(int[].class, points),
        Map.entry(String.class, union.toString()), Map.entry(Iterable.class, List.of(union, union)),
        Map.entry(CellUnion.class, union), Map.entry(UnionFile.class, file), Map.entry(Object.class, CellUnion.of(1)),
        Map.entry(double.class, 1.5), Map.entry(double[].class, new double[2 * union.size()]),
        Map.entry(Shape.class, Shape.polygons(CellUnion.of(5, 91).outline())));
    Map<Class<?>, Object> owners =
        Map.of(CellUnion.class, union, CellId.class, file, UnionFile.class, file, RegionCoverer.class, coverer);
    return owners.keySet().stream().map(Class::getDeclaredMethods)
        .flatMap(Arrays::stream).filter(method -> Modifier.isPublic(method.getModifiers()) && !method.isBridge())
        .filter(method -> method.getReturnType() != RegionCoverer.class)
        .map(method -> new EachCall(method, owners.get(method.getDeclaringClass()),
            isOfShape(method) ? ofShape(method) : OWN.getOrDefault(method.getName(),
                Arrays.stream(method.getParameterTypes()).map(words::get).toArray())))
        .toList();
  }

  /** The same call with another argument at a place. */
  EachCall with(int place, Object argument) {
    Object[] others = given.clone();
    others[place] = argument;
    return new EachCall(method, of, others);
  }

  /** What it answers; what it throws is thrown. */
  Object answer() {
    try {
      return method.invoke(of, given);
    } catch (InvocationTargetException error) {
      if (error.getCause() instanceof RuntimeException refusal) throw refusal;
      throw (Error) error.getCause();
    } catch (IllegalAccessException error) {
      throw new AssertionError(error);
    }
  }

  /** Whether an answer is this one, all of it. */
  static boolean isSame(Object one, Object other) {
    return Arrays.deepEquals(new Object[] {one}, new Object[] {other});
  }

  @Override
  public String toString() {
    return method.getDeclaringClass().getSimpleName() + "." + method.getName();
  }
}
