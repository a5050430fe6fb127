import java.io.IOException;
import java.nio.charset.StandardCharsets;
import java.nio.file.Files;
import java.nio.file.Path;
import java.util.Arrays;
import java.util.HexFormat;
import java.util.List;
import java.util.Locale;
import java.util.stream.Collectors;
import java.util.stream.LongStream;
import s2union.CellUnion;
import s2union.Refusal;
import s2union.RegionCoverer;

/**
 * Asks the package for Java for the coverings of the texts and bytes of tests/model/maps.py: java Maps FILE. The last
 * line is 'N passed, M failed'.
 */
final class Maps extends Checks {
  private Maps() {}

  private static String shown(CellUnion union) {
    return LongStream.of(union.cellIds()).mapToObj(Long::toHexString).collect(Collectors.joining(" "));
  }

  private static RegionCoverer.Coverings covered(String call, byte[] data, int level, long most) {
    int cells = (int) most;
    if (call.equals("map_wkb")) return CellUnion.coverWkb(data, level, most);
    if (call.equals("geodesic_wkb")) return CellUnion.coverGeodesicWkb(data, level, cells);
    if (call.equals("map_wkb_up_to")) return CellUnion.coverWkbUpTo(data, level, cells);
    String text = new String(data, StandardCharsets.UTF_8);
    boolean isText = Arrays.equals(text.getBytes(StandardCharsets.UTF_8), data);
    if (call.equals("map_geojson_up_to")) {
      return isText ? CellUnion.coverGeoJsonUpTo(text, level, cells) : CellUnion.coverGeoJsonUpTo(data, level, cells);
    }
    if (call.equals("map_geojson")) {
      return isText ? CellUnion.coverGeoJson(text, level, most) : CellUnion.coverGeoJson(data, level, most);
    }
    return isText ? CellUnion.coverGeodesicGeoJson(text, level, cells)
        : CellUnion.coverGeodesicGeoJson(data, level, cells);
  }

  private static String answer(String call, byte[] data, int level, long most) {
    try {
      RegionCoverer.Coverings found = covered(call, data, level, most);
      return shown(found.outer()) + "\t" + shown(found.inner());
    } catch (Refusal refusal) {
      if (refusal.kind() != Refusal.Kind.SHAPE) {
        check(refusal.shapeFault() == null && refusal.offset() == 0 && refusal.part() == 0, "no fault");
        return "!" + refusal.kind().name().toLowerCase(Locale.ROOT);
      }
      String place = String.format("byte %d, part %d, ring %d, position %d", refusal.offset(), refusal.part(),
          refusal.ring(), refusal.place());
      check(refusal.getMessage().endsWith(": " + place) && refusal.status() == Refusal.SHAPE, refusal.getMessage());
      String name = refusal.shapeFault().name().toLowerCase(Locale.ROOT);
      return String.format("!%s %d %d %d %d", name, refusal.offset(), refusal.part(), refusal.ring(), refusal.place());
    }
  }

  public static void main(String[] words) throws IOException {
    for (String line : Files.readAllLines(Path.of(words[0]))) {
      List<String> fields = Arrays.asList(line.split("\t", -1));
      byte[] data = HexFormat.of().parseHex(fields.get(1));
      String found = answer(fields.get(0), data, Integer.parseInt(fields.get(2)), Long.parseLong(fields.get(3)));
      check(found.equals(String.join("\t", fields.subList(4, fields.size()))), line);
    }
    end();
  }
}
