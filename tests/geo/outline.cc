// The area in square radians and the boundary of unions, by S2: outline FILE... For each file a line has its area and
// how many lines its boundary has, and a line for each of these its corners, as longitude and latitude in turn.
#include <s2/encoded_s2point_vector.h>
#include <s2/s2cell_union.h>
#include <s2/s2latlng.h>
#include <s2/s2polygon.h>
#include <cstdio>
#include <fstream>
#include <iterator>
#include <string>

int main(int count, char** files) {
  for (int k = 1; k < count; k++) {
    std::ifstream in(files[k], std::ios::binary);
    std::string bytes((std::istreambuf_iterator<char>(in)), {});
    Decoder decoder(bytes.data(), bytes.size());
    S2CellUnion cells;
    if (!cells.Decode(&decoder)) return 1;
    S2Polygon polygon;
    polygon.InitToCellUnionBorder(cells);
    std::printf("%.17g %d\n", cells.ExactArea(), polygon.num_loops());
    for (int loop = 0; loop < polygon.num_loops(); loop++) {
      for (int at = 0; at < polygon.loop(loop)->num_vertices(); at++) {
        S2LatLng corner(polygon.loop(loop)->vertex(at));
        std::printf("%s%.17g %.17g", at ? " " : "", corner.lng().degrees(), corner.lat().degrees());
      }
      std::puts("");
    }
  }
}
