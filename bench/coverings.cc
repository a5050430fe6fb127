// Coverings of polygons by S2's own coverer: coverings POLYGONS OUT CELLS LEAST MOST STEP KIND TURN writes the covering
// of each polygon with at most CELLS cells of the levels LEAST, LEAST + STEP and so on up to MOST. KIND is outer or
// inner; the polygons are first turned by TURN degrees. OUT has the number of lists in 8 bytes, and for each its length
// in 8 bytes and its identifiers.
#include <s2/s2latlng.h>
#include <s2/s2loop.h>
#include <s2/s2polygon.h>
#include <s2/s2region_coverer.h>

#include <cmath>
#include <cstdio>
#include <cstdlib>
#include <cstring>
#include <memory>

#include "workload.h"

template <typename Item>
static bool read(FILE* file, Item* items, size_t n) {
  return fread(items, sizeof(Item), n, file) == n;
}

static S2Point turned(S2Point point, double degrees) {
  double angle = degrees * M_PI / 180;
  S2Point axis = S2Point(0.3, 0.5, 0.8).Normalize();
  return (point * cos(angle) + axis.CrossProd(point) * sin(angle) + axis * axis.DotProd(point) * (1 - cos(angle)))
      .Normalize();
}

static S2Polygon polygon_of(const std::vector<double>& degrees, double turn) {
  std::vector<S2Point> points;
  for (size_t k = 0; k < degrees.size(); k += 2)
    points.push_back(turned(S2LatLng::FromDegrees(degrees[k + 1], degrees[k]).Normalized().ToPoint(), turn));
  auto loop = std::make_unique<S2Loop>(points, S2Debug::DISABLE);
  loop->Normalize();
  return S2Polygon(std::move(loop), S2Debug::DISABLE);
}

int main(int argc, char** argv) {
  if (argc != 9) return 2;
  FILE *from = fopen(argv[1], "rb"), *to = fopen(argv[2], "wb");
  S2RegionCoverer::Options options;
  options.set_max_cells(atoi(argv[3]));
  options.set_max_level(atoi(argv[5]));
  options.set_min_level(atoi(argv[4]));
  options.set_level_mod(atoi(argv[6]));
  S2RegionCoverer coverer(options);
  uint32_t count, points;
  if (from == nullptr || to == nullptr || !read(from, &count, 1)) return 1;
  u64 lists = count;
  fwrite(&lists, 8, 1, to);
  for (uint32_t k = 0; k < count; k++) {
    if (!read(from, &points, 1)) return 1;
    std::vector<double> degrees(2 * points);
    if (!read(from, degrees.data(), degrees.size())) return 1;
    S2Polygon polygon = polygon_of(degrees, atof(argv[8]));
    std::vector<S2CellId> cells;
    if (strcmp(argv[7], "inner") == 0) {
      coverer.GetInteriorCovering(polygon, &cells);
    } else {
      coverer.GetCovering(polygon, &cells);
    }
    u64 len = cells.size();
    fwrite(&len, 8, 1, to);
    fwrite(cells.data(), 8, len, to);
  }
  return fclose(to) == 0 ? 0 : 1;
}
