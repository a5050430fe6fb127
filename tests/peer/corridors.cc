// Corridors of s2union_cover.h beside S2's distances: corridors N [SEED]. Random points, lines and polygons with
// margins of a meter to 300 km, and circles of 0.1 m to 20,000 km. Each place within the margin is in the outer
// covering, each outer cell is within it or at most 1% and a thousandth of its width beyond, no place of an inner cell
// is farther, and of cells of one level the nearest that aren't there are beyond.
// The last line is 'N passed, M failed'.
#include <s2/mutable_s2shape_index.h>
#include <s2/s2cell.h>
#include <s2/s2cell_union.h>
#include <s2/s2closest_edge_query.h>
#include <s2/s2edge_distances.h>
#include <s2/s2latlng.h>
#include <s2/s2lax_polygon_shape.h>
#include <s2/s2lax_polyline_shape.h>
#include <s2/s2point_vector_shape.h>
#include <s2union_cover.h>

#include <cstdio>
#include <cstdlib>
#include <memory>
#include <random>
#include <vector>

namespace {

std::mt19937_64 engine;
long passed, failed;

double Between(double low, double high) { return std::uniform_real_distribution<double>(low, high)(engine); }
int Among(int count) { return static_cast<int>(engine() % static_cast<uint64_t>(count)); }

void Check(bool holds, const char* what, int number) {
  holds ? passed++ : failed++;
  if (!holds && failed < 20) std::printf("FAILED: %s, shape %d\n", what, number);
}

S2Point PointOf(const double* at) { return S2LatLng::FromDegrees(at[1], at[0]).ToPoint(); }

S2Point Beside(const S2Point& at, double radians) { // in a random direction
  const S2Point way = S2::Ortho(at), other = at.CrossProd(way).Normalize();
  const double turn = Between(0, 2 * M_PI);
  return (at * cos(radians) + (way * cos(turn) + other * sin(turn)) * sin(radians)).Normalize();
}

struct Shape {
  std::vector<double> positions;
  std::vector<s2u_cover_ring> rings;
  s2u_cover_options options;
  bool is_polygon = false, is_circle = false;
  double radius = 0; // of a circle, in meters
  double loose = 0;  // radians: how far S2's edges may be from those on the map

  double Radians() const { return (is_circle ? radius : options.margin) / S2U_COVER_EARTH; }
};

// The places of an edge for S2: on the map, in pieces.
void AddEdge(const Shape& shape, const double* a, const double* b, std::vector<S2Point>* points) {
  const int pieces = shape.options.edges == S2U_COVER_MAP ? 400 : 1;
  for (int k = 0; k < pieces; k++) {
    const double part = static_cast<double>(k) / pieces;
    const double at[2] = {a[0] + part * (b[0] - a[0]), a[1] + part * (b[1] - a[1])};
    points->push_back(PointOf(at));
  }
}

std::vector<S2Point> PointsOf(const Shape& shape) {
  std::vector<S2Point> points;
  const size_t count = shape.positions.size() / 2;
  for (size_t n = 1; n < count; n++) AddEdge(shape, &shape.positions[2 * n - 2], &shape.positions[2 * n], &points);
  if (!shape.is_polygon) points.push_back(PointOf(&shape.positions[2 * count - 2]));
  return points;
}

void AddTo(MutableS2ShapeIndex* index, const Shape& shape) {
  const std::vector<S2Point> points = PointsOf(shape);
  if (shape.is_polygon) index->Add(std::make_unique<S2LaxPolygonShape>(std::vector<std::vector<S2Point>>{points}));
  else if (points.size() == 1) index->Add(std::make_unique<S2PointVectorShape>(points));
  else index->Add(std::make_unique<S2LaxPolylineShape>(points));
}

Shape Draw(int number) {
  static const uint64_t kCells[] = {8, 50, 200, 2000};
  Shape shape;
  const double margin = pow(10, Between(0, 5.47)), x = Between(-180, 180);
  const double y = number % 7 ? Between(-75, 75) : 90 - pow(10, Between(-4, 0));
  const int kind = number % 5;
  shape.options = {kCells[Among(4)], 0, 30, static_cast<uint32_t>(Among(2)), margin};
  shape.is_circle = kind == 4;
  shape.radius = Among(3) ? pow(10, Between(-1, 7.3)) : Between(9e6, 2e7);
  if (shape.is_circle) shape.options.margin = 0;
  shape.positions = {x, y};
  const double size = margin / S2U_COVER_EARTH * 57 * pow(10, Between(-1, 1)), wide = std::min(size, 20.0);
  const int corners = kind == 0 || kind == 4 ? 0 : 1 + Among(5);
  for (int k = 0; k < corners && kind != 3; k++) {
    const size_t n = shape.positions.size();
    const double north = shape.positions[n - 1] + wide * Between(-1, 1);
    shape.positions.push_back(shape.positions[n - 2] + wide * Between(-1, 1));
    shape.positions.push_back(std::max(-89.0, std::min(89.0, north)));
  }
  shape.is_polygon = kind == 3;
  if (shape.is_polygon) { // a star from its west, counterclockwise
    const double middle = std::max(-80 + wide, std::min(80 - wide, y));
    shape.positions.clear();
    for (int k = 0; k < 9; k++) {
      const double turn = 2 * M_PI * k / 9, far = wide * Between(0.4, 1);
      shape.positions.insert(shape.positions.end(), {x + far * cos(turn), middle + far * sin(turn)});
    }
    shape.positions.insert(shape.positions.end(), {shape.positions[0], shape.positions[1]});
  }
  for (double& longitude : shape.positions)
    if (longitude > 540 || longitude < -540) longitude = 0;
  shape.rings = {{shape.positions.size() / 2, shape.is_polygon ? 0 : S2U_COVER_LINE}};
  const double degrees = shape.options.edges == S2U_COVER_MAP && kind != 0 && kind != 4 ? wide / 400 * M_PI / 180 : 0;
  shape.loose = degrees * degrees;
  if (Among(3) == 0) { // cells of one level, not too many
    int level = 0;
    const double across = std::max(sin(std::min(shape.Radians(), M_PI / 2)) + wide * corners / 57, 1e-8);
    while (level < 28 && ldexp(1, -level) > across / 12) level++;
    shape.options.min_level = shape.options.max_level = static_cast<uint32_t>(level);
  }
  return shape;
}

void Ask(int number) {
  const Shape shape = Draw(number);
  const s2u_cover_shape given = {shape.positions.data(), shape.rings.data(), shape.rings.size()};
  s2u_cover_cells outer, inner;
  s2u_cover_fault fault;
  const int32_t status =
      shape.is_circle
          ? s2u_cover_circle(shape.positions[0], shape.positions[1], shape.radius, &shape.options, &outer, &inner,
                             &fault)
          : s2u_cover(&given, &shape.options, &outer, &inner, &fault);
  const bool is_level = shape.options.min_level > 0;
  if (status == S2U_MANY && is_level) return;
  Check(status == S2U_OK, "a covering", number);
  if (status != S2U_OK) return;
  const double radians = shape.Radians(), rounding = 2 * S2U_COVER_ROUNDING + shape.loose;
  MutableS2ShapeIndex index, border;
  AddTo(&index, shape);
  Shape line = shape;
  line.is_polygon = false;
  AddTo(&border, line);
  S2ClosestEdgeQuery query(&index), to_border(&border);
  std::vector<S2CellId> cells, within;
  for (size_t k = 0; k < outer.count; k++) cells.push_back(S2CellId(outer.ids[k]));
  for (size_t k = 0; k < inner.count; k++) within.push_back(S2CellId(inner.ids[k]));
  const S2CellUnion all(cells), inside(within);
  Check(is_level || (cells.size() <= std::max<uint64_t>(6, shape.options.max_cells) &&
                     within.size() <= shape.options.max_cells), "as many cells as allowed", number);
  for (const S2CellId id : cells) {
    S2ClosestEdgeQuery::CellTarget target{S2Cell(id)};
    const double fine = 2.4387 * ldexp(1, -id.level()) / 1024; // edges on the map may bend by less
    const double away = query.GetDistance(&target).radians();
    Check(away <= 1.01 * radians + fine + 2 * rounding, "an outer cell is near", number);
  }
  const std::vector<S2Point> points = PointsOf(shape);
  for (int k = 0; k < 400; k++) {
    const S2Point& from = points[static_cast<size_t>(Among(static_cast<int>(points.size())))];
    const S2Point at = Beside(from, std::min(M_PI, radians * (k % 2 ? Between(0.99, 1.01) : Between(0, 1.5))));
    const S2CellId leaf(at);
    S2ClosestEdgeQuery::PointTarget target(at);
    const double away = query.GetDistance(&target).radians(), border_away = to_border.GetDistance(&target).radians();
    if (away < radians * (1 - 1e-12) - shape.loose - 1e-14) Check(all.Contains(leaf), "a place is covered", number);
    if (!inside.Contains(leaf)) continue;
    if (shape.is_polygon) Check(away == 0 && border_away > radians * (1 - 1e-12) - shape.loose, "inside, away", number);
    else Check(away < radians * (1 + 1e-12) + shape.loose, "a place of an inner cell is near", number);
  }
  for (size_t k = 0; k < within.size(); k += 1 + within.size() / 300) {
    const S2Cell cell(within[k]);
    for (int n = 0; n < 8; n++) { // corners, and places of sides
      const double part = n < 4 ? 0 : Between(0, 1);
      S2Point at = (cell.GetVertex(n % 4) * (1 - part) + cell.GetVertex(n % 4 + 1) * part).Normalize();
      S2ClosestEdgeQuery::PointTarget target(at);
      const double away = query.GetDistance(&target).radians(), border_away = to_border.GetDistance(&target).radians();
      if (shape.is_polygon) Check(border_away > radians * (1 - 1e-9) - shape.loose, "an inner cell is away", number);
      else Check(away < radians * (1 + 1e-9) + shape.loose, "an inner cell lies in it", number);
    }
  }
  if (is_level) { // cells of the level that touch the covering are beyond, and what is inside by a cell is in the inner
    s2u_cover_cells wider;
    const int level = static_cast<int>(shape.options.min_level);
    Check(s2u_cover_expanded(outer.ids, outer.count, shape.options.min_level, &wider) == S2U_OK, "expanded", number);
    for (size_t k = 0; k < wider.count; k++) {
      const S2CellId id(wider.ids[k]);
      if (all.Contains(id) || id.level() < level) continue;
      S2ClosestEdgeQuery::CellTarget target{S2Cell(id)};
      const double away = query.GetDistance(&target).radians();
      Check(away > radians * (1 - 1e-12) - shape.loose - 1e-14, "no cell is missing", number);
    }
    s2u_cover_free(&wider);
    const double cell = 2.4387 * ldexp(1, -level);
    for (int k = 0; k < 100; k++) {
      const S2Point& from = points[static_cast<size_t>(Among(static_cast<int>(points.size())))];
      const S2Point at = Beside(from, Between(0, std::min(M_PI, 2 * radians)));
      S2ClosestEdgeQuery::PointTarget target(at);
      const double away = query.GetDistance(&target).radians(), border_away = to_border.GetDistance(&target).radians();
      const bool is_deep = shape.is_polygon ? away == 0 && border_away > 1.01 * radians + 1.001 * cell + rounding
                                            : away < 0.99 * radians - 1.001 * cell - rounding;
      if (is_deep) Check(inside.Contains(S2CellId(at)), "an inner cell is there", number);
    }
  }
  s2u_cover_free(&outer);
  s2u_cover_free(&inner);
}

}  // namespace

int main(int argc, char** argv) {
  const int count = argc > 1 ? std::atoi(argv[1]) : 2000;
  engine.seed(argc > 2 ? std::strtoull(argv[2], nullptr, 10) : 1);
  for (int k = 0; k < count; k++) Ask(k);
  std::printf("%ld passed, %ld failed\n", passed, failed);
  return failed > 0;
}
