// Coverings of polygons by S2RegionCoverer, by the library for C and by hand-written C++, of the same corners:
// polygons COUNTRIES.geojson PROVINCES.geojson COASTS.polygons [WORD [ROUNDS]].
//
// At one level all make the same cells, and a row counts only if they do. S2's index is built before, except in the
// rows 'fresh', where S2 begins with its points, and the library with S2's polygon, by PolygonOf. Of at most N cells
// each makes its own; there the row counts if outer ones have the leaves of all corners, and S2 has the middles of all
// cells of inner ones inside. A line tells the cells and the area.
#include "rings.h"

#include <s2/s2region_coverer.h>
#include <s2union.hpp>

#include <random>

#include "lanes.h"

static List ids_of(const std::vector<S2CellId>& cells) {
  List ids;
  for (S2CellId cell : cells) ids.push_back(cell.id());
  return ids;
}

static s2union::Polygon polygon_called(const S2Polygon& of) { return s2union::CellUnionOf<S2CellId>::PolygonOf(of); }

// A polygon in the three forms.
struct Shape {
  std::vector<Ring> rings;
  std::unique_ptr<S2Polygon> polygon;
  Given given;
  s2union::Polygon called;

  explicit Shape(const std::vector<Ring>& of)
      : rings(of),
        polygon(polygon_of(of)),
        given(of, far_leaf(of).id()),
        called(polygon_called(*polygon)) {}

  bool is_small() const { return !polygon->Contains(S2CellId(given.outside).ToPoint()); }
};

using Shapes = std::vector<Shape>;

// The question: all cells of one level, or a few cells of level 30 or less; outer cells, or inner ones.
struct Asked {
  int level;
  size_t most;
  bool is_outer;
};

static std::vector<S2CellId> peer_ids(const List& ids) {
  std::vector<S2CellId> cells;
  for (u64 id : ids) cells.push_back(S2CellId(id));
  return cells;
}

static List peer_cells(const S2Polygon& polygon, const Asked& asked) {
  S2RegionCoverer::Options options;
  options.set_max_level(asked.level);
  options.set_max_cells(asked.most ? static_cast<int>(asked.most) : 1 << 30);
  S2RegionCoverer coverer(options);
  S2CellUnion made = asked.is_outer ? coverer.GetCovering(polygon) : coverer.GetInteriorCovering(polygon);
  return ids_of(made.cell_ids());
}

static List plain_cells(const Given& given, const Asked& asked) {
  limit::Polygon plain = given.plain();
  if (asked.most) return asked.is_outer ? plain.outer_up_to(asked.most, asked.level)
                                        : plain.inner_up_to(asked.most, asked.level);
  return asked.is_outer ? plain.outer(asked.level) : plain.inner(asked.level);
}

// By the call, into room that is there.
static List called_cells(const s2union::Polygon& of, const Asked& asked, List& room) {
  const s2u_direction* corners = of.corners.data();
  size_t n = of.corners.size(), lists = of.ends.size(), len = 0;
  int32_t status;
  if (asked.most) {
    auto call = asked.is_outer ? s2u_polygon_outer_up_to : s2u_polygon_inner_up_to;
    status = call(corners, n, of.ends.data(), lists, of.outside, 0, 0, asked.level, asked.most, room.data(),
                  room.size(), &len);
  } else {
    auto call = asked.is_outer ? s2u_polygon_outer : s2u_polygon_inner;
    status = call(corners, n, of.ends.data(), lists, of.outside, 0, asked.level, S2U_MOST_COVERING, room.data(),
                  room.size(), &len);
  }
  if (status != S2U_OK) {
    fprintf(stderr, "a covering: %s\n", s2u_status_text(status));
    exit(1);
  }
  return List(room.begin(), room.begin() + len);
}

// How many of the inner coverings have cells whose middles lie inside, as each has to.
static u64 with_middles(const Shapes& shapes, const std::vector<List>& made) {
  u64 count = 0;
  for (size_t k = 0; k < shapes.size(); k++) {
    bool all_inside = true;
    for (S2CellId cell : peer_ids(made[k])) all_inside = all_inside && shapes[k].polygon->Contains(cell.ToPoint());
    count += all_inside;
  }
  return count;
}

// How many of the outer coverings have the leaves of all corners, as each has to.
static u64 with_corners(const Shapes& shapes, const std::vector<List>& made) {
  u64 count = 0;
  for (size_t k = 0; k < shapes.size(); k++) {
    S2CellUnion cells = S2CellUnion::FromVerbatim(peer_ids(made[k]));
    bool has_all = true;
    for (const Ring& ring : shapes[k].rings)
      for (const S2Point& corner : ring) has_all = has_all && cells.Contains(S2CellId(corner));
    count += has_all;
  }
  return count;
}

class Bench {
 public:
  Bench(Lanes& lanes, const std::string& name, Shapes shapes)
      : lanes_(lanes), name_(name), shapes_(std::move(shapes)), room_(S2U_MOST_COVERING) {}

  void at_level(int level, bool is_outer, bool is_fresh = false) {
    row(std::string(is_outer ? "outer_" : "inner_") + std::to_string(level) + (is_fresh ? "_fresh" : ""),
        {level, 0, is_outer}, is_fresh);
  }

  void at_most(size_t most, bool is_outer, bool is_fresh = false) {
    row((is_outer ? "outer_of_" : "inner_of_") + std::to_string(most) + (is_fresh ? "_fresh" : ""),
        {30, most, is_outer}, is_fresh);
  }

 private:
  void row(const std::string& what, const Asked& asked, bool is_fresh) {
    const std::string name = name_ + "_" + what;
    std::array<std::vector<List>, WAYS> made;
    auto side = [&](Way way, auto work) {
      made[way].resize(shapes_.size());
      return Side{[this, &made, way, work] {
                    for (size_t k = 0; k < shapes_.size(); k++) made[way][k] = work(shapes_[k]);
                  },
                  [this, &made, way, asked] {
                    if (!asked.most) return sum_of(made[way]);
                    return asked.is_outer ? with_corners(shapes_, made[way]) : with_middles(shapes_, made[way]);
                  }};
    };
    std::array<Side, WAYS> sides;
    sides[PEER] = side(PEER, [&](const Shape& it) {
      return is_fresh ? peer_cells(*polygon_of(it.rings), asked) : peer_cells(*it.polygon, asked);
    });
    sides[CALL] = side(CALL, [&](const Shape& it) {
      return called_cells(is_fresh ? polygon_called(*it.polygon) : it.called, asked, room_);
    });
    sides[LIMIT] = side(LIMIT, [&](const Shape& it) { return plain_cells(it.given, asked); });
    lanes_.row({name.c_str(), shapes_.size(), 0}, sides);
    if (asked.most && !made[CALL].empty() && !made[CALL][0].empty()) tell_areas(made);
  }

  static u64 sum_of(const std::vector<List>& lists) {
    Sum sum;
    for (const List& list : lists) sum.add_all(list);
    return sum.value();
  }

  void tell_areas(const std::array<std::vector<List>, WAYS>& made) const {
    size_t cells[WAYS] = {};
    double worst = 0, area[WAYS] = {};
    for (size_t k = 0; k < shapes_.size(); k++) {
      double each[WAYS];
      for (int way = 0; way < WAYS; way++) {
        S2CellUnion of(peer_ids(made[way][k]));
        area[way] += each[way] = of.ApproxArea();
        cells[way] += of.num_cells();
      }
      worst = std::max(worst, each[CALL] / each[PEER]);
    }
    printf("  cells %zu, S2 %zu; area by S2's %.3f, the worst %.2f\n", cells[CALL], cells[PEER],
           area[CALL] / area[PEER], worst);
  }

  Lanes& lanes_;
  std::string name_;
  Shapes shapes_;
  List room_;
};

// The polygons of a file, a shape of each feature.
static Shapes shapes_of(const char* file) {
  nlohmann::json document;
  std::ifstream(file) >> document;
  Shapes shapes;
  for (const auto& feature : document["features"]) {
    Shape shape(rings_of(feature["geometry"]));
    if (shape.is_small()) shapes.push_back(std::move(shape));
  }
  return shapes;
}

// The largest polygons of a file that coastlines.py has written.
static Shapes coasts(const char* file, size_t most) {
  std::ifstream in(file, std::ios::binary);
  Shapes shapes;
  uint32_t count = 0, points;
  in.read(reinterpret_cast<char*>(&count), sizeof count);
  for (uint32_t k = 0; k < count && shapes.size() < most; k++) {
    in.read(reinterpret_cast<char*>(&points), sizeof points);
    std::vector<std::array<double, 2>> positions(points);
    in.read(reinterpret_cast<char*>(positions.data()), points * sizeof positions[0]);
    Shape shape({ring_of(positions)});
    if (shape.is_small()) shapes.push_back(std::move(shape));
  }
  return shapes;
}

// A ring of edges around a place, some 1,200 km wide, whose way in and out drifts as a coast does.
static Shapes noisy_ring(size_t edges) {
  std::mt19937_64 generator(7);
  std::normal_distribution<double> step;
  double drift = 0;
  Ring ring;
  for (size_t k = 0; k < edges; k++) {
    drift = 0.999 * drift + 0.01 * step(generator);
    double turn = 2 * M_PI * k / edges, far = 0.1 * (1 + 0.2 * std::tanh(drift));
    S2LatLng place = S2LatLng::FromRadians(0.7 + far * std::sin(turn), 0.3 + far * std::cos(turn) / std::cos(0.7));
    ring.push_back(point(rounded(place.ToPoint())));
  }
  Shapes shapes;
  shapes.emplace_back(std::vector<Ring>{ring});
  return shapes;
}

int main(int argc, char** argv) {
  if (argc < 4) return 2;
  Lanes lanes(argc > 4 ? argv[4] : "", argc > 5 ? atoi(argv[5]) : 5);
  for (const std::string name : {"countries", "provinces", "coasts"}) {
    const bool are_countries = name == "countries", are_coasts = name == "coasts";
    Bench bench(lanes, name, are_coasts ? coasts(argv[3], 200) : shapes_of(argv[are_countries ? 1 : 2]));
    for (bool is_outer : {true, false})
      for (bool is_fresh : {false, true}) {
        for (int level : {4, 6, 8, 10, 12})
          if (are_countries || (are_coasts && level < 12)) bench.at_level(level, is_outer, is_fresh);
        for (size_t most : {8, 20, 50, 200, 1000}) bench.at_most(most, is_outer, is_fresh);
      }
  }
  for (size_t edges : {11, 100, 1000, 10000, 100000, 1000000}) {
    Bench bench(lanes, "ring_" + std::to_string(edges), noisy_ring(edges));
    for (bool is_fresh : {false, true}) {
      bench.at_level(12, true, is_fresh);
      for (size_t most : {8, 50}) bench.at_most(most, true, is_fresh);
    }
  }
  return lanes.status();
}
