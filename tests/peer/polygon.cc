// Polygons with S2's answers, as rows for the program test_library: polygon [RINGS [SEED [COUNTRIES.geojson]]].
//
// Random rings of five kinds, whose corners lie on axes, on diagonals, at corners of cells, or anywhere, and which
// cross themselves: leaves by S2Loop::Contains, and coverings of the levels 0 to 5 by hand-written C++. The countries:
// their coverings by S2RegionCoverer, cell by cell, outer and inner, at five levels.
#include "rings.h"

#include <s2/s2edge_distances.h>
#include <s2/s2region_coverer.h>

#include <random>

using Generator = std::mt19937_64;

static const double NEAR = 4e-9;  // in radians: what rounding a corner may move

static S2Point anywhere(Generator& generator) {
  std::normal_distribution<double> of;
  return S2Point(of(generator), of(generator), of(generator)).Normalize();
}

static List ids_of(const S2CellUnion& cells) {
  List ids;
  for (S2CellId cell : cells) ids.push_back(cell.id());
  return ids;
}

// A polygon as the rows have it.
static std::string text_of(const Given& given) {
  std::string text = "0 " + S2CellId(given.outside).ToToken();
  for (size_t ring = 0, k = 0; ring < given.ends.size(); ring++) {
    text += " /";
    for (; k < given.ends[ring]; k++)
      for (int64_t number : {given.corners[k].x, given.corners[k].y, given.corners[k].z})
        text += " " + std::to_string(number);
  }
  return text;
}

// The rows, one for each polygon.
class Rows {
 public:
  void row(const std::string& title) { text_ += "\n## " + title + "\n", rows_++; }

  void ask(const std::string& question, const Given& given, const std::string& answer) {
    text_ += "? polygon " + question + " / " + text_of(given) + "\n" + answer + "\n";
  }

  void ask_cells(const std::string& kind, int level, const Given& given, const List& cells) {
    std::string answer = "cells";
    for (u64 id : cells) answer += " " + S2CellId(id).ToToken();
    ask(kind + " " + std::to_string(level) + " 1000000", given, answer);
  }

  void print() const { printf("$ rows %zu\n%s", rows_, text_.c_str()); }

 private:
  std::string text_;
  size_t rows_ = 0;
};

class Corners {
 public:
  Corners(Generator& generator, int kind) : generator_(generator), kind_(kind) {}

  S2Point next() {
    for (;;) {
      S2Point p = candidate();
      if (p.Norm2() > 0) return point(rounded(p.Normalize()));
    }
  }

 private:
  int below(int n) { return static_cast<int>(generator_() % n); }

  S2Point candidate() {
    switch (kind_) {
      case 0: return S2Point(below(3) - 1, below(3) - 1, below(3) - 1);
      case 1: return S2LatLng::FromDegrees((below(5) - 2) * 45, (below(9) - 4) * 45).ToPoint();
      case 2: return S2Point(below(5) - 2, below(5) - 2, below(5) - 2);
      case 3: return S2CellId(generator_() % 6 << 61 | (generator_() >> 3) | 1).parent(below(5)).ToPointRaw();
      default: return anywhere(generator_);
    }
  }

  Generator& generator_;
  int kind_;
};

// A ring without neighbors that are the same or lie opposite each other; empty if the corners that came don't make one.
static Ring random_ring(Generator& generator) {
  Corners corners(generator, generator() % 5);
  Ring ring;
  for (int n = 3 + generator() % 10; n > 0; n--) {
    S2Point p = corners.next();
    bool is_new = true;
    for (const S2Point& other : ring) is_new = is_new && p != other && p != -other;
    if (is_new) ring.push_back(p);
  }
  bool is_ring = ring.size() >= 3;
  for (size_t k = 0; is_ring && k < ring.size(); k++) is_ring = (ring[k] + ring[(k + 1) % ring.size()]).Norm() > 1e-6;
  return is_ring ? ring : Ring();
}

static S2CellId leaf_near(Generator& generator, const Ring& ring) {
  switch (generator() % 3) {
    case 0: return S2CellId(anywhere(generator));
    case 1: {
      double by = std::pow(10, -8.0 + generator() % 8);
      return S2CellId((ring[generator() % ring.size()] + by * anywhere(generator)).Normalize());
    }
    default: return S2CellId((Corners(generator, 0).next() + 1e-7 * anywhere(generator)).Normalize());
  }
}

static bool is_near(const Ring& ring, const S2Point& p) {
  for (size_t k = 0; k < ring.size(); k++)
    if (S2::GetDistance(p, ring[k], ring[(k + 1) % ring.size()]).radians() < NEAR) return true;
  return false;
}

static void hostile(Generator& generator, int rings, Rows& rows) {
  for (int n = 0; n < rings; n++) {
    Ring ring = random_ring(generator);
    if (ring.empty()) continue;
    S2Loop loop(ring, S2Debug::DISABLE);
    S2CellId first = leaf_near(generator, ring);
    while (is_near(ring, first.ToPoint())) first = leaf_near(generator, ring);
    Given given({ring}, first.id());
    rows.row("ring " + std::to_string(n));
    for (int k = 0; k < 60; k++) {
      S2CellId leaf = leaf_near(generator, ring);
      if (is_near(ring, leaf.ToPoint())) continue;
      bool is_inside = loop.Contains(leaf.ToPoint()) != loop.Contains(first.ToPoint());
      rows.ask("holds " + leaf.ToToken(), given, is_inside ? "yes" : "no");
    }
    limit::Polygon plain = given.plain();
    for (int level = 0; level <= 5; level++) {
      rows.ask_cells("outer", level, given, plain.outer(level));
      rows.ask_cells("inner", level, given, plain.inner(level));
    }
  }
}

static void country(const std::string& name, const std::vector<Ring>& rings, Rows& rows) {
  std::unique_ptr<S2Polygon> polygon = polygon_of(rings);
  S2CellId far = far_leaf(rings);
  if (polygon->Contains(far.ToPoint())) return;  // S2 takes one country for its outside
  Given given(rings, far.id());
  rows.row(name);
  for (int level : {4, 6, 8, 10, 12}) {
    S2RegionCoverer::Options options;
    options.set_max_level(level);
    options.set_max_cells(1 << 30);
    S2RegionCoverer coverer(options);
    rows.ask_cells("outer", level, given, ids_of(coverer.GetCovering(*polygon)));
    rows.ask_cells("inner", level, given, ids_of(coverer.GetInteriorCovering(*polygon)));
  }
}

int main(int argc, char** argv) {
  Rows rows;
  Generator generator(argc > 2 ? atoi(argv[2]) : 1);
  hostile(generator, argc > 1 ? atoi(argv[1]) : 1000, rows);
  if (argc > 3) {
    nlohmann::json document;
    std::ifstream(argv[3]) >> document;
    for (const auto& feature : document["features"])
      country(feature["properties"]["name"], rings_of(feature["geometry"]), rows);
  }
  rows.print();
}
