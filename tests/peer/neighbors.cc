// Cells beside cells, unions with the cells around them, and boxes of unions, by s2union_cover.h and by S2: neighbors
// [CASES]. Cells of each level lie anywhere, and along the edges and at the corners of faces. The last line is
// 'N passed, M failed'.
#include <s2/s2cell.h>
#include <s2/s2cell_union.h>
#include <s2/s2latlng_rect.h>
#include <s2union_cover.h>
#include <algorithm>
#include <cstdio>
#include <cstdlib>
#include <random>
#include <vector>

static std::mt19937_64 numbers(103);
static size_t passed, failed;

static void check(bool holds, const char* what, S2CellId cell, int level) {
  holds ? passed++ : failed++;
  if (!holds && failed < 20) std::printf("%s of %s at level %d\n", what, cell.ToString().c_str(), level);
}

static int place() {  // of a row or a column of a face: mostly near its ends or its middle
  const int side = S2CellId::kMaxSize, near = static_cast<int>(numbers() % 5);
  const int places[] = {near, side - 1 - near, side / 2 - near, side / 2 + near, static_cast<int>(numbers() % side)};
  return places[numbers() % 5];
}

static S2CellId cell_of(int level) {
  return S2CellId::FromFaceIJ(static_cast<int>(numbers() % 6), place(), place()).parent(level);
}

static std::vector<uint64_t> ids_of(std::vector<S2CellId> cells) {
  std::sort(cells.begin(), cells.end());
  cells.erase(std::unique(cells.begin(), cells.end()), cells.end());
  std::vector<uint64_t> ids;
  for (S2CellId cell : cells) ids.push_back(cell.id());
  return ids;
}

static std::vector<uint64_t> taken(s2u_cover_cells* cells) {
  std::vector<uint64_t> ids(cells->ids, cells->ids + cells->count);
  s2u_cover_free(cells);
  return ids;
}

static void beside(S2CellId cell) {
  std::vector<S2CellId> wanted;
  const int level = std::min(30, cell.level() + static_cast<int>(numbers() % 6));
  s2u_cover_cells found;
  check(s2u_cover_neighbors(cell.id(), level, &found) == S2U_OK, "status", cell, level);
  cell.AppendAllNeighbors(level, &wanted);
  check(taken(&found) == ids_of(wanted), "all neighbors", cell, level);
  S2CellId edges[4];
  uint64_t ids[4];
  size_t count;
  cell.GetEdgeNeighbors(edges);
  bool is_same = s2u_geo_edge_neighbors(cell.id(), ids) == S2U_OK;
  for (int k = 0; k < 4; k++) is_same = is_same && ids[k] == edges[k].id();
  check(is_same, "edge neighbors", cell, cell.level());
  for (int above = 0; above < cell.level(); above++) {
    wanted.clear();
    cell.AppendVertexNeighbors(above, &wanted);
    is_same = s2u_geo_vertex_neighbors(cell.id(), above, ids, &count) == S2U_OK && count == wanted.size();
    for (size_t k = 0; is_same && k < count; k++) is_same = ids[k] == wanted[k].id();
    check(is_same, "vertex neighbors", cell, above);
  }
}

// Cells that lie near each other or anywhere, on one level or on several.
static S2CellUnion some_union() {
  std::vector<S2CellId> cells;
  const int low = static_cast<int>(numbers() % 31), deep = std::min(30, low + static_cast<int>(numbers() % 4));
  const bool is_near = numbers() % 2;
  S2CellId at = cell_of(low);
  for (uint64_t k = numbers() % 12; k-- > 0;) {
    cells.push_back(at.child_begin(deep));
    if (!is_near) {
      at = cell_of(low);
      continue;
    }
    S2CellId beside[4];
    at.GetEdgeNeighbors(beside);
    at = beside[numbers() % 4];
  }
  cells.push_back(at);
  return S2CellUnion(cells);
}

static void around(const S2CellUnion& cells) {
  const std::vector<uint64_t> ids = ids_of(cells.cell_ids());
  int least = 30;
  for (S2CellId cell : cells) least = std::min(least, cell.level());
  const int level = static_cast<int>(numbers() % (std::min(30, least + 8) + 1));
  s2u_cover_cells found;
  check(s2u_cover_expanded(ids.data(), ids.size(), level, &found) == S2U_OK, "status", cells.cell_id(0), level);
  S2CellUnion wanted = cells;
  wanted.Expand(level);
  check(taken(&found) == ids_of(wanted.cell_ids()), "expanded", cells.cell_id(0), level);
}

// The box is never wider than S2's by more than a rounding, and has the corners and the middle of each cell. It may be
// narrower: S2 joins cells in turn, each to the nearer side.
static void box(const S2CellUnion& cells, size_t* same) {
  const std::vector<uint64_t> ids = ids_of(cells.cell_ids());
  const double little = 1e-12;
  s2u_cover_bounds found;
  check(s2u_cover_rect_bound(ids.data(), ids.size(), &found) == S2U_OK, "status", cells.cell_id(0), 0);
  const S2LatLngRect wanted = cells.GetRectBound();
  const bool is_over = found.east < found.west;
  check(std::abs(found.south - wanted.lat_lo().degrees()) < little &&
        std::abs(found.north - wanted.lat_hi().degrees()) < little, "latitudes", cells.cell_id(0), 0);
  const double wide = found.east - found.west + (is_over ? 360 : 0), widest = wanted.lng().GetLength() * 180 / M_PI;
  check(wide <= widest + little && wide > 0 && std::abs(found.west) <= 180 && std::abs(found.east) <= 180, "longitudes",
        cells.cell_id(0), 0);
  *same += std::abs(wide - widest) < little;
  bool has_all = true;
  for (S2CellId id : cells) {
    const S2Cell cell(id);
    for (int k = 0; k < 5; k++) {
      const S2LatLng at(k < 4 ? cell.GetVertex(k) : cell.GetCenter());
      const double x = at.lng().degrees(), y = at.lat().degrees(), turned = x == 180 ? -180 : x == -180 ? 180 : x;
      bool has = false;
      for (double each : {x, turned})
        has = has || (is_over ? each >= found.west || each <= found.east : each >= found.west && each <= found.east);
      has_all = has_all && (has || std::abs(y) == 90) && y >= found.south && y <= found.north;
    }
  }
  check(has_all, "places in the box", cells.cell_id(0), 0);
}

// Square kilometers, where S2's sphere has a radius of 1. S2 makes triangles of a cell, and rounds them the more the
// smaller they are.
static void area(const S2CellUnion& cells) {
  const std::vector<uint64_t> ids = ids_of(cells.cell_ids());
  const double found = s2u_geo_area(ids.data(), ids.size()) / S2U_GEO_EARTH / S2U_GEO_EARTH;
  double allowed = 0;
  for (S2CellId id : cells) allowed += S2Cell(id).ExactArea() * std::ldexp(4e-15, id.level());
  check(std::abs(found - cells.ExactArea()) <= allowed, "area", cells.cell_id(0), 0);
}

int main(int count, char** words) {
  const long cases = count > 1 ? std::atol(words[1]) : 20000;
  size_t same = 0;
  for (long k = 0; k < cases; k++) {
    beside(cell_of(static_cast<int>(k % 31)));
    const S2CellUnion cells = some_union();
    around(cells);
    box(cells, &same);
    area(cells);
  }
  check(same > 0.8 * cases, "boxes that are S2's", S2CellId::Begin(0), 0);
  std::printf("%zu of %ld boxes are as wide as S2's\n%zu passed, %zu failed\n", same, cases, passed, failed);
  return failed != 0;
}
