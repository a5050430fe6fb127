// Rectangles of leaves on a face, for S2: as a region for its coverer, and as a plain descent over its cells.
#pragma once
#include <s2/s2cap.h>
#include <s2/s2cell.h>
#include <s2/s2latlng_rect.h>
#include <s2/s2region.h>
#include <s2/s2region_coverer.h>

#include <climits>

#include "sides.h"

enum class Part { Out, In, Cross };

inline Part part_of(const Bounds& r, S2CellId cell) {
  int i, j;
  if (cell.ToFaceIJOrientation(&i, &j, nullptr) != r.face) return Part::Out;
  int size = cell.GetSizeIJ();
  uint32_t i0 = i & -size, j0 = j & -size, i1 = i0 + size - 1, j1 = j0 + size - 1;
  if (i1 < r.i0 || r.i1 < i0 || j1 < r.j0 || r.j1 < j0) return Part::Out;
  return r.i0 <= i0 && i1 <= r.i1 && r.j0 <= j0 && j1 <= r.j1 ? Part::In : Part::Cross;
}

inline void descend(const Bounds& r, S2CellId cell, int level, bool outer, std::vector<S2CellId>* out) {
  Part part = part_of(r, cell);
  if (part == Part::Out) return;
  bool is_last = cell.level() == level;
  if (part == Part::In || (is_last && outer)) {
    out->push_back(cell);
  } else if (!is_last) {
    for (int p = 0; p < 4; p++) descend(r, cell.child(p), level, outer, out);
  }
}

inline S2CellUnion covering_by_descent(const Bounds& r, int level, bool outer) {
  std::vector<S2CellId> cells;
  for (int face = 0; face < 6; face++) descend(r, S2CellId::FromFace(face), level, outer, &cells);
  return S2CellUnion(std::move(cells));
}

class RectangleRegion final : public S2Region {
 public:
  explicit RectangleRegion(const Bounds& bounds) : bounds_(bounds) {}

  S2Region* Clone() const override { return new RectangleRegion(bounds_); }
  S2Cap GetCapBound() const override { return S2Cap::Full(); }
  S2LatLngRect GetRectBound() const override { return S2LatLngRect::Full(); }
  void GetCellUnionBound(std::vector<S2CellId>* cells) const override { *cells = {S2CellId::FromFace(bounds_.face)}; }
  bool Contains(const S2Cell& cell) const override { return part_of(bounds_, cell.id()) == Part::In; }
  bool MayIntersect(const S2Cell& cell) const override { return part_of(bounds_, cell.id()) != Part::Out; }
  bool Contains(const S2Point& point) const override { return part_of(bounds_, S2CellId(point)) == Part::In; }

 private:
  Bounds bounds_;
};

// What a union and a rectangle share. Its questions are those of S2's own S2RegionIntersection; the bounds are the
// rectangle's face, since S2 would go through the whole union for them.
class ClippedRegion final : public S2Region {
 public:
  ClippedRegion(const S2CellUnion* cells, const Bounds& bounds) : cells_(cells), bounds_(bounds) {}

  S2Region* Clone() const override { return new ClippedRegion(cells_, bounds_); }
  S2Cap GetCapBound() const override { return S2Cap::Full(); }
  S2LatLngRect GetRectBound() const override { return S2LatLngRect::Full(); }
  void GetCellUnionBound(std::vector<S2CellId>* cells) const override { *cells = {S2CellId::FromFace(bounds_.face)}; }
  bool Contains(const S2Cell& cell) const override {
    return part_of(bounds_, cell.id()) == Part::In && cells_->Contains(cell.id());
  }
  bool MayIntersect(const S2Cell& cell) const override {
    return part_of(bounds_, cell.id()) != Part::Out && cells_->Intersects(cell.id());
  }
  bool Contains(const S2Point& point) const override { return Contains(S2Cell(point)); }

 private:
  const S2CellUnion* cells_;
  Bounds bounds_;
};

inline S2CellUnion covering_by_coverer(const S2Region& region, int level, bool outer) {
  S2RegionCoverer::Options options;
  options.set_max_cells(INT_MAX);
  options.set_max_level(level);
  S2RegionCoverer coverer(options);
  S2CellUnion cells = outer ? coverer.GetCovering(region) : coverer.GetInteriorCovering(region);
  cells.Normalize();
  return cells;
}

inline S2CellUnion rectangle_by_coverer(const Bounds& r, int level, bool outer) {
  return covering_by_coverer(RectangleRegion(r), level, outer);
}
