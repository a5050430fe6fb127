// Polygons for S2, for the library and for hand-written C++, of the same corners.
#pragma once
#include <s2/s2cell_union.h>
#include <s2/s2latlng.h>
#include <s2/s2loop.h>
#include <s2/s2polygon.h>

#include <cmath>
#include <fstream>
#include <memory>
#include <nlohmann/json.hpp>

#include "polygon.h"

using limit::Direction;
using Ring = std::vector<S2Point>;

inline Direction rounded(const S2Point& p) {
  const double scale = 2147483647.0;
  return {llrint(p.x() * scale), llrint(p.y() * scale), llrint(p.z() * scale)};
}

inline S2Point point(const Direction& d) { return S2Point(d.x, d.y, d.z).Normalize(); }

// Rings of directions and a leaf outside, as the calls take them.
struct Given {
  std::vector<Direction> corners;
  std::vector<size_t> ends;
  u64 outside;

  Given(const std::vector<Ring>& rings, u64 leaf) : outside(leaf) {
    for (const Ring& ring : rings) {
      for (const S2Point& p : ring) corners.push_back(rounded(p));
      ends.push_back(corners.size());
    }
  }

  limit::Polygon plain() const { return limit::Polygon(corners, ends, outside, 0); }
};

// The points of a ring in degrees, longitude first, as the directions that they are rounded to; none twice in turn.
template <typename Positions>
Ring ring_of(const Positions& positions) {
  Ring ring;
  for (const auto& at : positions) {
    S2Point p = point(rounded(S2LatLng::FromDegrees(at[1], at[0]).Normalized().ToPoint()));
    if (ring.empty() || ring.back() != p) ring.push_back(p);
  }
  if (ring.size() > 1 && ring.front() == ring.back()) ring.pop_back();
  return ring;
}

inline std::vector<Ring> rings_of(const nlohmann::json& geometry) {
  std::vector<Ring> rings;
  auto add = [&](const nlohmann::json& polygon) {
    for (const auto& positions : polygon) {
      Ring ring = ring_of(positions);
      if (ring.size() > 2) rings.push_back(ring);
    }
  };
  if (geometry["type"] == "Polygon") {
    add(geometry["coordinates"]);
  } else {
    for (const auto& polygon : geometry["coordinates"]) add(polygon);
  }
  return rings;
}

// The polygon that S2 makes of rings, each of which has its smaller side inside.
inline std::unique_ptr<S2Polygon> polygon_of(const std::vector<Ring>& rings) {
  std::vector<std::unique_ptr<S2Loop>> loops;
  for (const Ring& ring : rings) {
    loops.push_back(std::make_unique<S2Loop>(ring, S2Debug::DISABLE));
    loops.back()->Normalize();
  }
  auto polygon = std::make_unique<S2Polygon>();
  polygon->set_s2debug_override(S2Debug::DISABLE);
  polygon->InitNested(std::move(loops));
  return polygon;
}

// The leaf on the other side of the sphere: it lies outside, if the polygon is no large part of it.
inline S2CellId far_leaf(const std::vector<Ring>& rings) {
  S2Point sum(0, 0, 0);
  for (const Ring& ring : rings)
    for (const S2Point& p : ring) sum += p;
  return S2CellId(-sum.Normalize());
}
