// What hand-written C++ reaches on the leaves of a polygon, in whole numbers: the definition that docs/STATEMENT.md
// has, the same coverings of one level, and no proof. Its coverings of few cells mostly have other cells than the
// library's, as it splits cells in another order.
#pragma once
#include <numeric>

#include "workload.h"

namespace limit {

using i64 = int64_t;
using i128 = __int128;

const i64 SIDE = i64{1} << 30, WHOLE = 3 * (i64{1} << 60);

// A point of the sphere, at any distance from its center: each number is less than 2^31 in size.
struct Direction {
  i64 x, y, z;
};

// The same in the frame of a face: along the face's axis, along its rows, along its columns.
struct Framed {
  i64 w, u, v;
};

struct Chord {
  Direction a, b;
};

// An edge in a frame, with its normal.
struct Edge {
  Framed a, b, n;
};

struct Square {
  i64 u0, u1, v0, v1;
};

// The place of a border (2 k) or of a middle (2 k + 1) of the leaves of a row: S2's quadratic projection, times WHOLE.
inline i64 along(i64 t) { return t >= SIDE ? t * t - SIDE * SIDE : SIDE * SIDE - (2 * SIDE - t) * (2 * SIDE - t); }

inline Framed in_frame(int face, Direction p) {
  switch (face) {
    case 0: return {p.x, p.y, p.z};
    case 1: return {p.y, -p.x, p.z};
    case 2: return {p.z, -p.x, -p.y};
    case 3: return {-p.x, -p.z, -p.y};
    case 4: return {-p.y, -p.z, p.x};
    default: return {-p.z, p.y, p.x};
  }
}

inline Edge in_frame(int face, const Chord& chord) {
  Framed a = in_frame(face, chord.a), b = in_frame(face, chord.b);
  return {a, b, {a.u * b.v - a.v * b.u, a.v * b.w - a.w * b.v, a.w * b.u - a.u * b.w}};
}

inline i128 turn(const Framed& n, i64 u, i64 v) {
  return static_cast<i128>(n.w) * WHOLE + static_cast<i128>(n.u) * u + static_cast<i128>(n.v) * v;
}

// Whether an edge has a point in a square.
inline bool meets(const Edge& e, const Square& q) {
  i128 a[4], b[4];
  i128 au = static_cast<i128>(WHOLE) * e.a.u, av = static_cast<i128>(WHOLE) * e.a.v;
  i128 bu = static_cast<i128>(WHOLE) * e.b.u, bv = static_cast<i128>(WHOLE) * e.b.v;
  a[0] = au - static_cast<i128>(q.u0) * e.a.w, b[0] = bu - static_cast<i128>(q.u0) * e.b.w;
  if (a[0] < 0 && b[0] < 0) return false;
  a[1] = static_cast<i128>(q.u1) * e.a.w - au, b[1] = static_cast<i128>(q.u1) * e.b.w - bu;
  if (a[1] < 0 && b[1] < 0) return false;
  a[2] = av - static_cast<i128>(q.v0) * e.a.w, b[2] = bv - static_cast<i128>(q.v0) * e.b.w;
  if (a[2] < 0 && b[2] < 0) return false;
  a[3] = static_cast<i128>(q.v1) * e.a.w - av, b[3] = static_cast<i128>(q.v1) * e.b.w - bv;
  if (a[3] < 0 && b[3] < 0) return false;
  if (a[0] >= 0 && a[1] >= 0 && a[2] >= 0 && a[3] >= 0) return true;
  if (b[0] >= 0 && b[1] >= 0 && b[2] >= 0 && b[3] >= 0) return true;
  auto apart = [&](int i, int j, i128 d) {  // line i keeps one end out, line j the other, and so does the corner
    return (a[i] < 0 && b[j] < 0 && d > 0) || (a[j] < 0 && b[i] < 0 && d < 0);
  };
  return !apart(0, 2, turn(e.n, q.u0, q.v0)) && !apart(3, 0, turn(e.n, q.u0, q.v1)) &&
         !apart(2, 1, turn(e.n, q.u1, q.v0)) && !apart(1, 3, turn(e.n, q.u1, q.v1)) && !apart(1, 0, e.n.v) &&
         !apart(2, 3, e.n.u);
}

inline bool crosses_row(const Edge& e, i64 v, i64 u0, i64 u1) {
  bool a = static_cast<i128>(WHOLE) * e.a.v - static_cast<i128>(v) * e.a.w >= 0;
  bool b = static_cast<i128>(WHOLE) * e.b.v - static_cast<i128>(v) * e.b.w >= 0;
  if (a == b) return false;
  bool p = turn(e.n, u0, v) >= 0, q = turn(e.n, u1, v) >= 0;
  return p != q && p == b;
}

inline bool crosses_column(const Edge& e, i64 u, i64 v0, i64 v1) {
  bool a = static_cast<i128>(u) * e.a.w - static_cast<i128>(WHOLE) * e.a.u >= 0;
  bool b = static_cast<i128>(u) * e.b.w - static_cast<i128>(WHOLE) * e.b.u >= 0;
  if (a == b) return false;
  bool p = turn(e.n, u, v0) >= 0, q = turn(e.n, u, v1) >= 0;
  return p != q && p == b;
}

// Whether an edge crosses the way from one place to another an odd number of times: along the row, then the column.
inline bool crosses(const Edge& e, i64 u0, i64 v0, i64 u1, i64 v1) {
  return (u0 != u1 && crosses_row(e, v0, std::min(u0, u1), std::max(u0, u1))) !=
         (v0 != v1 && crosses_column(e, u1, std::min(v0, v1), std::max(v0, v1)));
}

inline i64 middle(i64 i, i64 size) { return along(2 * (i + size / 2) + 1); }

// A cell with its square: the least place of its leaves, the side, and at which orientation the curve enters it.
struct Placed {
  u64 id;
  i64 i, j, size;
  int orientation;

  static Placed face(int face) { return {cell_at(0, face), 0, 0, SIDE, face & 1}; }

  Placed child(int digit) const {
    static const int quadrant[4][4] = {{0, 1, 3, 2}, {0, 2, 3, 1}, {3, 2, 0, 1}, {3, 1, 0, 2}}, turn[4] = {1, 0, 0, 3};
    int q = quadrant[orientation][digit];
    i64 half = size / 2;
    return {child_of(id, digit), i + half * (q / 2), j + half * (q % 2), half, orientation ^ turn[digit]};
  }

  Square square(i64 margin) const {
    return {along(2 * i) - margin, along(2 * (i + size)) + margin, along(2 * j) - margin,
            along(2 * (j + size)) + margin};
  }
};

// Rings of directions, with the parity of each face's middle: even where a leaf that is known to be outside is.
class Polygon {
 public:
  Polygon(const std::vector<Direction>& corners, const std::vector<size_t>& ends, u64 outside, i64 margin)
      : margin_(margin) {
    size_t first = 0;
    for (size_t end : ends) {
      for (size_t k = first; k < end; k++) chords_.push_back({corners[k], corners[k + 1 < end ? k + 1 : first]});
      first = end;
    }
    place();
    if (holds(outside)) {
      for (bool& odd : middles_) odd = !odd;
    }
  }

  // Whether a leaf is inside, found on the way down.
  bool holds(u64 leaf) const {
    int face = leaf >> 61;
    std::vector<Edge> edges = edges_of(face);
    Placed at = Placed::face(face);
    bool odd = middles_[face];
    for (int level = 1; level <= 30 && !edges.empty(); level++) {
      Placed next = at.child(leaf >> (61 - 2 * level) & 3);
      odd ^= is_odd_step(edges, at, next);
      Square square = next.square(margin_);
      edges.erase(std::remove_if(edges.begin(), edges.end(), [&](const Edge& e) { return !meets(e, square); }),
                  edges.end());
      at = next;
    }
    return odd;
  }

  // The cells of a level that have a leaf of the polygon or on its border, or lie inside with all their leaves.
  List outer(int level) const { return cells(level, true); }
  List inner(int level) const { return cells(level, false); }

  // As many levels deeper as fit into `most` cells: those with fewest children are split first.
  List outer_up_to(size_t most, int deepest) const { return cells_up_to(most, deepest, true); }
  List inner_up_to(size_t most, int deepest) const { return cells_up_to(most, deepest, false); }

 private:
  struct Candidate {
    Placed placed;
    int face;
    bool odd;
    std::vector<uint32_t> edges;
  };

  void place() {
    i64 m = middle(0, SIDE);
    for (int face = 0; face + 1 < 6; face++) {
      bool odd = middles_[face];
      for (const Chord& chord : chords_) {
        Edge from = in_frame(face, chord), to = in_frame(face + 1, chord);
        if (face % 2 == 0) {
          odd ^= crosses_row(from, m, m, WHOLE) ^ crosses_row(to, m, -WHOLE, m);
        } else {
          odd ^= crosses_column(from, m, m, WHOLE) ^ crosses_column(to, m, -WHOLE, m);
        }
      }
      middles_[face + 1] = odd;
    }
  }

  std::vector<Edge> edges_of(int face) const {
    std::vector<Edge> edges;
    Square all = Placed::face(face).square(margin_);
    for (const Chord& chord : chords_) {
      Edge edge = in_frame(face, chord);
      if (meets(edge, all)) edges.push_back(edge);
    }
    return edges;
  }

  static bool is_odd_step(const std::vector<Edge>& edges, const Placed& from, const Placed& to) {
    bool odd = false;
    i64 u0 = middle(from.i, from.size), v0 = middle(from.j, from.size);
    i64 u1 = middle(to.i, to.size), v1 = middle(to.j, to.size);
    for (const Edge& e : edges) odd ^= crosses(e, u0, v0, u1, v1);
    return odd;
  }

  List cells(int level, bool outer) const {
    List list;
    std::vector<uint32_t> stack;
    for (int face = 0; face < 6; face++) {
      std::vector<Edge> edges = edges_of(face);
      stack.resize(edges.size());
      std::iota(stack.begin(), stack.end(), 0);
      visit(edges, stack, 0, Placed::face(face), 0, middles_[face], level, outer, list);
    }
    return list;
  }

  void visit(const std::vector<Edge>& edges, std::vector<uint32_t>& stack, size_t from, const Placed& placed, int depth,
             bool in, int level, bool outer, List& list) const {
    size_t to = stack.size();
    if (from == to) {
      if (in) add(list, placed.id);
      return;
    }
    if (depth == level) {
      if (outer) add(list, placed.id);
      return;
    }
    i64 u0 = middle(placed.i, placed.size), v0 = middle(placed.j, placed.size);
    for (int digit = 0; digit < 4; digit++) {
      Placed child = placed.child(digit);
      Square square = child.square(margin_);
      i64 u1 = middle(child.i, child.size), v1 = middle(child.j, child.size);
      bool odd = in;
      for (size_t n = from; n < to; n++) {
        const Edge& e = edges[stack[n]];
        odd ^= crosses(e, u0, v0, u1, v1);
        if (meets(e, square)) stack.push_back(stack[n]);
      }
      visit(edges, stack, to, child, depth + 1, odd, level, outer, list);
      stack.resize(to);
    }
  }

  // Adds a cell after all that begin before it; four siblings become their parent.
  static void add(List& list, u64 id) {
    while (list.size() >= 3 && lowest_bit(id) < u64{1} << 60) {
      u64 parent = (id & ~(7 * lowest_bit(id))) | 4 * lowest_bit(id);
      if (id != child_of(parent, 3)) break;
      size_t n = list.size();
      bool all = list[n - 1] == child_of(parent, 2) && list[n - 2] == child_of(parent, 1) &&
                 list[n - 3] == child_of(parent, 0);
      if (!all) break;
      list.resize(n - 3);
      id = parent;
    }
    list.push_back(id);
  }

  List cells_up_to(size_t most, int deepest, bool outer) const {
    List kept;
    std::vector<Edge> edges[6];
    std::vector<Candidate> level;
    for (int face = 0; face < 6; face++) {
      edges[face] = edges_of(face);
      std::vector<uint32_t> all(edges[face].size());
      std::iota(all.begin(), all.end(), 0);
      if (!all.empty() || middles_[face]) level.push_back({Placed::face(face), face, middles_[face], std::move(all)});
    }
    size_t held = level.size();
    for (int depth = 0; !level.empty(); depth++) {
      std::vector<std::vector<Candidate>> children(level.size());
      std::vector<std::pair<size_t, size_t>> order;
      for (size_t n = 0; n < level.size(); n++) {
        const Candidate& c = level[n];
        if (c.edges.empty()) {
          kept.push_back(c.placed.id);
        } else if (depth == deepest) {
          outer ? kept.push_back(c.placed.id) : void(held--);
        } else {
          children[n] = children_of(edges[c.face], c);
          order.push_back({children[n].size(), n});
        }
      }
      std::sort(order.begin(), order.end());
      std::vector<Candidate> next;
      for (auto [count, n] : order) {
        if (held - 1 + count <= most) {
          held += count - 1;
          for (Candidate& child : children[n]) next.push_back(std::move(child));
        } else {
          outer ? kept.push_back(level[n].placed.id) : void(held--);
        }
      }
      level = std::move(next);
    }
    std::sort(kept.begin(), kept.end());
    List list;
    for (u64 id : kept) add(list, id);
    return list;
  }

  std::vector<Candidate> children_of(const std::vector<Edge>& edges, const Candidate& c) const {
    std::vector<Candidate> children;
    i64 u0 = middle(c.placed.i, c.placed.size), v0 = middle(c.placed.j, c.placed.size);
    for (int digit = 0; digit < 4; digit++) {
      Candidate child{c.placed.child(digit), c.face, c.odd, {}};
      Square square = child.placed.square(margin_);
      i64 u1 = middle(child.placed.i, child.placed.size), v1 = middle(child.placed.j, child.placed.size);
      for (uint32_t n : c.edges) {
        child.odd ^= crosses(edges[n], u0, v0, u1, v1);
        if (meets(edges[n], square)) child.edges.push_back(n);
      }
      if (!child.edges.empty() || child.odd) children.push_back(std::move(child));
    }
    return children;
  }

  std::vector<Chord> chords_;
  i64 margin_;
  bool middles_[6] = {};
};

}  // namespace limit
