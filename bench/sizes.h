// A union of 1,000,000 cells and a smaller one, with each operation in both directions.
#pragma once
#include <deque>

#include "sides.h"
#include "table.h"

class Sizes {
 public:
  explicit Sizes(Table& table) : table_(table) {
    for (u64 n = 0; n < kMost; n++) longer_.push_back(cell_at(14, 4 * n));
  }

  void rows() {
    Random random(13);
    for (size_t size : {1, 10, 100, 1000, 10000, 100000}) {
      for (bool inside : {true, false}) {
        List shorter;
        for (size_t k = 0; k < size; k++) {
          u64 n = k * (kMost / size) + random.below(kMost / size);
          shorter.push_back(inside ? child_of(child_of(longer_[n], 1), 2) : cell_at(14, 4 * n + 2));
        }
        std::string place = std::to_string(size) + (inside ? "_inside" : "_apart");
        both_ways(place, shorter);
      }
    }
    for (size_t group : {10, 10000}) {
      List shorter;
      for (size_t k = 0; k < 10000; k++) {
        u64 n = k / group * (kMost / 10000 * group) + k % group;
        shorter.push_back(child_of(child_of(longer_[n], 1), 2));
      }
      both_ways("10000_in_groups_of_" + std::to_string(group), shorter);
    }
    for (bool inside : {true, false}) {
      List shorter;
      u64 first = (4 * (kMost / 2) + (inside ? 0 : 2)) << 20;
      for (u64 k = 0; k < 10000; k++) shorter.push_back(cell_at(24, first + 2 * k));
      both_ways(inside ? "10000_in_one_cell" : "10000_in_one_gap", shorter);
    }
  }

 private:
  static constexpr u64 kMost = 1000000;
  using PeerQuestion = bool (S2CellUnion::*)(const S2CellUnion&) const;

  void both_ways(const std::string& place, const List& shorter) {
    one_way("1000000_" + place, longer_, shorter);
    one_way(place + "_1000000", shorter, longer_);
  }

  void one_way(const std::string& place, const List& xs, const List& ys) {
    question("contains_" + place, xs, ys, &S2CellUnion::Contains, s2u_contains);
    question("intersects_" + place, xs, ys, &S2CellUnion::Intersects, s2u_intersects);
    PeerOperation intersection = &S2CellUnion::Intersection;
    operation("intersection_" + place, xs, ys, intersection, s2u_intersection);
    operation("difference_" + place, xs, ys, &S2CellUnion::Difference, s2u_difference);
    operation("union_" + place, xs, ys, &S2CellUnion::Union, s2u_union);
  }

  const char* kept(const std::string& name) { return names_.emplace_back(name).c_str(); }

  void question(const std::string& name, const List& xs, const List& ys, PeerQuestion peer, PairCall proved) {
    if (!table_.wants(name.c_str())) return;
    S2CellUnion x = peer_union(xs), y = peer_union(ys);
    bool a = false, b = false;
    table_.row({kept(name), 1, 0}, {[&] { a = (x.*peer)(y); }, [&] { return Sum().add(a).value(); }},
               {[&] { b = is_so(proved, xs, ys); }, [&] { return Sum().add(b).value(); }});
  }

  void operation(const std::string& name, const List& xs, const List& ys, PeerOperation peer, SetCall proved) {
    if (!table_.wants(name.c_str())) return;
    S2CellUnion x = peer_union(xs), y = peer_union(ys), made;
    Room room(4000000);
    table_.row({kept(name), 1, 0}, {[&] { made = (x.*peer)(y); }, [&] { return Sum().add_all(ids_of(made)).value(); }},
               {[&] { put(proved, xs, ys, room, name.c_str()); }, [&] { return Sum().add_all(room.made()).value(); }});
  }

  Table& table_;
  List longer_;
  std::deque<std::string> names_;
};
