// The random inputs and the checksum of the rows of bench/README.md. All arithmetic is on 64 bits and wraps.
#pragma once
#include <algorithm>
#include <cstddef>
#include <cstdint>
#include <string>
#include <utility>
#include <vector>

using u64 = uint64_t;
using List = std::vector<u64>;

const u64 FACE_LEAVES = u64{1} << 60;

inline u64 cell_at(int level, u64 place) { return (2 * place + 1) << (2 * (30 - level)); }

inline u64 parent_of(u64 id, int level) {
  u64 lowest = u64{1} << (2 * (30 - level));
  return (id & -lowest) | lowest;
}

inline u64 lowest_bit(u64 id) { return id & -id; }

// The child with the number `p` of a cell that is not a leaf.
inline u64 child_of(u64 id, u64 p) { return id - lowest_bit(id) + (2 * p + 1) * (lowest_bit(id) / 4); }

class Random {
 public:
  explicit Random(u64 seed) : x_(seed * 0x9E3779B97F4A7C15) {}

  u64 next() {
    x_ ^= x_ << 13;
    x_ ^= x_ >> 7;
    x_ ^= x_ << 17;
    return x_;
  }

  u64 below(u64 n) { return next() % n; }
  uint32_t coordinate() { return next() >> 34; }
  u64 leaf() { return 2 * below(6 * FACE_LEAVES) + 1; }
  u64 leaf_of(u64 face) { return (face << 61) + 2 * below(FACE_LEAVES) + 1; }

  u64 cell(int least, int most) {
    int level = level_from(least, most);
    return parent_of(leaf(), level);
  }

  u64 cell_of(u64 face, int least, int most) {
    int level = level_from(least, most);
    return parent_of(leaf_of(face), level);
  }

  List cells(size_t n, int least, int most) {
    List list(n);
    for (u64& id : list) id = cell(least, most);
    return list;
  }

  List cells_of(u64 face, size_t n, int least, int most) {
    List list(n);
    for (u64& id : list) id = cell_of(face, least, most);
    return list;
  }

  void shuffle(List& list) {
    for (size_t n = list.size(); n > 1; n--) std::swap(list[n - 1], list[below(n)]);
  }

 private:
  int level_from(int least, int most) { return least + static_cast<int>(below(most - least + 1)); }

  u64 x_;
};

class Sum {
 public:
  Sum& add(u64 v) {
    h_ = (((h_ << 5) | (h_ >> 59)) ^ v) * 0x517cc1b727220a95;
    return *this;
  }

  template <typename Items>
  Sum& add_all(const Items& items) {
    for (auto item : items) add(static_cast<u64>(item));
    return *this;
  }

  Sum& add_text(const std::string& text) {
    for (unsigned char byte : text) add(byte);
    return add('\n');
  }

  u64 value() const { return h_; }

 private:
  u64 h_ = 0;
};
