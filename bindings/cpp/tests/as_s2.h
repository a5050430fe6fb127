/* Classes as S2 has them, with what s2union.hpp asks of them, where S2 isn't there. */
#ifndef AS_S2_H
#define AS_S2_H
#include <s2union.h>

#include <cstddef>
#include <cstdint>
#include <cstring>
#include <string>
#include <utility>
#include <vector>

/// A place as S2Point is one.
class Place {
 public:
  Place(double x, double y, double z) : at_{x, y, z} {}
  Place operator-() const { return {-at_[0], -at_[1], -at_[2]}; }
  double x() const { return at_[0]; }
  double y() const { return at_[1]; }
  double z() const { return at_[2]; }

 private:
  double at_[3];
};

/// A loop as S2Loop is one: an octant of the sphere, or all but a rim of an octant; or of a single vertex, without an
/// edge.
class Loop {
 public:
  explicit Loop(std::vector<Place> vertices, bool is_inverted = false, double scale = 1)
      : vertices_(std::move(vertices)), is_inverted_(is_inverted), scale_(scale) {}
  int num_vertices() const { return static_cast<int>(vertices_.size()); }
  const Place& vertex(int k) const { return vertices_[static_cast<size_t>(k)]; }
  bool Contains(const Place& p) const {
    bool is_in = p.x() > 0 && p.y() > 0 && p.z() > 0;
    return is_inverted_ ? !is_in || p.z() > 1e-5 : is_in;
  }
  struct Angle {
    double radians() const { return far; }
    double far;
  };
  Angle GetDistance(const Place& p) const {
    const double least = p.x() < p.y() ? p.x() : p.y(), away = p.z() < least ? p.z() : least;
    return {Contains(p) ? 0 : is_inverted_ ? away * scale_ : 1};
  }

 private:
  std::vector<Place> vertices_;
  bool is_inverted_;
  double scale_;  // of distances
};

/// As S2Polygon, of one loop.
struct Loops {
  int num_loops() const { return 1; }
  const Loop* loop(int) const { return &only; }
  bool Contains(const Place& p) const { return only.Contains(p); }
  Loop::Angle GetDistance(const Place& p) const { return only.GetDistance(p); }
  Loop only;
};

/// A loop that knows a cap around it, as those of S2 do: about a place of the octant.
class Capped {
 public:
  Capped(Loop loop, double radius) : loop_(std::move(loop)), radius_(radius) {}
  int num_vertices() const { return loop_.num_vertices(); }
  const Place& vertex(int k) const { return loop_.vertex(k); }
  bool Contains(const Place& p) const { return asked++, loop_.Contains(p); }
  Loop::Angle GetDistance(const Place& p) const { return loop_.GetDistance(p); }
  struct Cap {
    Place center() const { return {1, 0.5, 0.5}; }
    Loop::Angle GetRadius() const { return {radius}; }
    double radius;
  };
  Cap GetCapBound() const { return {radius_}; }
  static inline int asked = 0;  // what only an index knows

 private:
  Loop loop_;
  double radius_;
};

/// A cell as S2CellId is one: a class of 64 bits, not aligned, that is made from a number only where that is written.
class __attribute__((packed)) Cell {
 public:
  Cell() : id_(0) {}
  explicit Cell(uint64_t id) : id_(id) {}
  explicit Cell(const Place& p) : id_(s2u_from_face_ij(p.x() < 0 ? 3 : 0, 1u << 29, 1u << 29)) {}
  uint64_t id() const { return id_; }
  friend bool operator==(Cell x, Cell y) { return x.id_ == y.id_; }

 private:
  uint64_t id_;
};

/// A class of unions as S2CellUnion is one. Its cells need not be normalized.
class Theirs {
 public:
  static Theirs FromNormalized(std::vector<Cell> cells) { return Theirs(std::move(cells)); }
  explicit Theirs(std::vector<Cell> cells) : cells_(std::move(cells)) {}
  const std::vector<Cell>& cell_ids() const { return cells_; }

 private:
  std::vector<Cell> cells_;
};

/// As S2's Encoder and Decoder, with the calls of these that the header makes.
struct Encoder {
  std::string bytes;
  size_t ensured = 0;
  void Ensure(size_t more) { ensured = bytes.size() + more; }
  void putn(const void* from, size_t n) { bytes.append(static_cast<const char*>(from), n); }
};
class Decoder {
 public:
  Decoder(const void* bytes, size_t n) : at_(static_cast<const char*>(bytes)), end_(at_ + n) {}
  size_t avail() const { return static_cast<size_t>(end_ - at_); }
  unsigned char get8() { return static_cast<unsigned char>(*skip(1)); }
  uint64_t get64() {
    uint64_t number;
    memcpy(&number, skip(8), 8);
    return number;
  }
  const char* skip(ptrdiff_t n) { return std::exchange(at_, at_ + n); }

 private:
  const char *at_, *end_;
};
#endif
