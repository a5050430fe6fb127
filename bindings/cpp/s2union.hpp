/* s2union.hpp: the cell unions of S2, proved, for C++17 or later.
 *
 * s2union::CellUnion has the names and the meanings of S2's S2CellUnion, and is made of calls of s2union.h: the header
 * has no arithmetic on cells of its own. Link libs2union. Its cells are uint64_t; nothing of S2 is needed. Where S2's
 * headers are included, s2union::CellUnionOf<S2CellId> has S2's cells in place of numbers:
 *
 *     using CellUnion = s2union::CellUnionOf<S2CellId>;
 *     CellUnion ours = theirs;               // from an S2CellUnion, normalized if it wasn't
 *     S2CellUnion again(ours.Union(ours));   // and back, to S2's regions, indexes and areas
 *
 * S2'S UNIONS. s2union::Difference(x, y), Contains(x, y) and the like take S2CellUnions as they are, and make one. As
 * in S2 an assertion alone looks whether they are normalized. Of lists, such as x.cell_ids(), these calls make lists,
 * and check them each time, in as many steps as they have cells: one that isn't normalized is refused. A CellUnion was
 * checked when it was made.
 *
 * WHAT DIFFERS. A CellUnion is always normalized: there is no FromVerbatim, and IsValid and IsNormalized are true. What
 * S2 only requires, and looks at in debug builds, is always checked here, and refused if it isn't so. Decode makes its
 * cells a union. There is no geometry: no Expand, areas, bounds or points. docs/FROM_S2.md has the whole table.
 *
 * REFUSALS. The last parameter of every call that can be refused is `int32_t* status`, and may be left out.
 *   - Without it, a refusal is thrown: std::bad_alloc if memory ran out, and otherwise s2union::Error, which knows the
 *     status. Where exceptions are switched off, the program is aborted, as it is by a vector that gets no memory. A
 *     CellUnion doesn't go between files that are built with exceptions and without.
 *   - With it, the call throws nothing: *status is S2U_OK, or the status of s2union.h that says why not. After a
 *     refusal the answer is false or empty, and what the call would have changed is as it was. An argument that is made
 *     for the call may still throw: a list in braces, and the union of another class, which becomes a CellUnion first.
 *     Make it one before, with a status of its own. So may S2's Encoder, which takes its memory itself.
 * Copies of a union, its texts, and S2's unions that are made of it have no status: they take memory as std's do.
 *
 * SHAPES. CoverGeoJson and CoverWkb read polygons as users write them, and make both coverings: proved from the text
 * on. S2U_SHAPE has a fault and its place, which the ShapeError has that is thrown. They also go to the argument before
 * `status`, if that isn't null.
 *
 * ZONES. Where <s2union_join.h> is included before this header, s2union::Zones is here too: exact joins of places with
 * polygons in degrees.
 *
 * THREADS. As with std::vector: any number of threads may call what is const of one union, or of one file, while none
 * changes it. Nothing is kept between calls.
 */
#ifndef S2UNION_HPP
#define S2UNION_HPP

#include <s2union.h>

#include <algorithm>
#include <array>
#include <cassert>
#include <cmath>
#include <cstdlib>
#include <functional>
#include <new>
#include <ostream>
#include <stdexcept>
#include <string>
#include <string_view>
#include <type_traits>
#include <utility>
#include <vector>
#if defined(__cpp_impl_three_way_comparison)
#include <compare>
#endif

#if defined(__cpp_exceptions)
#define S2UNION_THROWS 1
#else
#define S2UNION_THROWS 0
#endif

namespace s2union {

// Files that are built with exceptions, and without, have classes of their own. Else a linker would keep one of two
// functions that have the same name, and not the same body.
#if S2UNION_THROWS
inline namespace throws {
#else
inline namespace aborts {
#endif

/// A call that was refused, for another reason than memory.
class Error : public std::runtime_error {
 public:
  /// The refusal of a status below 0, with its text. @since 0.1
  /// @snippet examples.cc Error
  explicit Error(int32_t status) : Error(status, s2u_status_text(status)) {}
  /// The same with another text. @since 1.5
  /// @snippet examples.cc Error
  Error(int32_t status, const char* text) : std::runtime_error(text), status_(status) {}
  /// The status of s2union.h, below 0. @since 0.1
  /// @snippet examples.cc Error.status
  int32_t status() const noexcept { return status_; }

 private:
  int32_t status_;
};

/// A text of GeoJSON, or bytes of WKB, are no shape of polygons: `what` has the text of the fault and its place.
class ShapeError : public Error {
 public:
  /// The error of a fault. @since 1.5
  /// @snippet examples.cc ShapeError
  explicit ShapeError(const s2u_shape_fault& fault) : Error(S2U_SHAPE, TextOf(fault).c_str()), fault_(fault) {}
  /// Which fault it is, such as S2U_FAULT_OPEN, and where. @since 1.5
  /// @snippet examples.cc ShapeError
  const s2u_shape_fault& fault() const noexcept { return fault_; }

 private:
  static std::string TextOf(const s2u_shape_fault& fault) {
    return std::string(s2u_fault_text(fault.name)) + ": byte " + std::to_string(fault.byte) + ", part " +
           std::to_string(fault.part) + ", ring " + std::to_string(fault.ring) + ", position " +
           std::to_string(fault.position);
  }

  s2u_shape_fault fault_;
};

/// A polygon of rings of corners, with a leaf that is known to lie outside. Rings may cross, touch, nest and repeat
/// each other: what is crossed an odd number of times on the way from the leaf outside lies inside. @since 1.4
/// @snippet examples.cc Polygon
struct Polygon {
  /// The corners, ring after ring: the first of a ring follows its last.
  std::vector<s2u_direction> corners;
  /// How many corners there are up to the end of each ring.
  std::vector<size_t> ends;
  /// A leaf that lies outside.
  uint64_t outside = 0;
  /// How near an edge has to come to a leaf to touch it: 0 to 2^60, of which a face has 6 * 2^60 a side.
  uint64_t margin = 0;

  /// Adds a ring of unit vectors with x(), y() and z(), such as S2Point: each is multiplied by 2^31 - 1 and rounded. A
  /// loop of S2 is given by its vertices. @since 1.4
  /// @snippet examples.cc Polygon
  template <class Points>
  void AddRing(const Points& points) {
    for (const auto& point : points) corners.push_back({Rounded(point.x()), Rounded(point.y()), Rounded(point.z())});
    ends.push_back(corners.size());
  }

 private:
  static int64_t Rounded(double part) { return std::llround(part * 2147483647); }
};

template <class Id>
class CellUnionOf;

/// The two coverings of a shape: no place of it is missing from the outer one, and no place outside is in the inner
/// one.
template <class Id>
struct CoveringsOf {
  /// The outer covering.
  CellUnionOf<Id> outer;
  /// The inner covering.
  CellUnionOf<Id> inner;
};

namespace internal {

/// Ends a call that failed, and was given no place for its status. It is apart, so that what calls it stays short
/// enough for a compiler to put it in its place.
[[noreturn]] inline void end_by(int32_t status) {
#if S2UNION_THROWS
  if (status == S2U_MEMORY) throw std::bad_alloc();
  throw Error(status);
#else
  (void)status;
  std::abort();
#endif
}

/// Reports the status of a call: in `outcome`, or if that is null, by an exception. Whether it succeeded.
inline bool succeeded(int32_t status, int32_t* outcome) {
  if (outcome != nullptr) {
    *outcome = status < 0 ? status : S2U_OK;
  } else if (status < 0) {
    end_by(status);
  }
  return status >= 0;
}

/// The room that what a call makes is first given, by the lengths of its lists.
namespace rooms {
// numbers: of the calls
}  // namespace rooms

/// Does what takes memory: S2U_OK, or S2U_MEMORY.
template <class Take>
int32_t taken(Take take) {
#if S2UNION_THROWS
  try {
    take();
  } catch (const std::bad_alloc&) {
    return S2U_MEMORY;
  }
#else
  take();
#endif
  return S2U_OK;
}

/// Gives a string or a vector this size: S2U_OK, or S2U_MEMORY.
template <class List>
int32_t resized(List* list, size_t size) {
  return size > list->max_size() ? S2U_MEMORY : taken([&] { list->resize(size); });
}

/// Memory for numbers that a call writes, which nobody fills before: of the stack if they are few, else of the heap.
class Room {
 public:
  Room() = default;
  Room(const Room&) = delete;
  Room& operator=(const Room&) = delete;
  ~Room() { ::operator delete(heap_); }

  /// Whether it has this many now, at least. Its numbers of before are lost.
  bool has(size_t n) {
    if (n <= size_) return true;
    ::operator delete(heap_);
    heap_ = n > SIZE_MAX / 2 / sizeof few_[0] ? nullptr : ::operator new(n * sizeof few_[0], std::nothrow);
    size_ = heap_ == nullptr ? kFew : n;
    return heap_ != nullptr;
  }
  size_t size() const { return size_; }
  uint64_t* at() { return heap_ == nullptr ? few_ : static_cast<uint64_t*>(heap_); }

 private:
  static constexpr size_t kFew = 256;
  uint64_t few_[kFew];
  void* heap_ = nullptr;
  size_t size_ = kFew;
};

// A cell and its number are the same 64 bits. A vector's memory is aligned for both.
template <class Id>
const uint64_t* numbers(const std::vector<Id>& cells) {
  const void* at = cells.data();
  return static_cast<const uint64_t*>(at);
}
template <class Id>
uint64_t* numbers(std::vector<Id>* cells) {
  void* at = cells->data();
  return static_cast<uint64_t*>(at);
}

/// The bytes of a text.
inline const uint8_t* bytes_of(std::string_view text) {
  const void* at = text.data();
  return static_cast<const uint8_t*>(at);
}

/// Makes a list of these numbers: S2U_OK, or S2U_MEMORY, and then it is as it was.
template <class Id>
int32_t copied(const uint64_t* from, size_t n, std::vector<Id>* list) {
  const void* at = from;
  auto* first = static_cast<const Id*>(at);
  return taken([&] { list->assign(first, first + n); });
}

/// The list that a call makes, in memory of its own size: tries room that nearly always suffices, or what there is
/// memory for, and calls again with what is needed if that doesn't.
template <class Id, class Call>
int32_t listed(size_t most, std::vector<Id>* made, Call call) {
  Room room;
  size_t length = 0;
  room.has(most);
  int32_t found = call(room.at(), room.size(), &length);
  if (found == S2U_ROOM) {
    if (!room.has(length)) return S2U_MEMORY;
    found = call(room.at(), room.size(), &length);
  }
  return found == S2U_OK ? copied(room.at(), length, made) : found;
}

/// Whether a list is that of a union, in n steps.
template <class Id>
bool is_union(const std::vector<Id>& cells) {
  return s2u_is_union(numbers(cells), cells.size()) == 1;
}

/// Normalizes a list in place, unless it is normalized already.
template <class Id>
int32_t normalized(std::vector<Id>* cells) {
  size_t length = 0;
  if (is_union(*cells)) return S2U_OK;
  int32_t found = s2u_normalise(numbers(cells), cells->size(), &length);
  if (found == S2U_OK) cells->resize(length);
  return found;
}

/// The list that another class of unions, such as S2CellUnion, keeps its cells in.
template <class Theirs>
using ListOf = std::decay_t<decltype(std::declval<const Theirs&>().cell_ids())>;

/// Whether a class is one of unions by its type: it has cell_ids(), and is made of normalized cells by FromNormalized,
/// as S2CellUnion.
template <class X, class = void>
constexpr bool is_class_of_unions = false;
template <class X>
constexpr bool is_class_of_unions<X, std::void_t<decltype(X::FromNormalized(std::declval<ListOf<X>>()))>> = true;

/// Whether the cells of a list are those of a union: S2U_OK or S2U_NO_UNION. A union of ours is not asked, and of one
/// of another class an assertion asks.
template <class Id>
int32_t checked(const std::vector<Id>& cells) {
  return is_union(cells) ? S2U_OK : S2U_NO_UNION;
}
template <class Theirs, class = std::enable_if_t<is_class_of_unions<Theirs>>>
int32_t checked(const Theirs& theirs) {
  assert(is_union(theirs.cell_ids()) && "the union isn't normalized");
  (void)theirs;
  return S2U_OK;
}
template <class Id>
int32_t checked(const CellUnionOf<Id>&) {
  return S2U_OK;
}
template <class Id>
const std::vector<Id>& list_of(const std::vector<Id>& cells) {
  return cells;
}
template <class Union, class = std::enable_if_t<is_class_of_unions<Union>>>
const ListOf<Union>& list_of(const Union& cells) {
  return cells.cell_ids();
}

/// The cells that a list or a union has, as a list; and a cell of it.
template <class X>
using CellsOf = std::decay_t<decltype(list_of(std::declval<const X&>()))>;
template <class X>
using CellOf = typename CellsOf<X>::value_type;

/// The result of a call whose first argument is an X: a union of this class, if it is one of unions and not ours;
/// else a list.
template <class X>
constexpr bool is_ours = false;
template <class Id>
constexpr bool is_ours<CellUnionOf<Id>> = true;
/// Whether a class of unions isn't ours; and whether it has cells of this type, or of another one.
template <class X>
constexpr bool is_theirs = is_class_of_unions<X> && !is_ours<X>;
template <class X, class Id, class = void>
constexpr bool is_class_of_unions_of = false;
template <class X, class Id>
constexpr bool is_class_of_unions_of<X, Id, std::enable_if_t<is_theirs<X>>> =
    std::is_same_v<ListOf<X>, std::vector<Id>>;
template <class X, class Id>
constexpr bool is_class_of_unions_of_others = is_theirs<X> && !is_class_of_unions_of<X, Id>;

template <class X>
using MadeOf = std::conditional_t<is_theirs<X>, X, CellsOf<X>>;
template <class X>
MadeOf<X> made_as(CellsOf<X>&& cells) {
  if constexpr (std::is_same_v<MadeOf<X>, CellsOf<X>>) {
    return std::move(cells);
  } else {
    return X::FromNormalized(std::move(cells));
  }
}

/// Whether all leaves of one cell come before those of another.
inline bool comes_before(uint64_t cell, uint64_t other) {
  return cell < other && s2u_range_max(cell) < s2u_range_min(other);
}

/// Whether all leaves of one union come before those of the other, so that they share none. It looks at four cells.
template <class Id>
bool lie_apart(const std::vector<Id>& xs, const std::vector<Id>& ys) {
  if (xs.empty() || ys.empty()) return true;
  const uint64_t *x = numbers(xs), *y = numbers(ys);
  return comes_before(x[xs.size() - 1], y[0]) || comes_before(y[ys.size() - 1], x[0]);
}

/// The result of an operation on two unions that lie apart: it has to be asked for, is empty, or is the first.
enum class Apart { kAsked, kEmpty, kFirst };

/// The list that a call makes of those of two unions. A result that is known at once takes no memory but its own.
template <class Id, class Call>
int32_t made_of_lists(Call call, size_t most, const std::vector<Id>& xs, const std::vector<Id>& ys, Apart apart,
                      std::vector<Id>* made) {
  if (apart != Apart::kAsked && lie_apart(xs, ys)) {
    return apart == Apart::kFirst ? copied(numbers(xs), xs.size(), made) : S2U_OK;
  }
  return listed(most, made, [&](uint64_t* out, size_t room, size_t* len) {
    return call(numbers(xs), xs.size(), numbers(ys), ys.size(), out, room, len);
  });
}

/// The list that a call makes of two, each a list or a union.
template <class Call, class X, class Y>
CellsOf<X> made_of(Call call, size_t most(size_t, size_t), const X& x, const Y& y, int32_t* status,
                   Apart apart = Apart::kAsked) {
  static_assert(std::is_same_v<CellsOf<X>, CellsOf<Y>>, "both have cells of one type");
  CellsOf<X> made;
  const CellsOf<X>&xs = list_of(x), &ys = list_of(y);
  int32_t found = checked(x) == S2U_OK ? checked(y) : S2U_NO_UNION;
  if (found == S2U_OK) found = made_of_lists(call, most(xs.size(), ys.size()), xs, ys, apart, &made);
  succeeded(found, status);
  return made;
}

/// What a call answers about a list or a union.
template <class X, class Ask>
inline bool answer(const X& x, int32_t* status, Ask ask) {
  const CellsOf<X>& xs = list_of(x);
  int32_t found = checked(x);
  if (found == S2U_OK) found = ask(numbers(xs), xs.size());
  return succeeded(found, status) && found == 1;
}
/// The same about two.
template <class X, class Y, class Call>
inline bool answer(const X& x, const Y& y, int32_t* status, Call call) {
  const CellsOf<X>& xs = list_of(x);
  const CellsOf<Y>& ys = list_of(y);
  int32_t found = checked(x) == S2U_OK ? checked(y) : S2U_NO_UNION;
  if (found == S2U_OK) found = call(numbers(xs), xs.size(), numbers(ys), ys.size());
  return succeeded(found, status) && found == 1;
}

template <class Id>
uint64_t number_of(Id id) {
  if constexpr (std::is_integral_v<Id>) {
    return static_cast<uint64_t>(id);
  } else {
    return id.id();
  }
}

/// Whether a type has the number of a cell: an integer of 64 bits, also with a sign, or a class such as S2CellId.
template <class Cell, class = void>
constexpr bool is_cell = std::is_integral_v<Cell> && sizeof(Cell) == sizeof(uint64_t);
template <class Cell>
constexpr bool is_cell<Cell, std::void_t<decltype(uint64_t{std::declval<const Cell&>().id()})>> = true;

template <class, class = void>
constexpr bool is_encoder = false;
template <class Out>
constexpr bool is_encoder<Out, std::void_t<decltype(std::declval<Out&>().Ensure(1))>> = true;

}  // namespace internal

/// A set of leaves, as the one normalized list of cells that covers it. `Id` is uint64_t, or a class that has a cell's
/// number alone, as S2CellId. Equal unions have equal hashes by std::hash. @since 0.1
template <class Id>
class CellUnionOf {
  static_assert(sizeof(Id) == sizeof(uint64_t) && std::is_trivially_copyable_v<Id> && std::is_standard_layout_v<Id>,
                "a cell is 64 bits, and nothing else");
  template <class>
  friend class UnionFileOf;

 public:
  using value_type = Id;     ///< a cell
  using size_type = size_t;  ///< how many cells
  using const_iterator = typename std::vector<Id>::const_iterator;  ///< of the cells, which can't be written
  using iterator = const_iterator;                                  ///< the same

  /// The empty union. @since 0.1
  /// @snippet examples.cc CellUnion
  CellUnionOf() = default;

  /// The union of these cells, in any order, repeated, or inside one another. S2U_NO_CELL. @since 0.1
  /// @snippet examples.cc CellUnion of cells
  explicit CellUnionOf(std::vector<Id>&& cell_ids, int32_t* status = nullptr) { Init(std::move(cell_ids), status); }

  /// The same from a copy of the cells, which may be of another type: numbers where these are a class, or the other way
  /// round. S2U_NO_CELL, S2U_MEMORY. @since 0.1
  /// @snippet examples.cc CellUnion of a copy
  template <class Other, class = std::enable_if_t<internal::is_cell<Other>>>
  explicit CellUnionOf(const std::vector<Other>& cell_ids, int32_t* status = nullptr) {
    Init(cell_ids, status);
  }

  /// The union of the cells of another class, such as S2CellUnion; they need not be normalized. S2U_NO_CELL,
  /// S2U_MEMORY. @since 0.1
  /// @snippet examples.cc CellUnion of another class
  template <class Theirs, class = std::enable_if_t<internal::is_cell<typename internal::ListOf<Theirs>::value_type>>>
  CellUnionOf(const Theirs& theirs, int32_t* status = nullptr) {
    Take(theirs.cell_ids(), status);
  }

  /// The same union in another class of the same cells, such as S2CellUnion of S2CellId: so it goes where S2 asks for
  /// one, as S2CellIndex::Add does. @since 0.1
  /// @snippet examples.cc operator Theirs
  template <class Theirs, std::enable_if_t<internal::is_class_of_unions_of<Theirs, Id>, int> = 0>
  operator Theirs() const& {
    return Theirs::FromNormalized(cell_ids_);
  }
  /// The same without a copy, of a union that is used no more. @since 1.4
  /// @snippet examples.cc operator Theirs of a result
  template <class Theirs, std::enable_if_t<internal::is_class_of_unions_of<Theirs, Id>, int> = 0>
  operator Theirs() && {
    return Theirs::FromNormalized(Release());
  }
  /// The same in a class of other cells, such as S2CellUnion where ours are numbers. @since 0.1
  /// @snippet examples.cc operator Theirs of numbers
  template <class Theirs, std::enable_if_t<internal::is_class_of_unions_of_others<Theirs, Id>, int> = 0>
  explicit operator Theirs() const {
    internal::ListOf<Theirs> cells;
    cells.reserve(size());
    for (Id id : cell_ids_) cells.emplace_back(internal::number_of(id));
    return Theirs::FromNormalized(std::move(cells));
  }

  /// All leaves. S2U_MEMORY. @since 0.1
  /// @snippet examples.cc WholeSphere
  static CellUnionOf WholeSphere(int32_t* status = nullptr) { return Range(kFirstFace, kLastFace, status); }

  /// The union whose cells these are. S2U_NO_UNION if they are not normalized. n steps. @since 0.1
  /// @snippet examples.cc FromNormalized
  static CellUnionOf FromNormalized(std::vector<Id>&& cell_ids, int32_t* status = nullptr) {
    CellUnionOf made;
    if (internal::succeeded(UnionStatus(cell_ids), status)) made.cell_ids_ = std::move(cell_ids);
    return made;
  }
  /// The same from a copy. S2U_NO_UNION, S2U_MEMORY. @since 0.1
  /// @snippet examples.cc FromNormalized of a copy
  static CellUnionOf FromNormalized(const std::vector<Id>& cell_ids, int32_t* status = nullptr) {
    CellUnionOf made;
    int32_t found = UnionStatus(cell_ids);
    if (found == S2U_OK) found = internal::copied(Numbers(cell_ids), cell_ids.size(), &made.cell_ids_);
    internal::succeeded(found, status);
    return made;
  }

  /// The leaves from the first to the last, both included. S2U_NO_CELL, S2U_MEMORY. S2U_ARGUMENT: one is no leaf, or
  /// the last comes before the first. @since 0.1
  /// @snippet examples.cc FromMinMax
  static CellUnionOf FromMinMax(Id min_id, Id max_id, int32_t* status = nullptr) {
    uint64_t first = internal::number_of(min_id), last = internal::number_of(max_id);
    if (!internal::succeeded(LeafStatus(first), status) || !internal::succeeded(LeafStatus(last), status)) return {};
    return Range(first, last, status);
  }

  /// The leaves from `begin` up to `end`, which is not one of them: a leaf, or S2CellId::End(30), after the last leaf.
  /// Empty if both are the same. S2U_NO_CELL, S2U_MEMORY. S2U_ARGUMENT: one is no leaf and not the end, or `end` comes
  /// first. @since 0.1
  /// @snippet examples.cc FromBeginEnd
  static CellUnionOf FromBeginEnd(Id begin, Id end, int32_t* status = nullptr) {
    uint64_t first = internal::number_of(begin), after = internal::number_of(end);
    bool begins_at_end = first == kLeafEnd, ends_at_end = after == kLeafEnd;
    if (!internal::succeeded(begins_at_end ? S2U_OK : LeafStatus(first), status) ||
        !internal::succeeded(ends_at_end ? S2U_OK : LeafStatus(after), status) || first == after) {
      return {};
    }
    uint64_t last = ends_at_end ? s2u_range_max(kLastFace) : s2u_prev(after);
    if (!internal::succeeded(begins_at_end || last == 0 ? S2U_ARGUMENT : S2U_OK, status)) return {};
    return Range(first, last, status);
  }

  /// Becomes the union of these cells, as the constructor makes it; after a refusal it is as it was. S2U_NO_CELL.
  /// @since 0.1
  /// @snippet examples.cc Init
  void Init(std::vector<Id>&& cell_ids, int32_t* status = nullptr) {
    int32_t found = internal::normalized(&cell_ids);
    if (internal::succeeded(found, status)) cell_ids_ = std::move(cell_ids);
  }
  /// The same from a copy of the cells. S2U_NO_CELL, S2U_MEMORY. @since 0.1
  /// @snippet examples.cc Init of a copy
  template <class Other, class = std::enable_if_t<internal::is_cell<Other>>>
  void Init(const std::vector<Other>& cell_ids, int32_t* status = nullptr) {
    Take(cell_ids, status);
  }
  /// Becomes what FromMinMax makes; after a refusal it is as it was. S2U_NO_CELL, S2U_ARGUMENT, S2U_MEMORY. @since 0.1
  /// @snippet examples.cc InitFromMinMax
  void InitFromMinMax(Id min_id, Id max_id, int32_t* status = nullptr) {
    Become([&](int32_t* outcome) { return FromMinMax(min_id, max_id, outcome); }, status);
  }
  /// Becomes what FromBeginEnd makes; after a refusal it is as it was. S2U_NO_CELL, S2U_ARGUMENT, S2U_MEMORY.
  /// @since 0.1
  /// @snippet examples.cc InitFromBeginEnd
  void InitFromBeginEnd(Id begin, Id end, int32_t* status = nullptr) {
    Become([&](int32_t* outcome) { return FromBeginEnd(begin, end, outcome); }, status);
  }

  /// Makes the union empty, and gives its memory back. @since 0.1
  /// @snippet examples.cc Clear
  void Clear() { std::vector<Id>().swap(cell_ids_); }
  /// The cells themselves, moved out; the union is then empty. @since 0.1
  /// @snippet examples.cc Release
  std::vector<Id> Release() { return std::exchange(cell_ids_, {}); }
  /// Gives memory back, by the vector's own shrink_to_fit, if there is room for more than `excess` further cells.
  /// @since 0.1
  /// @snippet examples.cc Pack
  void Pack(size_t excess = 0) {
    if (cell_ids_.capacity() - size() > excess) cell_ids_.shrink_to_fit();
  }
  /// Exchanges two unions, without a copy. @since 0.1
  /// @snippet examples.cc swap
  void swap(CellUnionOf& other) noexcept { cell_ids_.swap(other.cell_ids_); }
  /// The same. @since 0.1
  /// @snippet examples.cc swap
  friend void swap(CellUnionOf& x, CellUnionOf& y) noexcept { x.swap(y); }

  // ---- the cells, in ascending order

  /// How many cells the union has, as an int: right up to 2^31 - 1 cells, 16 GB; above that use size(). @since 0.1
  /// @snippet examples.cc num_cells
  int num_cells() const { return static_cast<int>(size()); }
  /// The cell at a place, which must be below size(): it is not checked. @since 0.1
  /// @snippet examples.cc cell_id
  Id cell_id(size_t place) const { return cell_ids_[place]; }
  /// How many cells the union has. @since 0.1
  /// @snippet examples.cc size
  size_t size() const { return cell_ids_.size(); }
  /// Whether the union has no cells, and so no leaves. @since 0.1
  /// @snippet examples.cc empty
  bool empty() const { return cell_ids_.empty(); }
  /// The cell at a place, which must be below size(): it is not checked. @since 0.1
  /// @snippet examples.cc operator[]
  Id operator[](size_t place) const { return cell_ids_[place]; }
  /// The first cell. Iterators stay good until the union is changed. @since 0.1
  /// @snippet examples.cc begin
  const_iterator begin() const { return cell_ids_.begin(); }
  /// After the last cell. @since 0.1
  /// @snippet examples.cc begin
  const_iterator end() const { return cell_ids_.end(); }
  /// The cells, as long as the union is not changed. @since 0.1
  /// @snippet examples.cc cell_ids
  const std::vector<Id>& cell_ids() const { return cell_ids_; }
  /// The cells as the calls of s2union.h take them, which are questions about many cells at once and the like.
  /// @since 0.1
  /// @snippet examples.cc ids
  const uint64_t* ids() const { return Numbers(cell_ids_); }

  /// Always true. See the static one for lists. @since 0.1
  /// @snippet examples.cc IsValid
  bool IsValid() const { return true; }
  /// Always true. See the static one for lists. @since 0.1
  /// @snippet examples.cc IsNormalized
  bool IsNormalized() const { return true; }
  /// Does nothing. See the static one for lists. @since 0.1
  /// @snippet examples.cc Normalize
  void Normalize() {}

  /// Replaces `output` by the cells, each cut to the least level that is not coarser than its own and is `min_level`,
  /// 0 to 30, or deeper than it by a multiple of `level_mod`, which is 1 to 3; to leaves if there is none. A face has
  /// 4^30 leaves. After a refusal `output` is as it was. S2U_ARGUMENT, S2U_MEMORY. @since 0.1
  /// @snippet examples.cc Denormalize
  void Denormalize(int min_level, int level_mod, std::vector<Id>* output, int32_t* status = nullptr) const {
    Cut(cell_ids_, min_level, level_mod, output, status);
  }

  // ---- as a set of leaves

  // methods: all others

  /// The leaves of any of many unions, which are merged in pairs. Takes memory for four times their cells. S2U_MEMORY.
  /// @since 1.0
  /// @snippet examples.cc UnionOf
  static CellUnionOf UnionOf(const std::vector<CellUnionOf>& unions, int32_t* status = nullptr) {
    CellUnionOf made;
    internal::Room ids, work;
    std::vector<size_t> ends;
    size_t n = 0;
    for (const CellUnionOf& each : unions) n += each.size();
    int32_t found = ids.has(n) && work.has(2 * n) ? internal::resized(&ends, unions.size()) : S2U_MEMORY;
    if (found == S2U_OK) {
      n = 0;
      for (size_t k = 0; k < unions.size(); k++) {
        std::copy_n(unions[k].ids(), unions[k].size(), ids.at() + n);
        ends[k] = n += unions[k].size();
      }
      found = internal::listed(n, &made.cell_ids_, [&](uint64_t* out, size_t room, size_t* len) {
        return s2u_union_of_many(ids.at(), n, ends.data(), ends.size(), work.at(), work.size(), out, room, len);
      });
    }
    internal::succeeded(found, status);
    return made;
  }
  /// The leaves of the cell that the union has. S2U_NO_CELL. log n steps, and one for each cell of the result.
  /// @since 0.1
  /// @snippet examples.cc Intersection with a cell
  CellUnionOf Intersection(Id id, int32_t* status = nullptr) const {
    CellUnionOf made;
    size_t first = 0, count = 0;
    uint64_t number = internal::number_of(id);
    int32_t found = s2u_cells_at(ids(), size(), number, &first, &count);
    if (found == S2U_OK) found = internal::resized(&made.cell_ids_, count);
    if (!internal::succeeded(found, status)) return made;
    if (s2u_contains_cell(ids(), size(), number) == 1) {
      made.cell_ids_[0] = id;  // in place of the one cell that has it
    } else {
      std::copy_n(begin() + static_cast<ptrdiff_t>(first), count, made.cell_ids_.begin());
    }
    return made;
  }

  // ---- coverings of polygons: all cells of one level, normalized; or a few of several levels

  /// The polygon of an S2Polygon or an S2Loop, of the same corners to within 1.5 mm along each axis. Its leaf outside
  /// lies opposite the cap around it that S2 knows, for which S2 makes no index; if the cap is nearly the sphere, it is
  /// one that S2 says is outside, 10 cm and more from each edge. An empty or a full one has no edge, and a polygon
  /// with hardly any outside no such leaf: of these the calls below say S2U_RING or S2U_ARGUMENT. @since 1.4
  /// @snippet examples.cc PolygonOf
  template <class Region>
  static Polygon PolygonOf(const Region& region) {
    using Point = typename std::decay<decltype(VertexOf(region, 0))>::type;
    Polygon polygon;
    AddLoops(region, polygon, 0);
    if (!polygon.ends.empty()) polygon.outside = Opposite(region, 0);
    const size_t places = polygon.ends.empty() ? 0 : 129 + std::min<size_t>(2 * polygon.corners.size(), 512);
    for (size_t k = 0; k < places && polygon.outside == 0; k++) {
      const std::array<double, 3> at = PlaceBeside(polygon.corners, k);
      const double size = std::hypot(std::hypot(at[0], at[1]), at[2]);
      if (!(size > 0)) continue;
      const Point point(at[0] / size, at[1] / size, at[2] / size);
      if (!region.Contains(point) && region.GetDistance(point).radians() > 2e-8) polygon.outside = Id(point).id();
    }
    return polygon;
  }
  /// The cells of the level that have an outer leaf of a polygon: one inside, or one that an edge touches. The level is
  /// 0 to 30. S2U_ARGUMENT, S2U_CORNER, S2U_RING, S2U_MANY, also if edges touch more than 4,000,000 cells of the
  /// level and the margin is wider than a cell, S2U_MEMORY. @since 1.4
  /// @snippet examples.cc PolygonCovering
  static CellUnionOf PolygonCovering(const Polygon& polygon, int level, size_t most = S2U_MOST_COVERING,
                                     int32_t* status = nullptr) {
    return CoveredPolygon(s2u_polygon_outer, polygon, level, most, status);
  }
  /// The cells of the level that have inner leaves of a polygon alone: leaves inside that no edge touches. The level is
  /// 0 to 30. S2U_ARGUMENT, S2U_CORNER, S2U_RING, S2U_MANY, also if edges touch more than 4,000,000 cells of the level,
  /// S2U_MEMORY. @since 1.4
  /// @snippet examples.cc PolygonInteriorCovering
  static CellUnionOf PolygonInteriorCovering(const Polygon& polygon, int level, size_t most = S2U_MOST_COVERING,
                                             int32_t* status = nullptr) {
    return CoveredPolygon(s2u_polygon_inner, polygon, level, most, status);
  }
  /// At most this many cells, or 6 if that is more, that have all outer leaves of a polygon, each with one, none deeper
  /// than `deepest`. Those larger than cells of level `least` are then cut to that level, so that there may be more.
  /// S2U_ARGUMENT, S2U_CORNER, S2U_RING, S2U_MANY, S2U_MEMORY. @since 1.4
  /// @snippet examples.cc PolygonCoveringUpTo
  static std::vector<Id> PolygonCoveringUpTo(const Polygon& polygon, int least, int deepest, size_t cells,
                                             int32_t* status = nullptr) {
    return FewOfPolygon(s2u_polygon_outer_up_to, polygon, least, deepest, cells, status);
  }
  /// At most this many cells that have inner leaves of a polygon alone, none deeper than `deepest`; otherwise as above.
  /// S2U_ARGUMENT, S2U_CORNER, S2U_RING, S2U_MANY, S2U_MEMORY. @since 1.4
  /// @snippet examples.cc PolygonInteriorCoveringUpTo
  static std::vector<Id> PolygonInteriorCoveringUpTo(const Polygon& polygon, int least, int deepest, size_t cells,
                                                     int32_t* status = nullptr) {
    return FewOfPolygon(s2u_polygon_inner_up_to, polygon, least, deepest, cells, status);
  }

  // ---- equality of sets, and the order of their lists, element by element and then by length

  /// Whether both have the same leaves, and so the same list. @since 0.1
  /// @snippet examples.cc operator==
  friend bool operator==(const CellUnionOf& x, const CellUnionOf& y) { return x.Order(y) == 0; }
  /// Whether one has a leaf that the other hasn't. @since 0.1
  /// @snippet examples.cc operator==
  friend bool operator!=(const CellUnionOf& x, const CellUnionOf& y) { return x.Order(y) != 0; }
  /// Whether a class of the same cells, such as S2CellUnion, has the same leaves; its cells need not be normalized.
  /// @since 1.5
  /// @snippet examples.cc operator== of another class
  template <class Theirs, std::enable_if_t<internal::is_class_of_unions_of<Theirs, Id>, int> = 0>
  friend bool operator==(const CellUnionOf& x, const Theirs& y) {
    return x == CellUnionOf(y);
  }
  /// The same, the other way round. @since 1.5
  /// @snippet examples.cc operator== of another class
  template <class Theirs, std::enable_if_t<internal::is_class_of_unions_of<Theirs, Id>, int> = 0>
  friend bool operator==(const Theirs& x, const CellUnionOf& y) {
    return y == x;
  }
  /// Whether one has a leaf that the other hasn't. @since 1.5
  /// @snippet examples.cc operator== of another class
  template <class Theirs, std::enable_if_t<internal::is_class_of_unions_of<Theirs, Id>, int> = 0>
  friend bool operator!=(const CellUnionOf& x, const Theirs& y) {
    return !(x == y);
  }
  /// The same, the other way round. @since 1.5
  /// @snippet examples.cc operator== of another class
  template <class Theirs, std::enable_if_t<internal::is_class_of_unions_of<Theirs, Id>, int> = 0>
  friend bool operator!=(const Theirs& x, const CellUnionOf& y) {
    return !(y == x);
  }
#if defined(__cpp_impl_three_way_comparison) && defined(__cpp_lib_three_way_comparison)
  /// The order of lists, element by element and then by length, for maps and for sorting. @since 1.1
  /// @snippet examples.cc order
  friend std::strong_ordering operator<=>(const CellUnionOf& x, const CellUnionOf& y) { return x.Order(y) <=> 0; }
#else
  /// Whether x comes first in the order of lists, element by element and then by length. @since 1.1
  /// @snippet examples.cc order
  friend bool operator<(const CellUnionOf& x, const CellUnionOf& y) { return x.Order(y) < 0; }
#endif

  // ---- bytes and texts

  /// Appends the union file to what S2's Encoder, a std::string or a std::vector of bytes has. After a refusal `out` is
  /// as it was. S2U_MEMORY. @since 0.1
  /// @snippet examples.cc Encode
  template <class Out>
  void Encode(Out* out, int32_t* status = nullptr) const {
    if constexpr (internal::is_encoder<Out>) {
      std::string bytes;
      int32_t outcome = Appended(&bytes);
      if (!internal::succeeded(outcome, status)) return;
      out->Ensure(bytes.size());
      out->putn(bytes.data(), bytes.size());
    } else {
      internal::succeeded(Appended(out), status);
    }
  }

  /// Becomes the union in a file, whose cells may be in any order. If it is refused, which is not thrown unless memory
  /// ran out, the answer is false and the union as it was. S2U_FILE_*, S2U_MEMORY. @since 0.1
  /// @snippet examples.cc Decode
  bool Decode(const void* bytes, size_t n, int32_t* status = nullptr) {
    std::vector<Id> cells;
    size_t most = internal::rooms::of_decode(n);
    int32_t found = internal::listed(most, &cells, [&](uint64_t* out, size_t room, size_t* len) {
      return s2u_decode(static_cast<const uint8_t*>(bytes), n, out, room, len);
    });
    if (found == S2U_OK) cell_ids_ = std::move(cells);
    if (status != nullptr || found == S2U_MEMORY) internal::succeeded(found, status);
    return found == S2U_OK;
  }

  /// The same from S2's Decoder, which goes on after the file if that is taken, and otherwise stays where it is.
  /// @since 0.1
  /// @snippet examples.cc Decode of S2
  template <class Decoder, class = decltype(std::declval<Decoder&>().avail())>
  bool Decode(Decoder* decoder, int32_t* status = nullptr) {
    size_t size = decoder->avail();
    if (size >= S2U_FILE_SIZE(0)) {
      Decoder ahead = *decoder;
      ahead.get8();
      uint64_t cells = ahead.get64();
      if (cells <= S2U_MOST_IN_FILE(size)) size = S2U_FILE_SIZE(cells);
    }
    bool is_taken = Decode(static_cast<const void*>(decoder->skip(0)), size, status);
    if (is_taken) decoder->skip(static_cast<ptrdiff_t>(size));
    return is_taken;
  }

  /// S2's text: the number of cells, and the tokens of at most 500. @since 0.1
  /// @snippet examples.cc ToString
  std::string ToString() const {
    constexpr size_t kMostShown = 500;
    std::string text = "Size:" + std::to_string(size()) + " S2CellIds:";
    for (size_t place = 0; place < size() && place < kMostShown; place++) {
      char token[S2U_MOST_TOKEN];
      size_t length = 0;
      s2u_token(ids()[place], token, sizeof token, &length);
      text.append(place == 0 ? "" : ",").append(token, length);
    }
    return size() > kMostShown ? text + ",..." : text;
  }
  /// The tokens of all cells, with blanks between them. S2U_MEMORY. @since 1.1
  /// @snippet examples.cc Tokens
  std::string Tokens(int32_t* status = nullptr) const {
    std::string text;
    size_t length = 0;
    int32_t found = internal::resized(&text, S2U_MOST_TOKENS(size()));
    if (found == S2U_OK) found = s2u_tokens(ids(), size(), text.data(), text.size(), &length);
    text.resize(length);
    internal::succeeded(found, status);
    return text;
  }
  /// The union of the cells that a text names: words with blanks, tabs, line ends or commas between them, each a token
  /// or a debug text. S2U_NO_CELL, S2U_MEMORY. @since 1.1
  /// @snippet examples.cc FromTokens
  static CellUnionOf FromTokens(std::string_view text, int32_t* status = nullptr) {
    CellUnionOf made;
    std::vector<Id> cells;
    size_t most = internal::rooms::of_from_tokens(text.size());
    int32_t found = internal::listed(most, &cells, [&](uint64_t* out, size_t room, size_t* len) {
      return s2u_from_tokens(text.data(), text.size(), out, room, len);
    });
    if (internal::succeeded(found, status)) made.Init(std::move(cells), status);
    return made;
  }
  /// Writes ToString(). @since 0.1
  /// @snippet examples.cc operator<<
  friend std::ostream& operator<<(std::ostream& out, const CellUnionOf& x) { return out << x.ToString(); }

  // ---- lists of cells, in memory of the caller's own

  /// Whether these are the cells of a union. n steps. @since 0.1
  /// @snippet examples.cc IsNormalized of a list
  static bool IsNormalized(const std::vector<Id>& cell_ids) {
    return internal::is_union(cell_ids);
  }
  /// Normalizes a list of cells in place. S2U_NO_CELL, and then it is as it was. @since 0.1
  /// @snippet examples.cc Normalize of a list
  static void Normalize(std::vector<Id>* cell_ids, int32_t* status = nullptr) {
    internal::succeeded(internal::normalized(cell_ids), status);
  }
  /// As the one of a union, which `in` must be: it is checked, n steps. It replaces `out`. S2U_NO_UNION, S2U_ARGUMENT,
  /// S2U_MEMORY. @since 0.1
  /// @snippet examples.cc Denormalize of a list
  static void Denormalize(const std::vector<Id>& in, int min_level, int level_mod, std::vector<Id>* out,
                          int32_t* status = nullptr) {
    if (internal::succeeded(UnionStatus(in), status)) Cut(in, min_level, level_mod, out, status);
  }
  /// Replaces `out` by the leaves that two unions share. Both lists are checked, a step for each cell. S2U_NO_UNION,
  /// S2U_MEMORY. @since 0.1
  /// @snippet examples.cc GetIntersection
  static void GetIntersection(const std::vector<Id>& x, const std::vector<Id>& y, std::vector<Id>* out,
                              int32_t* status = nullptr) {
    int32_t found = S2U_OK;
    std::vector<Id> cells = internal::made_of(s2u_intersection, internal::rooms::of_intersection, x, y, &found,
                                              internal::Apart::kEmpty);
    if (internal::succeeded(found, status)) *out = std::move(cells);
  }

 private:
  static constexpr uint64_t kFirstFace = 0x1000000000000000, kLastFace = 0xb000000000000000;
  static constexpr uint64_t kLeafEnd = 0xc000000000000001;  // S2CellId::End(30), which is no cell

  static const uint64_t* Numbers(const std::vector<Id>& cells) { return internal::numbers(cells); }

  static int32_t UnionStatus(const std::vector<Id>& cells) { return IsNormalized(cells) ? S2U_OK : S2U_NO_UNION; }

  static void Cut(const std::vector<Id>& in, int min_level, int level_mod, std::vector<Id>* out, int32_t* status) {
    auto min = static_cast<uint32_t>(min_level), modulus = static_cast<uint32_t>(level_mod);
    uint64_t length = 0;
    int32_t found = s2u_denormalised_len(Numbers(in), in.size(), min, modulus, &length);
    std::vector<Id> cells;
    if (found == S2U_OK) {
      found = internal::listed(length, &cells, [&](uint64_t* at, size_t room, size_t* len) {
        return s2u_denormalised(Numbers(in), in.size(), min, modulus, at, room, len);
      });
    }
    if (internal::succeeded(found, status)) *out = std::move(cells);
  }

  static int32_t LeafStatus(uint64_t number) {
    int32_t level = s2u_level(number);
    return level < 0 || level == 30 ? level : S2U_ARGUMENT;
  }

  /// The union that a call makes.
  template <class Call>
  static CellUnionOf Made(size_t room, int32_t* status, Call call) {
    CellUnionOf made;
    internal::succeeded(internal::listed(room, &made.cell_ids_, call), status);
    return made;
  }

  static CellUnionOf Range(uint64_t first, uint64_t last, int32_t* status) {
    return Made(internal::rooms::of_range(), status, [&](uint64_t* out, size_t room, size_t* len) {
      return s2u_range(first, last, out, room, len);
    });
  }

  template <class Call>
  CellUnionOf Both(Call call, size_t room(size_t, size_t), const CellUnionOf& y, int32_t* status,
                   internal::Apart apart = internal::Apart::kAsked) const {
    CellUnionOf made;
    made.cell_ids_ = internal::made_of(call, room, *this, y, status, apart);
    return made;
  }

  template <class Other>
  void Take(const std::vector<Other>& cells, int32_t* status) {
    std::vector<Id> own;
    int32_t found = S2U_OK;
    if constexpr (std::is_same_v<Other, Id>) {
      found = internal::copied(Numbers(cells), cells.size(), &own);
    } else {
      found = internal::resized(&own, cells.size());
      for (size_t place = 0; place < own.size(); place++) own[place] = Id(internal::number_of(cells[place]));
    }
    if (internal::succeeded(found, status)) Init(std::move(own), status);
  }

  /// Becomes what a call makes, unless it is refused.
  template <class Call>
  void Become(Call call, int32_t* status) {
    int32_t outcome = S2U_OK;
    CellUnionOf made = call(&outcome);
    if (internal::succeeded(outcome, status)) swap(made);
  }

  int32_t Order(const CellUnionOf& y) const { return s2u_compare(ids(), size(), y.ids(), y.size()); }

  template <class Call, class Element>
  static std::vector<bool> AboutEach(Call call, const Element* at, size_t n, const std::vector<Id>& cells,
                                     int32_t* status) {
    std::vector<uint8_t> answers;
    std::vector<bool> made;
    size_t bad = 0;
    int32_t found = internal::resized(&answers, cells.size());
    if (found == S2U_OK) {
      found = call(at, n, Numbers(cells), cells.size(), answers.data(), answers.size(), &bad);
    }
    if (found == S2U_OK) found = internal::resized(&made, cells.size());
    if (internal::succeeded(found, status)) {
      for (size_t place = 0; place < made.size(); place++) made[place] = answers[place] == 1;
    }
    return made;
  }

  // A vertex of a region of S2, which is a polygon with loops or a loop.
  template <class Region>
  static auto VertexOf(const Region& region, int) -> decltype(region.loop(0)->vertex(0));
  template <class Loop>
  static auto VertexOf(const Loop& loop, long) -> decltype(loop.vertex(0));

  // Adds the loops that have edges: one of a single vertex is empty or full.
  template <class Region>
  static auto AddLoops(const Region& region, Polygon& polygon, int) -> decltype(region.loop(0), void()) {
    for (int k = 0; k < region.num_loops(); k++) AddLoops(*region.loop(k), polygon, 0);
  }
  template <class Loop>
  static void AddLoops(const Loop& loop, Polygon& polygon, long) {
    std::vector<typename std::decay<decltype(loop.vertex(0))>::type> ring;
    for (int k = 0; k < loop.num_vertices(); k++) ring.push_back(loop.vertex(k));
    if (ring.size() >= 3) polygon.AddRing(ring);
  }

  // The leaf opposite the cap around a region of S2, if that leaves a degree of the sphere free; else 0.
  template <class Region>
  static auto Opposite(const Region& region, int) -> decltype((void)region.GetCapBound(), uint64_t()) {
    const auto cap = region.GetCapBound();
    return cap.GetRadius().radians() < 3.12 ? Id(-cap.center()).id() : 0;
  }
  template <class Region>
  static uint64_t Opposite(const Region&, long) {
    return 0;
  }

  // Places that may lie outside of a polygon, as directions: the one opposite its corners, 128 that lie as the seeds of
  // a sunflower, and then both sides of each edge, 6 m away.
  static std::array<double, 3> PlaceBeside(const std::vector<s2u_direction>& corners, size_t k) {
    std::array<double, 3> at = {0, 0, 0};
    if (k == 0) {
      for (const s2u_direction& corner : corners)
        at[0] -= static_cast<double>(corner.x), at[1] -= static_cast<double>(corner.y),
            at[2] -= static_cast<double>(corner.z);
      return at;
    }
    if (k <= 128) {
      const double height = (static_cast<double>(k) - 0.5) / 64 - 1, turn = 2.399963229728653 * static_cast<double>(k);
      const double across = std::sqrt(1 - height * height);
      return {across * std::cos(turn), across * std::sin(turn), height};
    }
    const s2u_direction &a = corners[(k - 129) / 2], &b = corners[((k - 129) / 2 + 1) % corners.size()];
    const double x = static_cast<double>(a.x), y = static_cast<double>(a.y), z = static_cast<double>(a.z);
    const double u = static_cast<double>(b.x), v = static_cast<double>(b.y), w = static_cast<double>(b.z);
    const double normal[3] = {y * w - z * v, z * u - x * w, x * v - y * u};
    const double across = std::hypot(std::hypot(normal[0], normal[1]), normal[2]);
    const double side = k % 2 == 0 ? 1e-6 : -1e-6;
    const double far = across > 0 ? side * std::hypot(std::hypot(x + u, y + v), z + w) / across : 0;
    return {x + u + far * normal[0], y + v + far * normal[1], z + w + far * normal[2]};
  }

  template <class Call>
  static CellUnionOf CoveredPolygon(Call call, const Polygon& polygon, int level, size_t most, int32_t* status) {
    return Made(internal::rooms::of_polygon_outer(), status, [&](uint64_t* out, size_t room, size_t* len) {
      return call(polygon.corners.data(), polygon.corners.size(), polygon.ends.data(), polygon.ends.size(),
                  polygon.outside, polygon.margin, static_cast<uint32_t>(level), most, out, room, len);
    });
  }
  template <class Call>
  static std::vector<Id> FewOfPolygon(Call call, const Polygon& polygon, int least, int deepest, size_t cells,
                                      int32_t* status) {
    std::vector<Id> made;
    int32_t found = internal::listed(
        internal::rooms::of_polygon_outer_up_to(), &made, [&](uint64_t* out, size_t room, size_t* len) {
          return call(polygon.corners.data(), polygon.corners.size(), polygon.ends.data(), polygon.ends.size(),
                      polygon.outside, polygon.margin, static_cast<uint32_t>(least), static_cast<uint32_t>(deepest),
                      cells, out, room, len);
        });
    internal::succeeded(found, status);
    return made;
  }

  /// The coverings that a call makes of a shape, one after the other in a list.
  template <class Call>
  static CoveringsOf<Id> Covered(size_t most, s2u_shape_fault* fault, int32_t* status, Call call) {
    CoveringsOf<Id> made;
    std::vector<Id>& cells = made.outer.cell_ids_;
    size_t outer = 0;
    s2u_shape_fault why = {0, 0, 0, 0, 0};
    int32_t found = internal::listed(most, &cells, [&](uint64_t* out, size_t room, size_t* len) {
      return call(out, room, len, &outer, &why);
    });
    if (found == S2U_OK) found = internal::copied(Numbers(cells) + outer, cells.size() - outer, &made.inner.cell_ids_);
    cells.resize(found == S2U_OK ? outer : 0);
    if (found == S2U_SHAPE && fault != nullptr) *fault = why;
#if S2UNION_THROWS
    if (found == S2U_SHAPE && status == nullptr) throw ShapeError(why);
#endif
    internal::succeeded(found, status);
    return made;
  }

  template <class Bytes>
  int32_t Appended(Bytes* out) const {
    static_assert(sizeof(*out->data()) == 1, "a union file goes to a string or a vector of bytes");
    size_t before = out->size(), length = 0;
    int32_t found = internal::resized(out, before + S2U_FILE_SIZE(size()));
    if (found != S2U_OK) return found;
    auto* at = static_cast<uint8_t*>(static_cast<void*>(out->data())) + before;
    found = s2u_encode(ids(), size(), at, S2U_FILE_SIZE(size()), &length);
    if (found != S2U_OK) out->resize(before);
    return found;
  }

  std::vector<Id> cell_ids_;
};

// ---- calls on unions and lists as they are: none is copied. Each of X and Y is a std::vector of cells, a CellUnionOf,
// or another class of unions: one with cell_ids() and FromNormalized, such as S2CellUnion, of which a call makes an X.
// Each call checks a vector, a step for each cell: S2U_NO_UNION if it isn't normalized. A CellUnionOf was checked when
// it was made. An assertion alone looks at the cells of another class, as in S2: with NDEBUG the answer about cells
// that aren't normalized means nothing, but nothing outside of them is read or written.

// functions: all

/// The bytes of a union file, which answer questions in place, as in a mapped file or a row of a table: nothing is
/// copied. They stay where they are, and nobody writes them, as long as the object is used.
template <class Id>
class UnionFileOf {
 public:
  /// Checks the bytes once: they must be those that Encode makes of some union. S2U_FILE_*; S2U_NO_UNION: Decode takes
  /// it. After a refusal, which is thrown or reported, it is the file of the empty union. @since 1.1
  /// @snippet examples.cc UnionFile
  UnionFileOf(const void* bytes, size_t n, int32_t* status = nullptr) {
    const auto* at = static_cast<const uint8_t*>(bytes);
    int32_t found = s2u_file_check(at, n);
    if (!internal::succeeded(found == 0 ? S2U_NO_UNION : found, status)) return;
    bytes_ = at;
    n_ = n;
  }

  /// How many cells the union has. @since 1.1
  /// @snippet examples.cc UnionFile.size
  size_t size() const {
    uint64_t count = 0;
    s2u_file_count(bytes_, n_, &count);
    return static_cast<size_t>(count);
  }
  /// Whether the union has no cells, and so no leaves. @since 1.1
  /// @snippet examples.cc UnionFile.empty
  bool empty() const { return size() == 0; }
  /// How many cells the union has, as an int: right up to 2^31 - 1 cells; above that use size(). @since 1.1
  /// @snippet examples.cc UnionFile.num_cells
  int num_cells() const { return static_cast<int>(size()); }
  /// The cell at a place, in ascending order. 0: there is none. @since 1.1
  /// @snippet examples.cc UnionFile.cell_id
  Id cell_id(size_t place) const {
    uint64_t number = 0;
    s2u_file_cell(bytes_, n_, place, &number);
    return Id(number);
  }

  // methods: all others but file_count

  /// The union itself, copied. S2U_MEMORY. @since 1.1
  /// @snippet examples.cc UnionFile.Union
  CellUnionOf<Id> Union(int32_t* status = nullptr) const {
    CellUnionOf<Id> made;
    made.Decode(static_cast<const void*>(bytes_), n_, status);
    return made;
  }

 private:
  static constexpr uint8_t kEmpty[S2U_FILE_SIZE(0)] = {1};
  const uint8_t* bytes_ = kEmpty;
  size_t n_ = sizeof kEmpty;
};

/// The union whose cells are their identifiers.
using CellUnion = CellUnionOf<uint64_t>;
/// The coverings of a shape by such unions.
using Coverings = CoveringsOf<uint64_t>;
/// The file of such a union.
using UnionFile = UnionFileOf<uint64_t>;

#ifdef S2UNION_JOIN_H
namespace internal {
/// Zones in memory of C, which go with it.
struct HeldZones : s2u_join_zones {
  HeldZones() : s2u_join_zones(s2u_join_none()) {}
  HeldZones(HeldZones&& y) noexcept : HeldZones() { *this = std::move(y); }
  HeldZones& operator=(HeldZones&& y) noexcept {
    std::swap<s2u_join_zones>(*this, y);
    return *this;
  }
  ~HeldZones() { s2u_join_free(this); }
};
}  // namespace internal

/// Polygons that are asked which of them have which places, exactly, also beside their borders: the zones of
/// s2union_join.h. They have a copy of each shape. Edges are straight on the map. One thread at a time asks them.
class Zones {
 public:
  /// No zones. @since 1.5
  /// @snippet examples.cc Zones
  Zones() = default;

  /// How many there are. @since 1.5
  /// @snippet examples.cc Zones
  size_t size() const noexcept { return made_.zones.count; }
  /// Where the shape stands wrong that was last refused. @since 1.5
  /// @snippet examples.cc Zones.fault
  s2u_cover_fault fault() const noexcept { return fault_; }

  /// Adds a shape in WKB and returns its number, which is 0 for the first. After an error, a status of s2union_cover.h
  /// or S2U_MEMORY, the zones are as they were. @since 1.5
  /// @snippet examples.cc Zones.Add
  size_t Add(std::string_view wkb, int32_t* status = nullptr) {
    const void* bytes = wkb.data();
    return Added(s2u_join_add_wkb(&made_, static_cast<const uint8_t*>(bytes), wkb.size(), &fault_), status);
  }
  /// The same of polygons and lines. @since 1.5
  /// @snippet examples.cc Zones.Add of rings
  size_t Add(const s2u_cover_shape& shape, int32_t* status = nullptr) {
    return Added(s2u_join_add_shape(&made_, &shape, &fault_), status);
  }
  /// The same of a box, as s2u_cover_box has it. S2U_ARGUMENT if it ends south of where it begins. @since 1.5
  /// @snippet examples.cc Zones.AddBox
  size_t AddBox(double west, double south, double east, double north, int32_t* status = nullptr) {
    return Added(s2u_join_add_box(&made_, west, south, east, north, &fault_), status);
  }

  /// Each place and each zone that has it, in the order of places, and of zones for each, by s2u_join_pairs_of. With
  /// `borders` a place on a border is in the zone; without, it is in none of the polygons that have that border, and
  /// lines have no place. S2U_ARGUMENT if a place is out of range, or there are fewer longitudes than latitudes, or
  /// more; S2U_MEMORY. @since 1.5
  /// @snippet examples.cc Zones.Pairs
  std::vector<s2u_join_pair> Pairs(const std::vector<double>& longitudes, const std::vector<double>& latitudes,
                                   bool borders, int32_t* status = nullptr) {
    s2u_cover_list found = {nullptr, 0, 0, 0};
    size_t wrong = 0;
    int32_t answer = S2U_ARGUMENT;
    if (longitudes.size() == latitudes.size()) {
      answer = s2u_join_pairs_of(&made_, longitudes.data(), latitudes.data(), longitudes.size(), borders, &found,
                                 &wrong);
    }
    std::vector<s2u_join_pair> pairs;
    const void* at = found.at;
    const s2u_join_pair* first = static_cast<const s2u_join_pair*>(at);
    if (answer == S2U_OK) answer = internal::taken([&] { pairs.assign(first, first + found.count); });
    std::free(found.at);
    internal::succeeded(answer, status);
    return pairs;
  }

 private:
  size_t Added(int32_t answer, int32_t* status) {
#if S2UNION_THROWS
    if (status == nullptr && answer <= S2U_COVER_NUMBER) throw Error(answer, s2u_cover_status_text(answer));
#endif
    return internal::succeeded(answer, status) ? size() - 1 : size();
  }

  internal::HeldZones made_;
  s2u_cover_fault fault_ = {};
};
#endif

}  // namespace throws, or aborts
}  // namespace s2union

/// @cond since doxygen can't place a specialization of another namespace
/// Equal unions have equal hashes.
template <class Id>
struct std::hash<s2union::CellUnionOf<Id>> {
  /// The hash of the bytes of its list.
  size_t operator()(const s2union::CellUnionOf<Id>& x) const noexcept {
    const void* at = x.ids();
    return std::hash<std::string_view>()({static_cast<const char*>(at), sizeof(uint64_t) * x.size()});
  }
};
/// @endcond
#endif
