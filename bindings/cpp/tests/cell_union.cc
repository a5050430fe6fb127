/* The header for C++: what its unions answer, with numbers for cells and with a class for them, and how each refusal is
 * reported: by an exception, and by a status. Linked with libs2union_noheap.a, so that memory can run out. */
#include "as_s2.h"
#include "../../c/tests/tests.h"
#include <s2union.hpp>
#include <set>
#include <sys/wait.h>
#include <unistd.h>
#include <unordered_set>

static bool has_memory = true;

extern "C" s2u_block s2u_heap_take(size_t size, size_t align) {
  static uint64_t nothing[2];
  if (!has_memory) return {0, nothing};
  return {1, malloc(size ? size : align)};
}
extern "C" s2u_block s2u_heap_grow(void* at, size_t, size_t size, size_t align) {
  return {1, realloc(at, size ? size : align)};
}
extern "C" void s2u_heap_give_back(void* at) { free(at); }

#if S2UNION_THROWS
/// The memory of std's lists and strings, which can run out too. gcc warns of a pair of which it inlines one alone.
static bool std_has_memory = true;
[[gnu::noinline]] void* operator new(size_t size) {
  void* at = std_has_memory ? malloc(size ? size : 1) : nullptr;
  if (at == nullptr) throw std::bad_alloc();
  return at;
}
[[gnu::noinline]] void* operator new(size_t size, const std::nothrow_t&) noexcept {
  return std_has_memory ? malloc(size) : nullptr;
}
[[gnu::noinline]] void operator delete(void* at) noexcept { free(at); }
[[gnu::noinline]] void operator delete(void* at, size_t) noexcept { free(at); }
#endif

/// A class whose numbers are too short for cells: no union is made of them.
struct Short {
  std::vector<int32_t> cell_ids() const { return {1}; }
};
static_assert(!std::is_convertible_v<Short, s2union::CellUnion> && std::is_convertible_v<Theirs, s2union::CellUnion>);
static_assert(std::is_convertible_v<s2union::CellUnionOf<Cell>, Theirs>, "where S2 asks for its own union");
static_assert(!std::is_convertible_v<s2union::CellUnion, Theirs>, "of numbers the class has to be named");
static_assert(std::is_constructible_v<Theirs, s2union::CellUnion>);
static_assert(!std::is_convertible_v<s2union::CellUnionOf<Cell>, Short> &&
              !std::is_convertible_v<s2union::CellUnionOf<Cell>, std::vector<Cell>>);

/// That a call is refused with this status, and tells it in both ways. `call` takes the place for the status.
template <class Call>
static void refuses(int32_t want, Call call, const char* what) {
  int32_t status = S2U_OK;
  call(&status);
  check(status == want, what);
#if S2UNION_THROWS
  int32_t thrown = S2U_OK;
  try {
    call(nullptr);
  } catch (const s2union::Error& error) {
    thrown = error.status();
    check(thrown != S2U_MEMORY, what);
    check(strcmp(error.what(), s2u_status_text(want)) == 0, what);
  } catch (const std::bad_alloc&) {
    thrown = S2U_MEMORY;
  }
  check(thrown == want, what);
#endif
}
#define REFUSES(want, call) refuses(want, [&](int32_t* status) { call; }, __FILE__ ": " #call)

static const uint64_t kFace = 0x1000000000000000, kLeafEnd = 0xc000000000000001;

template <class Id>
static std::vector<Id> cells(std::initializer_list<uint64_t> numbers) {
  std::vector<Id> made;
  for (uint64_t number : numbers) made.push_back(Id(number));
  return made;
}

template <class Id>
static void unions() {
  using Union = s2union::CellUnionOf<Id>;
  const uint64_t first = s2u_child(kFace, 0), second = s2u_child(kFace, 1), last = s2u_child(kFace, 3);
  const Union none, face(cells<Id>({kFace})), two(cells<Id>({second, first, s2u_child(first, 2), second}));

  CHECK(none.empty() && none.size() == 0 && none.begin() == none.end() && none.LeafCellsCovered() == 0);
  CHECK(two.cell_ids() == cells<Id>({first, second}) && two.num_cells() == 2 && two.size() == 2 && !two.empty());
  CHECK(two.cell_id(0) == Id(first) && two[1] == Id(second) && two.ids()[1] == second);
  CHECK(two.IsValid() && two.IsNormalized() && Union::WholeSphere().LeafCellsCovered() == 6 * (UINT64_C(1) << 60));
  size_t seen = 0;
  for (Id cell : two) seen += cell == two[seen];
  CHECK(seen == 2);

  using Other = std::conditional_t<std::is_same_v<Id, Cell>, unsigned long long, Cell>;
  CHECK(Union(cells<Other>({second, first})) == two && Union(cells<long long>({second, first})) == two);
  static_assert(!std::is_constructible_v<Union, std::vector<int>> && !std::is_constructible_v<Union, std::string>);
  CHECK(Union::FromNormalized(cells<Id>({first, second})) == two && Union::FromNormalized({}) == none);
  CHECK(Union::FromMinMax(Id(s2u_range_min(first)), Id(s2u_range_max(second))) == two);
  CHECK(Union::FromBeginEnd(Id(s2u_range_min(first)), Id(s2u_range_min(s2u_child(kFace, 2)))) == two);
  CHECK(Union::FromBeginEnd(Id(1), Id(kLeafEnd)) == Union::WholeSphere());
  CHECK(Union::FromBeginEnd(Id(kLeafEnd), Id(kLeafEnd)) == none && Union::FromBeginEnd(Id(7), Id(7)) == none);

  CHECK(two.Contains(Id(s2u_child(first, 3))) && !two.Contains(Id(last)) && !two.Contains(Id(kFace)));
  CHECK(two.Intersects(Id(kFace)) && !two.Intersects(Id(last)));
  CHECK(face.Contains(two) && !two.Contains(face) && two.Contains(none) && two.Intersects(face));
  CHECK(!two.Intersects(Union(cells<Id>({last}))) && !two.Intersects(none));

  const Union rest = face.Difference(two), leaf(cells<Id>({s2u_range_min(first)}));
  CHECK(rest == Union(cells<Id>({s2u_child(kFace, 2), last})) && rest.Union(two) == face && rest != two);
  CHECK(face.Intersection(two) == two && rest.Intersection(two) == none);
  CHECK(face.Difference(leaf).size() == 90 && face.Difference(leaf).Union(leaf) == face);
  CHECK(two.Intersection(Id(kFace)) == two && two.Intersection(Id(last)) == none);
  const uint64_t inside = s2u_child(first, 1);
  CHECK(two.Intersection(Id(inside)) == Union(cells<Id>({inside})));

  std::vector<Id> list;
  two.Denormalize(2, 1, &list);
  CHECK(list.size() == 8 && list[0] == Id(s2u_child(first, 0)) && !Union::IsNormalized(list));
  Union::Normalize(&list);
  CHECK(list == two.cell_ids() && Union::IsNormalized(list));
  Union::GetIntersection(face.cell_ids(), two.cell_ids(), &list);
  CHECK(list == two.cell_ids());
  CHECK(Union::UnionOf({two, face, two}) == face.Union(two) && Union::UnionOf({}) == Union());
  Union::Denormalize(face.cell_ids(), 3, 2, &list);
  CHECK(list.size() == 64);

  Union x = two, y;
  swap(x, y);
  CHECK(x == none && y == two);
  x.swap(y);
  x.Normalize();
  x.Pack();
  CHECK(x == two && x.Release() == two.cell_ids() && x.empty());
  x.Init(cells<Id>({second, first, s2u_child(first, 2), second}));
  const size_t room = x.cell_ids().capacity();
  x.Pack(room - x.size());
  CHECK(room > x.size() && x.cell_ids().capacity() == room);
  x.Pack();
  CHECK(x == two);
  CHECK(x.cell_ids().capacity() == x.size() || !S2UNION_THROWS);  // shrink_to_fit does nothing without exceptions
  x.InitFromMinMax(Id(1), Id(1));
  CHECK(x == Union(cells<Id>({1})));
  x.InitFromBeginEnd(Id(1), Id(5));
  CHECK(x == Union(cells<Id>({1, 3})));
  x.Init(cells<Id>({second, first}));
  CHECK(x == two);
  x.Init(x.cell_ids());
  CHECK(x == two && Union(x.cell_ids()) == two && Union::FromNormalized(x.cell_ids()) == two);
  x.Clear();
  CHECK(x == none && x.cell_ids().capacity() == 0);

  CHECK(none.ToString() == "Size:0 S2CellIds:" && two.ToString() == "Size:2 S2CellIds:04,0c");
  CHECK(face.Difference(leaf).ToString().substr(0, 18) == "Size:90 S2CellIds:");
  std::vector<Id> many;
  for (uint64_t place = 0; place < 501; place++) many.push_back(Id(8 * place + 1));
  const std::string cut = Union(many).ToString();
  CHECK(std::count(cut.begin(), cut.end(), ',') == 500 && cut.substr(cut.size() - 4) == ",...");
  many.pop_back();
  const std::string whole = Union(many).ToString();
  CHECK(std::count(whole.begin(), whole.end(), ',') == 499 && whole.back() != '.');

  REFUSES(S2U_NO_CELL, Union(cells<Id>({first, 0}), status));
  REFUSES(S2U_NO_CELL, Union(std::vector<long long>{-1}, status));
  REFUSES(S2U_NO_CELL, two.Contains(Id(0), status));
  REFUSES(S2U_NO_CELL, two.Intersects(Id(2), status));
  REFUSES(S2U_NO_CELL, two.Intersection(Id(kLeafEnd), status));
  REFUSES(S2U_NO_UNION, Union::FromNormalized(cells<Id>({second, first}), status));
  REFUSES(S2U_NO_UNION, Union::GetIntersection(cells<Id>({second, first}), list, &list, status));
  REFUSES(S2U_NO_UNION, Union::GetIntersection(two.cell_ids(), cells<Id>({second, first}), &list, status));
  REFUSES(S2U_NO_UNION, Union::Denormalize(cells<Id>({second, first}), 3, 1, &list, status));
  REFUSES(S2U_NO_CELL, Union::FromMinMax(Id(0), Id(1), status));
  REFUSES(S2U_NO_CELL, Union::FromMinMax(Id(1), Id(kLeafEnd), status));
  REFUSES(S2U_ARGUMENT, Union::FromMinMax(Id(3), Id(1), status));
  REFUSES(S2U_ARGUMENT, Union::FromMinMax(Id(1), Id(kFace), status));
  REFUSES(S2U_ARGUMENT, Union::FromBeginEnd(Id(3), Id(1), status));
  REFUSES(S2U_ARGUMENT, Union::FromBeginEnd(Id(5), Id(3), status));
  REFUSES(S2U_ARGUMENT, Union::FromBeginEnd(Id(kFace), Id(kLeafEnd), status));
  REFUSES(S2U_ARGUMENT, Union::FromBeginEnd(Id(kFace), Id(kFace), status));
  REFUSES(S2U_NO_CELL, Union::FromBeginEnd(Id(2), Id(2), status));
  REFUSES(S2U_ARGUMENT, Union::FromBeginEnd(Id(kLeafEnd), Id(1), status));
  REFUSES(S2U_ARGUMENT, Union::FromBeginEnd(Id(kLeafEnd), Id(kLeafEnd - 2), status));
  REFUSES(S2U_ARGUMENT, two.Denormalize(31, 1, &list, status));
  REFUSES(S2U_ARGUMENT, two.Denormalize(-1, 1, &list, status));
  REFUSES(S2U_ARGUMENT, two.Denormalize(0, 0, &list, status));
  REFUSES(S2U_MEMORY, Union::WholeSphere().Denormalize(30, 1, &list, status));
  CHECK(list.size() == 64);
  x = two;
  REFUSES(S2U_NO_CELL, x.Init(cells<Id>({1, 0}), status));
  REFUSES(S2U_ARGUMENT, x.InitFromMinMax(Id(3), Id(1), status));
  REFUSES(S2U_ARGUMENT, x.InitFromBeginEnd(Id(3), Id(1), status));
  many = cells<Id>({3, 0, 1});
  REFUSES(S2U_NO_CELL, Union::Normalize(&many, status));
  CHECK(x == two && many == cells<Id>({3, 0, 1}));
  int32_t status = S2U_ROOM;
  CHECK(two.Contains(Id(first), &status) && status == S2U_OK);
  status = S2U_ROOM;
  CHECK(Union::UnionOf({two, face}, &status) == face && status == S2U_OK);

  std::string bytes;
  two.Encode(&bytes);
  has_memory = false;
  REFUSES(S2U_MEMORY, Union::WholeSphere(status));
#if S2UNION_THROWS
  has_memory = true;
  std::vector<Id> moved = list, more = two.cell_ids();
  const std::vector<Other> others = cells<Other>({second, first});
  const std::vector<Union> three = {two, face, rest};
  std_has_memory = false;
  REFUSES(S2U_MEMORY, Union::WholeSphere(status));
  REFUSES(S2U_MEMORY, Union::GetIntersection(two.cell_ids(), two.cell_ids(), &list, status));
  REFUSES(S2U_MEMORY, Union(list, status));
  REFUSES(S2U_MEMORY, Union(others, status));
  REFUSES(S2U_MEMORY, Union::FromNormalized(two.cell_ids(), status));
  REFUSES(S2U_MEMORY, x.Init(list, status));
  REFUSES(S2U_MEMORY, x.Init(others, status));
  REFUSES(S2U_MEMORY, x.InitFromMinMax(Id(1), Id(1), status));
  REFUSES(S2U_MEMORY, x.InitFromBeginEnd(Id(1), Id(3), status));
  REFUSES(S2U_MEMORY, two.Union(face, status));
  REFUSES(S2U_MEMORY, two.Intersection(face, status));
  REFUSES(S2U_MEMORY, two.Intersection(Id(kFace), status));
  REFUSES(S2U_MEMORY, face.Difference(two, status));
  REFUSES(S2U_MEMORY, two.Difference(rest, status));
  REFUSES(S2U_OK, two.Intersection(rest, status));  // they lie apart, and what they share takes no memory
  REFUSES(S2U_MEMORY, two.SymmetricDifference(face, status));
  REFUSES(S2U_MEMORY, two.Complement(status));
  REFUSES(S2U_MEMORY, two.ContainsCells(two.cell_ids(), status));
  status = S2U_OK;
  const bool is_taken = x.Decode(bytes.data(), bytes.size(), &status);
  check(!is_taken && status == S2U_MEMORY, "Decode without memory");
  REFUSES(S2U_MEMORY, two.Ancestors(status));
  REFUSES(S2U_MEMORY, two.Covering(0, 9, status));
  REFUSES(S2U_MEMORY, two.Tokens(status));
  REFUSES(S2U_MEMORY, Union::FromTokens("04", status));
  REFUSES(S2U_MEMORY, s2union::UnionFileOf<Id>(bytes.data(), bytes.size()).Union(status));
  REFUSES(S2U_MEMORY, s2union::UnionFileOf<Id>(bytes.data(), bytes.size()).Ancestors(status));
  REFUSES(S2U_MEMORY, s2union::UnionFileOf<Id>(bytes.data(), bytes.size()).ContainsCells(two.cell_ids(), status));
  REFUSES(S2U_MEMORY, Union::UnionOf(three, status));
  REFUSES(S2U_MEMORY, face.Denormalize(3, 1, &list, status));
  REFUSES(S2U_MEMORY, x.Decode(bytes.data(), bytes.size(), status));
  REFUSES(S2U_OK, Union(std::move(moved), status));
  REFUSES(S2U_OK, Union::FromNormalized(std::move(more), status));
  int32_t found = S2U_OK;
  CHECK(Union::FromNormalized(list, &found).empty() && found == S2U_NO_UNION);  // no copy is made of it
  std_has_memory = true;
  CHECK(list.size() == 64 && x == two);
  has_memory = false;
#endif
  REFUSES(S2U_OK, two.Union(face, status));
  REFUSES(S2U_OK, two.Intersection(face, status));
  REFUSES(S2U_OK, two.Difference(rest, status));
  REFUSES(S2U_OK, x.Decode(bytes.data(), bytes.size(), status));
  CHECK(x == two && bytes.size() == 25);
  REFUSES(S2U_OK, two.Encode(&bytes, status));
  has_memory = true;
}

/// Calls on lists as they are, beside those of unions.
template <class Id>
static void lists() {
  using Union = s2union::CellUnionOf<Id>;
  const uint64_t first = s2u_child(kFace, 0), second = s2u_child(kFace, 1), inside = s2u_child(first, 1);
  const std::vector<Id> face = cells<Id>({kFace}), two = cells<Id>({first, second}), none;
  const std::vector<Id> parts = cells<Id>({inside, s2u_child(kFace, 3)}), wrong = cells<Id>({second, first});
  const Union x(two), y(parts);
  using s2union::Contains, s2union::Intersects, s2union::ContainsCell, s2union::IntersectsCell;
  CHECK(ContainsCell(two, Id(inside)) && ContainsCell(x, Id(inside)) && !ContainsCell(two, Id(kFace)));
  CHECK(IntersectsCell(two, Id(kFace)) && IntersectsCell(x, Id(kFace)) && !IntersectsCell(parts, Id(second)));
  CHECK(Contains(face, two) && Contains(face, x) && !Contains(x, face) && Contains(two, none) && Contains(x, x));
  CHECK(Intersects(two, parts) && Intersects(x, parts) && Intersects(two, y) && !Intersects(none, two));
  CHECK(s2union::Union(two, parts) == x.Union(y).cell_ids() && s2union::Union(x, parts) == x.Union(y).cell_ids());
  CHECK(s2union::Intersection(two, y) == cells<Id>({inside}) && s2union::Intersection(x, none).empty());
  CHECK(s2union::Difference(face, two) == Union(face).Difference(x).cell_ids());
  CHECK(s2union::SymmetricDifference(two, parts) == x.SymmetricDifference(y).cell_ids());
  REFUSES(S2U_NO_UNION, ContainsCell(wrong, Id(first), status));
  REFUSES(S2U_NO_UNION, IntersectsCell(wrong, Id(first), status));
  REFUSES(S2U_NO_CELL, ContainsCell(two, Id(0), status));
  REFUSES(S2U_NO_CELL, IntersectsCell(x, Id(2), status));
  REFUSES(S2U_NO_UNION, Contains(wrong, two, status));
  REFUSES(S2U_NO_UNION, Contains(x, wrong, status));
  REFUSES(S2U_NO_UNION, Intersects(wrong, y, status));
  REFUSES(S2U_NO_UNION, Intersects(two, wrong, status));
  REFUSES(S2U_NO_UNION, s2union::Union(wrong, two, status));
  REFUSES(S2U_NO_UNION, s2union::Intersection(two, wrong, status));
  REFUSES(S2U_NO_UNION, s2union::Difference(wrong, y, status));
  REFUSES(S2U_NO_UNION, s2union::SymmetricDifference(x, wrong, status));
  int32_t status = S2U_OK;
  CHECK(!Contains(face, wrong, &status) && s2union::Union(face, wrong, &status).empty() && status == S2U_NO_UNION);
#if S2UNION_THROWS
  std_has_memory = false;
  REFUSES(S2U_MEMORY, s2union::Union(two, parts, status));
  REFUSES(S2U_OK, s2union::Intersection(two, none, status));
  std_has_memory = true;
#endif
  const Theirs theirs(Union(x).Union(y));  // a result's own list
  CHECK(Union(theirs) == x.Union(y) && Union(static_cast<Theirs>(x)) == x);
}

/// Calls on another class of unions, beside those of ours: they make that class, and an assertion alone looks at it.
static void classes_of_unions() {
  using Union = s2union::CellUnionOf<Cell>;
  const uint64_t first = s2u_child(kFace, 0), inside = s2u_child(first, 1);
  const Theirs face(cells<Cell>({kFace})), two(cells<Cell>({first, s2u_child(kFace, 1)})), part(cells<Cell>({inside}));
  const Union x = two;
  CHECK(s2union::ContainsCell(two, Cell(inside)) && s2union::IntersectsCell(part, Cell(first)));
  CHECK(s2union::Contains(face, two) && !s2union::Contains(x, face) && s2union::Contains(face, x.cell_ids()));
  CHECK(s2union::Intersects(two, part) && !s2union::Intersects(part, s2union::Difference(two, part)));
  const Theirs rest = s2union::Difference(face, two), all = s2union::Union(rest, two);
  CHECK(rest.cell_ids() == Union(face).Difference(x).cell_ids() && all.cell_ids() == face.cell_ids());
  const Theirs shared = s2union::Intersection(two, part.cell_ids()), other = s2union::SymmetricDifference(face, x);
  CHECK(shared.cell_ids() == part.cell_ids() && other.cell_ids() == rest.cell_ids());
  const std::vector<Cell> list = s2union::Union(x, part), of_list = s2union::Union(part.cell_ids(), two);
  CHECK(list == x.cell_ids() && of_list == list);
  const std::vector<Cell> wrong = cells<Cell>({s2u_child(kFace, 1), first});
  REFUSES(S2U_NO_UNION, s2union::Union(two, wrong, status));
  REFUSES(S2U_NO_CELL, s2union::ContainsCell(two, Cell(0), status));
  int32_t status = S2U_OK;
  CHECK(s2union::Difference(two, wrong, &status).cell_ids().empty() && status == S2U_NO_UNION);
#ifdef NDEBUG
  s2union::Union(Theirs(wrong), two, &status);
  CHECK(status == S2U_OK);  // as S2: nobody looked
#else
  fflush(nullptr);
  const pid_t child = fork();
  if (child == 0) {
    close(2);
    s2union::Contains(Theirs(wrong), two);
    _exit(0);
  }
  int ended = 0;
  CHECK(waitpid(child, &ended, 0) == child && WIFSIGNALED(ended) && WTERMSIG(ended) == SIGABRT);
#endif
}

/// Results and lists of many sizes, about where room is taken from the heap, or once more.
template <class Id>
static void rooms() {
  using Union = s2union::CellUnionOf<Id>;
  for (uint64_t n : std::initializer_list<uint64_t>{1, 20, 85, 127, 128, 129, 255, 256, 257, 300, 5000}) {
    std::vector<Id> leaves, all;
    for (uint64_t place = 0; place < n; place++) leaves.push_back(Id(8 * place + 1));
    const Union x(leaves), face(cells<Id>({kFace})), rest = x.Complement();
    CHECK(x.cell_ids() == leaves && rest.Complement() == x && !rest.Intersects(x));
    CHECK(rest.Union(x) == Union::WholeSphere() && rest.size() > n && rest.cell_ids().capacity() == rest.size());
    CHECK(x.Union(face).size() == 1 && x.Intersection(face) == x && face.Difference(face.Difference(x)) == x);
    CHECK(s2union::Difference(leaves, x.cell_ids()).empty() && x.SymmetricDifference(face) == face.Difference(x));
    std::reverse(leaves.begin(), leaves.end());
    CHECK(Union(leaves) == x && !Union::IsNormalized(leaves) == (n > 1));
    face.Intersection(x).Denormalize(30, 1, &all);
    CHECK(all == x.cell_ids());
  }
}

/// A union has memory of its own size.
template <class Id>
static void room_that_is_kept() {
  using Union = s2union::CellUnionOf<Id>;
  std::vector<Id> leaves, shared;
  for (uint64_t place = 0; place < 1000; place++) leaves.push_back(Id(8 * place + 1));
  const Union many(leaves), one(cells<Id>({1})), face(cells<Id>({kFace}));
  const Union both = many.Intersection(one), same = one.Intersection(many), rest = many.Difference(one);
  CHECK(both == one && both.cell_ids().capacity() == 1 && same == one && same.cell_ids().capacity() == 1);
  CHECK(rest.size() == 999 && rest.cell_ids().capacity() == 999);
  const Union none = one.Difference(many);
  CHECK(none.empty() && none.cell_ids().capacity() == 0);
  Union::GetIntersection(leaves, one.cell_ids(), &shared);
  CHECK(shared == one.cell_ids() && shared.capacity() == 1);
  CHECK(face.Intersection(many) == many && many.Intersection(face) == many);  // more than twice the shorter one
  const Union leaf = Union::FromMinMax(Id(1), Id(1)), again = Union::UnionOf({many, many, many});
  CHECK(leaf == one && again == many);
  CHECK(leaf.cell_ids().capacity() == 1 && again.cell_ids().capacity() == 1000);
}

template <class Id>
static void files() {
  using Union = s2union::CellUnionOf<Id>;
  const Union two(cells<Id>({s2u_child(kFace, 0), s2u_child(kFace, 1)}));
  std::string bytes = "before";
  std::vector<unsigned char> same;
  Encoder encoder;
  two.Encode(&bytes);
  two.Encode(&same);
  two.Encode(&encoder);
  CHECK(bytes.size() == 6 + S2U_FILE_SIZE(2) && bytes.substr(0, 6) == "before");
  bytes.erase(0, 6);
  CHECK(encoder.bytes == bytes && encoder.ensured == 25 && std::string(same.begin(), same.end()) == bytes);

  Union x;
  CHECK(x.Decode(bytes.data(), bytes.size()) && x == two);
  int32_t status = S2U_OK;
  x.Clear();
  CHECK(!x.Decode(bytes.data(), bytes.size() - 1) && x.empty());
  CHECK(!x.Decode(bytes.data(), bytes.size() - 1, &status) && status == S2U_FILE_SHORT);
  CHECK(!x.Decode(nullptr, 0, &status) && status == S2U_FILE_SHORT);
  CHECK(!x.Decode((bytes + "a").data(), bytes.size() + 1, &status) && status == S2U_FILE_TRAILING);
  CHECK(x.Decode(bytes.data(), bytes.size(), &status) && status == S2U_OK && x == two);

  const std::string both = bytes + bytes + "\1";
  Decoder decoder(both.data(), both.size());
  for (int round = 0; round < 2; round++) {
    x.Clear();
    CHECK(x.Decode(&decoder) && x == two);
  }
  CHECK(decoder.avail() == 1 && !x.Decode(&decoder, &status) && status == S2U_FILE_SHORT && decoder.avail() == 1);
  std::string lies = bytes;
  for (size_t place = 1; place < 9; place++) lies[place] = static_cast<char>(0xff);
  Decoder long_one(lies.data(), lies.size());
  CHECK(!x.Decode(&long_one, &status) && status == S2U_FILE_SHORT && long_one.avail() == 25 && x == two);
  lies = bytes;
  lies[1] = 3;
  Decoder short_one(lies.data(), lies.size());
  CHECK(!x.Decode(&short_one, &status) && status == S2U_FILE_SHORT);
}

/// From another class and back, and between the header's own.
static void conversions() {
  using Union = s2union::CellUnionOf<Cell>;
  const Theirs theirs(cells<Cell>({s2u_child(kFace, 1), s2u_child(kFace, 0), s2u_child(kFace, 1)}));
  const Union ours = theirs;
  CHECK(ours.ToString() == "Size:2 S2CellIds:04,0c" && ours == theirs && ours.Contains(theirs));
  CHECK(ours.Union(theirs) == ours && ours.Intersection(theirs) == ours);
  CHECK(Theirs(ours).cell_ids() == ours.cell_ids() && static_cast<Theirs>(Union()).cell_ids().empty());
  const Theirs copied = ours, moved = Union(ours);
  CHECK(copied == ours && ours == moved && !(copied != ours) && !(ours != moved));
  CHECK(Union() != copied && copied != Union() && !(Union() == copied) && !(copied == Union()));
  const s2union::CellUnion numbers = ours;
  CHECK(numbers.size() == 2 && numbers[0] == s2u_child(kFace, 0) && Union(numbers) == ours);
  CHECK(Theirs(numbers).cell_ids() == ours.cell_ids());
  const Theirs wrong(cells<Cell>({0}));
  REFUSES(S2U_NO_CELL, Union(wrong, status));
  int32_t status = S2U_OK;
  const Union none(wrong, &status);
  CHECK(status == S2U_NO_CELL && none.empty() && ours.Union(none, &status) == ours && status == S2U_OK);
}

/// That two lists are in the order that std has them in.
static void order(const std::vector<uint64_t>& x, const std::vector<uint64_t>& y) {
  const int32_t wanted = x < y ? -1 : y < x;
  CHECK(s2u_compare(x.data(), x.size(), y.data(), y.size()) == wanted);
  CHECK(s2u_compare(y.data(), y.size(), x.data(), x.size()) == -wanted);
}

/// The order of a list and of what has its beginning.
static void orders(const std::vector<uint64_t>& list) {
  for (size_t cut = 0; cut <= list.size(); cut++) {
    std::vector<uint64_t> other(list.begin(), list.begin() + static_cast<ptrdiff_t>(cut));
    order(list, other);
    other.push_back(draw() % 3 ? random_cell(0, 8, 6) : draw());
    order(list, other);
  }
}

/// Two unions in either order: what they share and what one has alone is what the calls of s2union.h make.
static void of_two(const std::vector<uint64_t>& xs, const std::vector<uint64_t>& ys) {
  using s2union::CellUnion;
  uint64_t out[4000];
  size_t len = 0;
  auto is_out = [&](const std::vector<uint64_t>& made) { return made == std::vector<uint64_t>(out, out + len); };
  const CellUnion x(xs), y(ys);
  std::vector<uint64_t> shared = {7};
  CHECK(s2u_intersection(xs.data(), xs.size(), ys.data(), ys.size(), out, 4000, &len) == S2U_OK);
  CHECK(is_out(x.Intersection(y).cell_ids()) && is_out(y.Intersection(x).cell_ids()));
  CHECK(is_out(s2union::Intersection(xs, y)) && is_out(s2union::Intersection(y, xs)));
  CellUnion::GetIntersection(xs, ys, &shared);
  CHECK(is_out(shared));
  CHECK(s2u_difference(xs.data(), xs.size(), ys.data(), ys.size(), out, 4000, &len) == S2U_OK);
  CHECK(is_out(x.Difference(y).cell_ids()) && is_out(s2union::Difference(xs, ys)));
  CHECK(s2u_difference(ys.data(), ys.size(), xs.data(), xs.size(), out, 4000, &len) == S2U_OK);
  CHECK(is_out(y.Difference(x).cell_ids()) && is_out(s2union::Difference(ys, x)));
}

/// A union cut in two at each place: the parts lie apart, side by side perhaps, or share a child of the cell there.
static void unions_that_lie_apart(const std::vector<uint64_t>& list) {
  for (size_t cut = 0; cut <= list.size(); cut++) {
    const auto at = list.begin() + static_cast<ptrdiff_t>(cut);
    std::vector<uint64_t> head(list.begin(), at), tail(at, list.end());
    of_two(head, tail);
    if (head.empty() || s2u_level(head.back()) == 30) continue;
    for (uint32_t child : {0u, 3u}) {
      tail.insert(tail.begin(), s2u_child(head.back(), child));
      of_two(head, tail);
      tail.erase(tail.begin());
    }
  }
}

/// Random unions: what the methods answer is what the calls of s2union.h do.
static void random_unions() {
  using s2union::CellUnion;
  for (int round = 0; round < 300; round++) {
    uint64_t xs[40], ys[40], out[4000];
    size_t nx = random_union(xs, 40, 0, 6), ny = random_union(ys, draw() % 40, 0, 6), len = 0;
    const CellUnion x(std::vector<uint64_t>(xs, xs + nx)), y(std::vector<uint64_t>(ys, ys + ny));
    auto is_out = [&](const CellUnion& made) { return made.cell_ids() == std::vector<uint64_t>(out, out + len); };
    CHECK(s2u_union(xs, nx, ys, ny, out, 4000, &len) == S2U_OK && is_out(x.Union(y)));
    CHECK(s2u_intersection(xs, nx, ys, ny, out, 4000, &len) == S2U_OK && is_out(x.Intersection(y)));
    CHECK(s2u_difference(xs, nx, ys, ny, out, 4000, &len) == S2U_OK && is_out(x.Difference(y)));
    CHECK(s2u_symmetric_difference(xs, nx, ys, ny, out, 4000, &len) == S2U_OK && is_out(x.SymmetricDifference(y)));
    CHECK(x.SymmetricDifference(y) == x.Difference(y).Union(y.Difference(x)));
    CHECK(s2u_complement(xs, nx, out, 4000, &len) == S2U_OK && is_out(x.Complement()));
    CHECK(x.Complement() == CellUnion::WholeSphere().Difference(x));
    CHECK(s2u_contains(xs, nx, ys, ny) == x.Contains(y) && s2u_intersects(xs, nx, ys, ny) == x.Intersects(y));
    orders(x.cell_ids());
    order(x.cell_ids(), y.cell_ids());
    if (round % 20 == 0) unions_that_lie_apart(x.cell_ids());
    CHECK((x == y) == (x.cell_ids() == y.cell_ids()));
    uint64_t cell = random_cell(0, 8, 6);
    CHECK(s2u_intersection(xs, nx, &cell, 1, out, 4000, &len) == S2U_OK && is_out(x.Intersection(cell)));
    CHECK(s2u_contains_cell(xs, nx, cell) == x.Contains(cell));
    CHECK(s2u_intersects_cell(xs, nx, cell) == x.Intersects(cell));
  }
}

/// What answers about many cells, coverings, texts, order, hashes, and files.
template <class Id>
static void collections() {
  using Union = s2union::CellUnionOf<Id>;
  using File = s2union::UnionFileOf<Id>;
  const uint64_t first = s2u_child(kFace, 0), second = s2u_child(kFace, 1);
  const Union two(cells<Id>({first, second})), face(cells<Id>({kFace})), none;
  static_assert(std::is_same_v<typename Union::value_type, Id> && sizeof(typename Union::iterator) > 0);
  CHECK(two.ContainsCells(cells<Id>({first, kFace, 1})) == std::vector<bool>({true, false, true}));
  CHECK(two.IntersectsCells(cells<Id>({first, kFace, s2u_child(kFace, 3)})) == std::vector<bool>({true, true, false}));
  CHECK(two.Ancestors() == cells<Id>({first, second, kFace}));
  CHECK(two.Covering(0) == face && two.InteriorCovering(0) == none && two.InteriorCovering(1, 2) == two);
  const s2u_rect edge = {0, 0, (1u << 30) - 1, 0, 0};
  CHECK(Union::CoveringOf(edge, 1).Tokens() == "04 1c" && Union::InteriorCoveringOf(edge, 1) == none);
  const s2u_rect leaf = {0, 0, 0, 0, 0};
  CHECK(two.CoveringIn(edge, 1).Tokens() == "04" && two.InteriorCoveringIn(leaf, 30).Tokens() == "0000000000000001");
  struct Point {
    double x() const { return at; }
    double y() const { return at / 2; }
    double z() const { return 1 - at; }
    double at;
  };
  s2union::Polygon triangle{{{10, 1, 1}, {10, 9, 1}, {10, 1, 9}}, {3}, s2u_from_face_ij(3, 0, 0), 0};
  CHECK(Union::PolygonCovering(triangle, 3).Tokens() == "11 13 144 17");
  CHECK(Union::PolygonInteriorCovering(triangle, 3).Tokens() == "114");
  CHECK(Union(Union::PolygonCoveringUpTo(triangle, 0, 30, 4)) == Union::PolygonCovering(triangle, 3));
  CHECK(Union::PolygonCoveringUpTo(triangle, 3, 30, 4).size() == 13);
  CHECK(Union(Union::PolygonInteriorCoveringUpTo(triangle, 0, 3, 4)) == Union::PolygonInteriorCovering(triangle, 3));
  REFUSES(S2U_MANY, Union::PolygonCovering(triangle, 3, 3, status));
  REFUSES(S2U_ARGUMENT, Union::PolygonInteriorCovering(triangle, -1, 9, status));
  REFUSES(S2U_ARGUMENT, Union::PolygonCoveringUpTo(triangle, 4, 3, 9, status));
  const std::vector<Place> octant = {{1, 0, 0}, {0, 1, 0}, {0, 0, 1}};
  using OfCells = s2union::CellUnionOf<Cell>;
  const s2union::Polygon one = OfCells::PolygonOf(Loop(octant)), most = OfCells::PolygonOf(Loop(octant, true));
  CHECK(one.corners.size() == 3 && one.corners[1].y == 2147483647 && one.ends == std::vector<size_t>{3});
  CHECK(one.outside == s2u_from_face_ij(3, 1u << 29, 1u << 29) && most.outside >> 61 == 0);
  CHECK(OfCells::PolygonOf(Loops{Loop(octant)}).corners.size() == 3);
  Capped::asked = 0;
  CHECK(OfCells::PolygonOf(Capped(Loop(octant), 1)).outside == one.outside && Capped::asked == 0);
  CHECK(OfCells::PolygonOf(Capped(Loop(octant, true), 3.13)).outside == most.outside && Capped::asked > 0);
  CHECK(OfCells::PolygonOf(Capped(Loop({{0, 0, 1}}), -1)).outside == 0);
  CHECK(OfCells::PolygonOf(Loop({{0, 0, 1}})).ends.empty());
  CHECK(OfCells::PolygonOf(Loop(octant, true, 1e-3)).outside == 0);
  CHECK(OfCells::PolygonOf(Loop({{1, 0, 0}, {1, 0, 0}, {0, 1, 0}, {0, 0, 1}}, true)).outside >> 61 == 0);
  CHECK(OfCells::PolygonOf(Loop({{1, 0, 0}, {0, 1, 0}, {-1, 0, 0}, {0, -1, 0}})).outside != 0);
  CHECK(OfCells::PolygonInteriorCovering(one, 2).size() == 3);
  triangle.AddRing(std::vector<Point>{{1}, {0}});
  CHECK(triangle.ends.back() == 5 && triangle.corners[3].y == 1073741824);
  REFUSES(S2U_RING, Union::PolygonInteriorCoveringUpTo(triangle, 0, 3, 9, status));
  CHECK(Union::FromTokens("0/1, 04") == two && Union::FromTokens("").Tokens().empty());
  CHECK(two < face && !(face < two) && std::set<Union>({face, two, face}).size() == 2);
  CHECK(std::unordered_set<Union>({face, two, face}).size() == 2 && std::hash<Union>()(none) == std::hash<Union>()({}));
  CHECK(std::hash<Union>()(two) != std::hash<Union>()(Union(cells<Id>({first, s2u_child(kFace, 2)}))));
  REFUSES(S2U_NO_CELL, two.ContainsCells(cells<Id>({first, 2}), status));
  REFUSES(S2U_NO_CELL, two.IntersectsCells(cells<Id>({0}), status));
  REFUSES(S2U_NO_CELL, Union::FromTokens("04 x", status));
  REFUSES(S2U_MANY, two.Covering(1, 1, status));
  REFUSES(S2U_ARGUMENT, two.InteriorCovering(31, 9, status));
  REFUSES(S2U_ARGUMENT, Union::CoveringOf(edge, -1, 9, status));
  REFUSES(S2U_MANY, Union::CoveringOf(edge, 1, 1, status));
  REFUSES(S2U_MANY, two.CoveringIn(edge, 2, 1, status));

  std::string bytes, other;
  two.Encode(&bytes);
  face.Encode(&other);
  const File file(bytes.data(), bytes.size()), whole(other.data(), other.size());
  CHECK(file.size() == 2 && file.num_cells() == 2 && !file.empty() && file.cell_id(1) == Id(second));
  CHECK(file.cell_id(2) == Id(0) && file.LeafCellsCovered() == two.LeafCellsCovered() && file.Union() == two);
  CHECK(file.Contains(Id(first)) && !file.Contains(Id(kFace)) && file.Intersects(Id(kFace)));
  CHECK(!file.Intersects(Id(s2u_child(kFace, 3))));
  CHECK(file.Ancestors() == cells<Id>({first, second, kFace}));
  CHECK(whole.Contains(file) && !file.Contains(whole) && file.Intersects(whole));
  REFUSES(S2U_NO_CELL, file.Contains(Id(2), status));
  REFUSES(S2U_NO_CELL, file.Intersects(Id(2), status));
  REFUSES(S2U_FILE_SHORT, File(bytes.data(), 3, status));
  int32_t found = S2U_OK;
  std::swap_ranges(bytes.begin() + 9, bytes.begin() + 17, bytes.begin() + 17);
  CHECK(File(bytes.data(), bytes.size(), &found).empty() && found == S2U_NO_UNION);
}

/// Leaves far apart have more ancestors than there is first room for.
template <class Id>
static void ancestors() {
  std::vector<Id> leaves;
  std::set<uint64_t> wanted;
  for (uint32_t place = 0; place < 60; place++) {
    const uint64_t leaf = s2u_from_face_ij(place % 6, place << 24, place << 23);
    leaves.push_back(Id(leaf));
    for (uint32_t level = 0; level <= 30; level++) wanted.insert(s2u_parent(leaf, level));
  }
  const s2union::CellUnionOf<Id> far(leaves);
  std::string bytes;
  far.Encode(&bytes);
  const std::vector<Id> found = far.Ancestors();
  CHECK(far.size() == 60 && found.size() == wanted.size() && found.size() > 2 * far.size() + 30);
  CHECK(std::equal(found.begin(), found.end(), wanted.begin(), [](Id x, uint64_t y) { return x == Id(y); }));
  const s2union::UnionFileOf<Id> file(bytes.data(), bytes.size());
  CHECK(file.Ancestors() == found && file.ContainsCells(found) == far.ContainsCells(found));
  REFUSES(S2U_NO_CELL, file.ContainsCells({Id(1), Id(2)}, status));
}

template <class Id>
static void shapes() {
  using Union = s2union::CellUnionOf<Id>;
  const std::string square = R"({"type": "Polygon", "coordinates": [[[0,0], [20,0], [20,20], [0,20], [0,0]]]})";
  const std::string empty("\0\0\0\0\6\0\0\0\0", 9);
  int32_t status = S2U_SHAPE;
  s2u_shape_fault fault = {99, 0, 0, 0, 0};
  const s2union::CoveringsOf<Id> made = Union::CoverGeoJson(square, 6, S2U_MAP_WORK, &fault, &status);
  CHECK(status == S2U_OK && fault.name == 99 && made.outer.size() == 81 && made.inner.size() == 38);
  CHECK(made.outer.Contains(made.inner) && !made.inner.Contains(made.outer));
  const s2union::CoveringsOf<Id> many = Union::CoverGeoJson(square, 12);
  CHECK(many.outer.size() + many.inner.size() > 4096 && made.outer.Contains(many.outer));
  CHECK(Union::CoverWkb(empty, 30).outer.empty() && Union::CoverWkb(empty, 0).inner.empty());
  const s2union::CoveringsOf<Id> curved = Union::CoverGeodesicGeoJson(square, 6, 1000);
  CHECK(curved.outer.Contains(curved.inner) && !curved.inner.empty());
  CHECK(Union::CoverGeodesicWkb(empty, 6, 9).outer.empty());
  REFUSES(S2U_MANY, Union::CoverGeodesicGeoJson(square, 6, 9, nullptr, status));
  const s2union::CoveringsOf<Id> few = Union::CoverGeoJsonUpTo(square, 30, 8);
  CHECK(few.outer.size() <= 8 && few.inner.size() <= 8 && few.outer.Contains(made.inner));
  CHECK(made.outer.Contains(few.inner) && Union::CoverWkbUpTo(empty, 30, 8).outer.empty());
  REFUSES(S2U_ARGUMENT, Union::CoverGeoJsonUpTo(square, 31, 8, nullptr, status));
  REFUSES(S2U_ARGUMENT, Union::CoverGeoJson(square, 31, S2U_MAP_WORK, nullptr, status));
  REFUSES(S2U_ARGUMENT, Union::CoverWkb(empty, -1, S2U_MAP_WORK, nullptr, status));
  REFUSES(S2U_MANY, Union::CoverGeoJson(square, 6, 100, &fault, status));
  CHECK(fault.name == 99);
  CHECK(Union::CoverWkb({empty.data(), 7}, 6, S2U_MAP_WORK, &fault, &status).outer.empty() && status == S2U_SHAPE);
  CHECK(fault.name == S2U_FAULT_TRUNCATED && fault.byte == 5 && fault.part == 0);
#if S2UNION_THROWS
  try {
    Union::CoverWkb({empty.data(), 7}, 6);
    CHECK(false);
  } catch (const s2union::ShapeError& error) {
    CHECK(std::string(error.what()) == "bytes are missing: byte 5, part 0, ring 0, position 0");
    CHECK(error.fault().name == S2U_FAULT_TRUNCATED && error.status() == S2U_SHAPE);
  }
#endif
  has_memory = false;
  REFUSES(S2U_MEMORY, Union::CoverGeoJson(square, 6, S2U_MAP_WORK, nullptr, status));
  has_memory = true;
}

int main() {
  shapes<uint64_t>();
  shapes<Cell>();
  unions<uint64_t>();
  collections<uint64_t>();
  collections<Cell>();
  ancestors<uint64_t>();
  ancestors<Cell>();
  unions<Cell>();
  lists<uint64_t>();
  lists<Cell>();
  classes_of_unions();
  rooms<uint64_t>();
  rooms<Cell>();
  room_that_is_kept<uint64_t>();
  room_that_is_kept<Cell>();
  files<uint64_t>();
  files<Cell>();
  conversions();
  random_unions();
  return report();
}
