// The lines of a script, answered by a plain loop: plain s2|hand FOLDER <SCRIPT. What the calculator does besides, this
// doesn't: no history, no change is kept, no line is refused, and all answers wait for the end of a block. `s2` has
// S2's cells and unions; `hand` has lists of numbers and the hand-written code of limit.h. `load` reads a union file of
// FOLDER. Words are what the calculator takes, and are not tested.
#include <absl/strings/string_view.h>
#include <s2/s2cell_id.h>
#include <s2/s2cell_union.h>

#include <array>
#include <cstdio>
#include <cstdlib>
#include <cstring>

#include "limit.h"
#include "rectangle.h"

using Word = absl::string_view;

// Answers, which go to standard output when a block is full.
class Answers {
 public:
  ~Answers() { flush(); }

  char* room(size_t bytes) {
    if (sizeof block_ - used_ < bytes) flush();
    return block_ + used_;
  }
  void used_to(const char* end) { used_ = end - block_; }

  Answers& text(Word word) {
    char* at = room(word.size());
    memcpy(at, word.data(), word.size());
    used_to(at + word.size());
    return *this;
  }

  Answers& number(u64 value) {
    char digits[20], *at = digits + 20;
    do *--at = '0' + value % 10;
    while (value /= 10);
    return text({at, static_cast<size_t>(digits + 20 - at)});
  }

 private:
  void flush() {
    if (fwrite(block_, 1, used_, stdout) != used_) exit(1);
    used_ = 0;
  }

  char block_[65536];
  size_t used_ = 0;
};

static u64 number_of(Word word) {
  u64 value = 0;
  for (char digit : word) value = 10 * value + (digit - '0');
  return value;
}

// Cells and unions by S2's calls.
struct ByS2 {
  using Cell = S2CellId;
  using List = std::vector<S2CellId>;

  static Cell named(Word word) {
    return word.size() > 1 && word[1] == '/' ? Cell::FromDebugString(word) : Cell::FromToken(word);
  }
  static Cell of(u64 id) { return Cell(id); }
  static u64 id(Cell cell) { return cell.id(); }
  static Cell first(Cell cell) { return cell.range_min(); }
  static Cell last(Cell cell) { return cell.range_max(); }
  static bool has(Cell cell, Cell other) { return cell.contains(other); }
  static bool is_face(Cell cell) { return cell.is_face(); }
  static Cell parent(Cell cell) { return cell.parent(); }
  static Cell child(Cell cell, int k) { return cell.child(k); }
  static int position(Cell cell) { return cell.child_position(cell.level()); }
  static int level(Cell cell) { return cell.level(); }
  static void token(Answers& out, Cell cell) { out.text(cell.ToToken()); }
  static void debug_text(Answers& out, Cell cell) { out.text(cell.ToString()); }

  using Union = S2CellUnion;
  static const List& cells(const Union& all) { return all.cell_ids(); }
  static List taken(Union& all) { return all.Release(); }
  static Union made(List cells) { return Union::FromVerbatim(std::move(cells)); }
  static Union normalised(List cells) { return Union(std::move(cells)); }
  static bool contains(const Union& x, Cell cell) { return x.Contains(cell); }
  static bool touches(const Union& x, Cell cell) { return x.Intersects(cell); }
  static bool covers(const Union& x, const Union& y) { return x.Contains(y); }
  static bool meets(const Union& x, const Union& y) { return x.Intersects(y); }
  static Union unite(const Union& x, const Union& y) { return x.Union(y); }
  static Union intersect(const Union& x, const Union& y) { return x.Intersection(y); }
  static Union subtract(const Union& x, const Union& y) { return x.Difference(y); }
  static Union range(Cell from, Cell to) { return Union::FromMinMax(from.range_min(), to.range_max()); }
  static List denormalised(const Union& x, int level, int step) {
    List cells;
    x.Denormalize(level, step, &cells);
    return cells;
  }
  static Union outer(const Union& x, int level) {
    List cells;
    for (Cell cell : x) {
      Cell part = cell.level() > level ? cell.parent(level) : cell;
      if (cells.empty() || cells.back() != part) cells.push_back(part);
    }
    return Union(std::move(cells));
  }
};

// Cells and unions as numbers.
struct ByHand {
  using Cell = u64;
  using List = ::List;

  static Cell named(Word word) {
    if (word.size() > 1 && word[1] == '/') {
      u64 id = word[0] - '0';
      for (char digit : word.substr(2)) id = id << 2 | (digit - '0');
      return (2 * id + 1) << (2 * (30 - (word.size() - 2)));
    }
    u64 id = 0;
    for (char digit : word) id = id << 4 | ((digit & 15) + 9 * (digit >> 6));
    return id << (64 - 4 * word.size());
  }
  static Cell of(u64 id) { return id; }
  static u64 id(Cell cell) { return cell; }
  static Cell first(Cell cell) { return limit::least(cell); }
  static Cell last(Cell cell) { return limit::most(cell); }
  static bool has(Cell cell, Cell other) { return limit::least(cell) <= other && other <= limit::most(cell); }
  static bool is_face(Cell cell) { return lowest_bit(cell) == FACE_LEAVES; }
  static Cell parent(Cell cell) { return (cell & -(4 * lowest_bit(cell))) | 4 * lowest_bit(cell); }
  static Cell child(Cell cell, int k) { return child_of(cell, k); }
  static int position(Cell cell) { return cell / lowest_bit(cell) >> 1 & 3; }
  static int level(Cell cell) { return limit::level_of(cell); }
  static void token(Answers& out, Cell cell) {
    char* at = out.room(16);
    for (int k = 0; k < 16; k++) at[k] = "0123456789abcdef"[cell >> (60 - 4 * k) & 15];
    out.used_to(at + 16 - __builtin_ctzll(cell) / 4);
  }
  static void debug_text(Answers& out, Cell cell) {
    int levels = limit::level_of(cell);
    char* at = out.room(32);
    at[0] = '0' + (cell >> 61), at[1] = '/';
    for (int k = 0; k < levels; k++) at[2 + k] = '0' + (cell >> (59 - 2 * k) & 3);
    out.used_to(at + 2 + levels);
  }

  using Union = ::List;
  static const List& cells(const Union& all) { return all; }
  static List taken(Union& all) { return std::move(all); }
  static Union made(List cells) { return cells; }
  static Union normalised(List cells) {
    std::sort(cells.begin(), cells.end());
    cells.resize(limit::normalise(cells.data(), cells.size()));
    return cells;
  }
  static bool contains(const Union& x, Cell cell) { return limit::count_held(x.data(), x.size(), {cell}) == 1; }
  static bool touches(const Union& x, Cell cell) { return limit::meets(x.data(), x.size(), &cell, 1); }
  static bool covers(const Union& x, const Union& y) {
    return limit::has_all(x.data(), x.size(), y.data(), y.size());
  }
  static bool meets(const Union& x, const Union& y) { return limit::meets(x.data(), x.size(), y.data(), y.size()); }
  template <typename Operation>
  static Union in_room(size_t most, Operation operation) {
    static List room;
    if (room.size() < most) room.resize(most);
    return {room.begin(), room.begin() + operation(room.data())};
  }
  static Union unite(const Union& x, const Union& y) {
    return in_room(x.size() + y.size(), [&](u64* out) {
      return limit::unite(x.data(), x.size(), y.data(), y.size(), out);
    });
  }
  static Union intersect(const Union& x, const Union& y) {
    return in_room(x.size() + y.size(), [&](u64* out) {
      return limit::intersect(x.data(), x.size(), y.data(), y.size(), out);
    });
  }
  static Union subtract(const Union& x, const Union& y) {
    return in_room(x.size() + 90 * y.size(), [&](u64* out) {
      return limit::subtract(x.data(), x.size(), y.data(), y.size(), out);
    });
  }
  static Union range(Cell from, Cell to) {
    u64 out[200];
    u64* end = limit::fill(limit::least(from) / 2, limit::most(to) / 2 + 1, out);
    return {out, end};
  }
  static List denormalised(const Union& x, int level, int step) {
    size_t most = 0;
    for (u64 cell : x) {
      int own = limit::level_of(cell);
      most += size_t{1} << 2 * (limit::wanted_level(own, level, step) - own);
    }
    return in_room(most, [&](u64* out) { return limit::denormalise(x.data(), x.size(), level, step, out); });
  }
  static Union outer(const Union& x, int level) {
    return in_room(x.size(), [&](u64* out) { return limit::outer(x.data(), x.size(), level, out); });
  }
};

template <typename By>
class Loop {
  using Cell = typename By::Cell;
  using List = typename By::List;
  using Union = typename By::Union;

 public:
  explicit Loop(const char* folder) : folder_(folder) {}

  void line(Word text) {
    size_t n = 0;
    while (!text.empty()) {
      size_t end = std::min(text.find(' '), text.size());
      words_[n++] = text.substr(0, end);
      text.remove_prefix(std::min(end + 1, text.size()));
    }
    if (n > 0) carry_out(words_.data(), n);
  }

 private:
  Union& at(Word word) { return registers_[word[0] - 'a']; }

  void carry_out(const Word* words, size_t n) {
    Word name = words[0];
    if (name == "cell") describe(By::named(words[1]));
    else if (name == "at") describe(By::of(leaf_at(words + 1)));
    else if (name == "square") square(By::named(words[1]));
    else if (name == "has") yes_or_no(By::contains(at(words[1]), By::named(words[2])));
    else if (name == "touches") yes_or_no(By::touches(at(words[1]), By::named(words[2])));
    else if (name == "covers") yes_or_no(By::covers(at(words[1]), at(words[2])));
    else if (name == "meets") yes_or_no(By::meets(at(words[1]), at(words[2])));
    else if (name == "show") list(By::cells(at(words[1])));
    else if (name == "denorm") list(By::denormalised(at(words[1]), number_of(words[2]), number_of(words[3])));
    else if (name == "count") count(By::cells(at(words[1])));
    else if (name == "add") each(words, n, &Loop::add);
    else if (name == "remove") each(words, n, &Loop::remove);
    else if (name == "load") replace(words[1], loaded(words[2]));
    else if (name == "keep") keep(at(words[1]), By::named(words[2]));
    else if (name == "copy") replace(words[1], Union(at(words[2])));
    else if (name == "clear") replace(words[1], Union());
    else if (name == "union") replace(words[1], By::unite(at(words[1]), at(words[2])));
    else if (name == "intersect") replace(words[1], By::intersect(at(words[1]), at(words[2])));
    else if (name == "subtract") replace(words[1], By::subtract(at(words[1]), at(words[2])));
    else if (name == "range") replace(words[1], By::range(By::named(words[2]), By::named(words[3])));
    else if (name == "outer") replace(words[1], covering(words + 2));
    else if (name == "outerof") replace(words[1], By::outer(at(words[2]), number_of(words[3])));
    else exit(2);
  }

  static u64 leaf_at(const Word* words) {
    return S2CellId::FromFaceIJ(number_of(words[0]), number_of(words[1]), number_of(words[2])).id();
  }

  void describe(Cell cell) {
    out_.text("cell ");
    By::token(out_, cell);
    By::debug_text(out_.text(" "), cell);
    out_.text(" level ").number(By::level(cell)).text(" face ").number(By::id(cell) >> 61);
    out_.text(" leaves ").number(By::id(By::first(cell)) / 2);
    out_.text(" ").number(By::id(By::last(cell)) / 2).text("\n");
  }

  void square(Cell cell) {
    S2CellId id(By::id(cell));
    int i, j, face = id.ToFaceIJOrientation(&i, &j, nullptr), size = id.GetSizeIJ();
    out_.text("face ").number(face).text(" i ").number(i & -size).text(" j ").number(j & -size);
    out_.text(" size ").number(size).text("\n");
  }

  void yes_or_no(bool is_yes) { out_.text(is_yes ? "yes\n" : "no\n"); }

  void list(const List& cells) {
    for (Cell cell : cells) {
      By::token(out_, cell);
      out_.text("\n");
    }
    out_.text("end\n");
  }

  void count(const List& cells) {
    u64 leaves = 0;
    for (Cell cell : cells) leaves += lowest_bit(By::id(cell));
    out_.text("cells ").number(cells.size()).text(" leaves ").number(leaves).text("\n");
  }

  void changed(size_t taken, size_t put) { out_.text("ok ").number(taken).text(" ").number(put).text("\n"); }

  // How many cells both lists have, of which the first is no longer. One that is much shorter is looked for.
  static size_t count_shared(const List& few, const List& many) {
    size_t shared = 0;
    if (few.size() < many.size() / 16) {
      for (Cell cell : few) shared += std::binary_search(many.begin(), many.end(), cell);
      return shared;
    }
    for (size_t i = 0, j = 0; i < few.size() && j < many.size();) {
      bool is_same = few[i] == many[j], is_before = few[i] < many[j];
      shared += is_same;
      i += is_same | is_before;
      j += !is_before;
    }
    return shared;
  }

  // The register is now this union; the answer is how many cells only the one list has, and only the other.
  void replace(Word name, Union next) {
    const List &before = By::cells(at(name)), &after = By::cells(next);
    size_t shared = before.size() < after.size() ? count_shared(before, after) : count_shared(after, before);
    changed(before.size() - shared, after.size() - shared);
    at(name) = std::move(next);
  }

  Union loaded(Word name) {
    std::string path = folder_ + "/" + std::string(name);
    FILE* file = fopen(path.c_str(), "rb");
    u64 n = 0;
    if (!file || fgetc(file) != 1 || fread(&n, 8, 1, file) != 1) exit(1);
    ::List ids(n);
    if (fread(ids.data(), 8, n, file) != n) exit(1);
    fclose(file);
    List cells(n);
    for (size_t k = 0; k < n; k++) cells[k] = By::of(ids[k]);
    return By::normalised(std::move(cells));
  }

  // The outer covering of a rectangle, by S2's cells for both.
  static Union covering(const Word* words) {
    Bounds bounds{static_cast<uint8_t>(number_of(words[1])), static_cast<uint32_t>(number_of(words[2])),
                  static_cast<uint32_t>(number_of(words[3])), static_cast<uint32_t>(number_of(words[4])),
                  static_cast<uint32_t>(number_of(words[5]))};
    List cells;
    for (S2CellId cell : covering_by_descent(bounds, number_of(words[0]), true)) cells.push_back(By::of(cell.id()));
    return By::made(std::move(cells));
  }

  // The run of the list's cells in this one is left, or this one if a larger cell of the list has it.
  void keep(Union& all, Cell cell) {
    const List& cells = By::cells(all);
    size_t from = place_of(cells, cell), to = end_of(cells, from, cell);
    List kept(cells.begin() + from, cells.begin() + to);
    bool is_held = kept.empty() && from < cells.size() && By::has(cells[from], cell);
    if (is_held) kept.push_back(cell);
    changed(cells.size() - (to - from), is_held);
    all = By::made(std::move(kept));
  }

  // Several cells are answered as one edit; a plain loop may count a cell twice there, so scripts name one.
  void each(const Word* words, size_t n, void (Loop::*edit)(List&, Cell)) {
    List cells = By::taken(at(words[1]));
    for (size_t k = 2; k < n; k++) (this->*edit)(cells, By::named(words[k]));
    at(words[1]) = By::made(std::move(cells));
  }

  // The first place whose cell ends at or after the beginning of this one.
  static size_t place_of(const List& cells, Cell cell) {
    Cell from = By::first(cell);
    return std::lower_bound(cells.begin(), cells.end(), from, [](Cell x, Cell y) { return By::last(x) < y; }) -
           cells.begin();
  }

  // The end of the cells from a place on that lie in this one.
  static size_t end_of(const List& cells, size_t from, Cell cell) {
    while (from < cells.size() && By::has(cell, cells[from])) from++;
    return from;
  }

  void put(List& cells, size_t from, size_t to, const Cell* put, size_t n) {
    size_t same = std::min(to - from, n);
    std::copy(put, put + same, cells.begin() + from);
    if (same < n) {
      cells.insert(cells.begin() + from + same, put + same, put + n);
    } else {
      cells.erase(cells.begin() + from + same, cells.begin() + to);
    }
    changed(to - from, n);
  }

  static bool are_children(const List& cells, size_t at, Cell parent, int from, int to) {
    if (at + (to - from) > cells.size()) return false;
    for (int k = from; k < to; k++)
      if (cells[at + k - from] != By::child(parent, k)) return false;
    return true;
  }

  void add(List& cells, Cell cell) {
    size_t from = place_of(cells, cell);
    if (from < cells.size() && By::has(cells[from], cell)) return changed(0, 0);
    size_t to = end_of(cells, from, cell);
    while (!By::is_face(cell)) {
      Cell parent = By::parent(cell);
      size_t before = By::position(cell), after = 3 - before;
      if (from < before || !are_children(cells, from - before, parent, 0, before) ||
          !are_children(cells, to, parent, before + 1, 4))
        break;
      from -= before, to += after;
      cell = parent;
    }
    put(cells, from, to, &cell, 1);
  }

  void remove(List& cells, Cell cell) {
    size_t from = place_of(cells, cell);
    if (from == cells.size() || !By::has(cells[from], cell) || cells[from] == cell)
      return put(cells, from, end_of(cells, from, cell), nullptr, 0);
    Cell left[90];
    size_t n = 0;
    for (Cell around = cells[from]; around != cell;) {
      Cell next = around;
      for (int k = 0; k < 4; k++) {
        Cell child = By::child(around, k);
        if (By::has(child, cell)) {
          next = child;
        } else {
          left[n++] = child;
        }
      }
      around = next;
    }
    std::sort(left, left + n);
    put(cells, from, from + 1, left, n);
  }

  std::string folder_;
  std::array<Word, 2048> words_;
  std::array<Union, 26> registers_;
  Answers out_;
};

template <typename By>
static int answer(const char* folder) {
  static Loop<By> loop(folder);
  static char block[65536 + 4096];
  size_t kept = 0, got;
  while ((got = fread(block + kept, 1, 65536, stdin)) > 0) {
    Word text(block, kept + got);
    for (size_t end; (end = text.find('\n')) != Word::npos; text.remove_prefix(end + 1)) loop.line(text.substr(0, end));
    kept = text.size();
    memmove(block, text.data(), kept);
  }
  return 0;
}

int main(int argc, char** argv) {
  if (argc != 3) return 2;
  return strcmp(argv[1], "s2") == 0 ? answer<ByS2>(argv[2]) : answer<ByHand>(argv[2]);
}
