// Prints a script for the calculator: script KIND LINES [CELLS]. bench/README.md has the kinds. With a number of cells
// it begins by loading union files of that size, which `script cells CELLS SEED`, `script half CELLS` and `script large
// CELLS` print: random cells of levels 14 to 20, half of these and half of others, and leaves far from each other. With
// 0 lines a script is this beginning.
#include <algorithm>
#include <cstdio>
#include <cstdlib>
#include <memory>

#include "workload.h"

static std::string token(u64 id) {
  char digits[17];
  snprintf(digits, sizeof digits, "%016llx", static_cast<unsigned long long>(id));
  std::string text(digits);
  return text.substr(0, text.find_last_not_of('0') + 1);
}

static void line(const char* command, u64 id) { printf("%s %s\n", command, token(id).c_str()); }

static u64 spread_leaf(u64 k) { return 2 * ((k << 40) + (1ull << 38) + 77) + 1; }

static void write_number(u64 number) {
  for (int k = 0; k < 8; k++) putchar(number >> 8 * k & 255);
}

static void write_file(const List& cells) {
  putchar(1);
  write_number(cells.size());
  for (u64 cell : cells) write_number(cell);
}

static List spread_leaves(size_t n) {
  List cells(n);
  for (size_t k = 0; k < n; k++) cells[k] = spread_leaf(k);
  return cells;
}

// Register a has the large union, b ten of its leaves and a leaf that it lacks, c the ten alone.
static void begin_with_large() {
  puts("load a large");
  for (u64 k = 0; k < 10; k++) {
    line("add b", spread_leaf(99991 * k));
    line("add c", spread_leaf(99991 * k));
  }
  line("add b", spread_leaf(7) + 2);
}

static bool large_line(const std::string& kind, long k) {
  if (kind == "large_covers") puts("covers a c");
  else if (kind == "large_meets") puts("meets a b");
  else if (kind == "large_undo") puts(k == 0 ? "subtract a c" : k % 2 == 1 ? "undo" : "redo");
  else if (kind == "large_outerof") puts("outerof d a 30 0 1 1073741822 1 1073741822");
  else return false;
  return true;
}

// Lines about cells alone, or about a register that they fill.
static bool cell_line(const std::string& kind, Random& random) {
  if (kind == "cell") line("cell", random.cell(0, 30));
  else if (kind == "square") line("square", random.cell(0, 30));
  else if (kind == "add") line("add a", random.cell(5, 7));
  else if (kind == "at") {
    u64 face = random.below(6), i = random.coordinate(), j = random.coordinate();
    printf("at %d %u %u\n", static_cast<int>(face), static_cast<unsigned>(i), static_cast<unsigned>(j));
  } else if (kind == "range") {
    u64 x = random.leaf(), y = random.leaf();
    printf("range b %s %s\n", token(std::min(x, y)).c_str(), token(std::max(x, y)).c_str());
  } else if (kind == "outer") {
    u64 face = random.below(6), i = random.below(1073700000), j = random.below(1073700000);
    printf("outer b 18 %d %llu %llu %llu %llu\n", static_cast<int>(face), static_cast<unsigned long long>(i),
           static_cast<unsigned long long>(i + random.below(40000)), static_cast<unsigned long long>(j),
           static_cast<unsigned long long>(j + random.below(40000)));
  } else {
    return false;
  }
  return true;
}

// Of the random cells of the seeds 4 and 5, one or the other at each place, as a coin of seed 6 falls.
static List half_shared(size_t count) {
  List xs = Random(4).cells(count, 14, 20), ys = Random(5).cells(count, 14, 20);
  Random coin(6);
  for (size_t k = 0; k < std::min(xs.size(), ys.size()); k++)
    if (coin.below(2) == 1) xs[k] = ys[k];
  std::sort(xs.begin(), xs.end());
  return xs;
}

// Lines about registers a and c, each of that number of random cells; b is written. In lines whose kind begins with
// half_ about half of the cells of c are those of a.
class Loaded {
 public:
  Loaded(const std::string& kind, size_t cells) : kind_(kind), cells_(Random(4).cells(cells, 14, 20)), random_(9) {
    bool is_half = kind.rfind("half_", 0) == 0;
    if (is_half) kind_ = kind.substr(5);
    std::string size = std::to_string(cells);
    printf("load a first_%s\nload c %s_%s\n", size.c_str(), is_half ? "half" : "second", size.c_str());
    if (kind_ == "within") {
      puts("copy b a");
      line("remove b", leaf_inside());
    }
  }

  bool line_of(long k) {
    bool is_first = k % 2 == 0;
    if (kind_ == "has") line("has a", random_.cell(8, 30));
    else if (kind_ == "touches") line("touches a", random_.cell(8, 30));
    else if (kind_ == "apart") edit(is_first ? "add a" : "remove a", is_first, random_.leaf());
    else if (kind_ == "inside") edit(is_first ? "remove a" : "add a", is_first, leaf_inside());
    else if (kind_ == "keep") is_first ? void(puts("copy b a")) : line("keep b", random_.cell(3, 3));
    else if (kind_ == "copy") puts(is_first ? "copy b a" : "copy b c");
    else if (kind_ == "union" || kind_ == "intersect" || kind_ == "subtract")
      puts(is_first ? "copy b a" : (kind_ + " b c").c_str());
    else if (kind_ == "covers") puts("covers a c");
    else if (kind_ == "within") puts("covers a b");
    else if (kind_ == "meets") puts("meets a c");
    else if (kind_ == "show") puts("show a");
    else if (kind_ == "denorm") puts("denorm a 16 2");
    else if (kind_ == "count") puts("count a");
    else if (kind_ == "outerof") puts(is_first ? "outerof b a 12" : "outerof b c 12");
    else return false;
    return true;
  }

 private:
  u64 leaf_inside() {
    u64 cell = cells_[random_.below(cells_.size())];
    return cell - lowest_bit(cell) + 1;
  }

  void edit(const char* command, bool is_first, u64 leaf) {
    if (is_first) leaf_ = leaf;
    line(command, leaf_);
  }

  std::string kind_;
  List cells_;
  Random random_;
  u64 leaf_ = 0;
};

static bool print(const std::string& kind, long lines, size_t cells) {
  Random random(21);
  std::unique_ptr<Loaded> loaded;
  if (cells > 0) {
    loaded = std::make_unique<Loaded>(kind, cells);
  } else if (kind.rfind("large_", 0) == 0) {
    begin_with_large();
  }
  for (long k = 0; k < lines; k++)
    if (loaded ? !loaded->line_of(k) : !large_line(kind, k) && !cell_line(kind, random)) return false;
  return true;
}

int main(int argc, char** argv) {
  if (argc < 3) return 2;
  std::string kind = argv[1];
  long count = atol(argv[2]), more = argc > 3 ? atol(argv[3]) : 0;
  if (kind == "large") {
    write_file(spread_leaves(count));
  } else if (kind == "cells") {
    write_file(Random(more).cells(count, 14, 20));
  } else if (kind == "half") {
    write_file(half_shared(count));
  } else if (!print(kind, count, more)) {
    return 2;
  }
  return 0;
}
