// Unions for C++ beside S2's own: bench/run cpp [WORD [ROUNDS]]. Each side is given two S2CellUnions, and makes one or
// answers. By 'theirs' it is the calls on S2CellUnions as they are; by 'lists' on their lists, which these check; by
// 'unions' those of CellUnionOf, where the lists were made unions before; by 'converted' both ways.
#include <s2union.hpp>

#include "sides.h"
#include "table.h"

using Ours = s2union::CellUnionOf<S2CellId>;

static u64 sum_of(const S2CellUnion& cells) { return Sum().add_all(ids_of(cells)).value(); }

class Pair {
 public:
  Pair(Table& table, const std::string& name, const S2CellUnion& x, const S2CellUnion& y)
      : table_(table), name_(name), x_(x), y_(y), a_(x), b_(y) {}

  template <class Peer, class Lists, class Unions>
  void operation(const char* call, Peer peer, Lists lists, Unions unions) {
    S2CellUnion theirs, made;
    Ours union_made;
    auto row = [&](const char* way, auto work) {
      const std::string name = std::string(call) + "_" + way + "_" + name_;
      Side peer_side{[&] { theirs = peer(x_, y_); }, [&] { return sum_of(theirs); }};
      table_.row({name.c_str(), x_.size() + y_.size(), 0}, peer_side, {work, [&] { return sum_of(made); }});
    };
    row("theirs", [&] { made = lists(x_, y_); });
    row("lists", [&] { made = S2CellUnion::FromNormalized(lists(x_.cell_ids(), y_.cell_ids())); });
    row("converted", [&] { made = S2CellUnion(unions(Ours(x_), Ours(y_))); });
    const std::string name = std::string(call) + "_unions_" + name_;
    table_.row({name.c_str(), x_.size() + y_.size(), 0},
               {[&] { theirs = peer(x_, y_); }, [&] { return sum_of(theirs); }},
               {[&] { union_made = unions(a_, b_); }, [&] { return sum_of(S2CellUnion(union_made)); }});
  }

  template <class Peer, class Lists, class Unions>
  void question(const char* call, Peer peer, Lists lists, Unions unions) {
    bool theirs = false, ours = false;
    auto row = [&](const char* way, auto work) {
      const std::string name = std::string(call) + "_" + way + "_" + name_;
      Side peer_side{[&] { theirs = peer(x_, y_); }, [&] { return Sum().add(theirs).value(); }};
      table_.row({name.c_str(), x_.size() + y_.size(), 0}, peer_side, {work, [&] { return Sum().add(ours).value(); }});
    };
    row("theirs", [&] { ours = lists(x_, y_); });
    row("lists", [&] { ours = lists(x_.cell_ids(), y_.cell_ids()); });
    row("unions", [&] { ours = unions(a_, b_); });
  }

  void rows() {
    operation("union", [](auto& x, auto& y) { return x.Union(y); },
              [](auto& x, auto& y) { return s2union::Union(x, y); }, [](auto&& x, auto&& y) { return x.Union(y); });
    operation("intersection", [](auto& x, auto& y) { return x.Intersection(y); },
              [](auto& x, auto& y) { return s2union::Intersection(x, y); },
              [](auto&& x, auto&& y) { return x.Intersection(y); });
    operation("difference", [](auto& x, auto& y) { return x.Difference(y); },
              [](auto& x, auto& y) { return s2union::Difference(x, y); },
              [](auto&& x, auto&& y) { return x.Difference(y); });
    question("contains", [](auto& x, auto& y) { return x.Contains(y); },
             [](auto& x, auto& y) { return s2union::Contains(x, y); }, [](auto& x, auto& y) { return x.Contains(y); });
    question("intersects", [](auto& x, auto& y) { return x.Intersects(y); },
             [](auto& x, auto& y) { return s2union::Intersects(x, y); },
             [](auto& x, auto& y) { return x.Intersects(y); });
  }

 private:
  Table& table_;
  std::string name_;
  const S2CellUnion &x_, &y_;
  const Ours a_, b_;
};

static S2CellUnion union_of(List cells) { return S2CellUnion(peer_cells(cells)); }

// S2's side of the complement is WholeSphere and a difference.
static void complement(Table& table, const std::string& name, const S2CellUnion& x) {
  const Ours ours(x);
  const S2CellUnion whole = S2CellUnion::WholeSphere();
  S2CellUnion theirs;
  Ours made;
  table.row({name.c_str(), x.size(), 0}, {[&] { theirs = whole.Difference(x); }, [&] { return sum_of(theirs); }},
            {[&] { made = ours.Complement(); }, [&] { return sum_of(S2CellUnion(made)); }});
}

int main(int argc, char** argv) {
  Table table(argc > 1 ? argv[1] : "", argc > 2 ? atoi(argv[2]) : 5);
  for (size_t size : {8, 100, 1000, 10000, 100000}) {
    const std::string count = std::to_string(size);
    List shared = Random(4).cells(size / 2, 14, 20), xs = Random(5).cells(size / 2, 14, 20), ys = xs;
    List others = Random(6).cells(size / 2, 14, 20), low(size), high(size);
    xs.insert(xs.end(), shared.begin(), shared.end());
    others.insert(others.end(), shared.begin(), shared.end());
    for (size_t k = 0; k < size; k++) low[k] = cell_at(20, 8 * k), high[k] = cell_at(20, (u64{3} << 40) + 8 * k);
    const S2CellUnion x = union_of(xs), y = union_of(others), whole = x.Union(y), a = union_of(low), b = union_of(high);
    Pair(table, "twins_" + count, x, y).rows();   // half of either is in both
    Pair(table, "whole_" + count, whole, y).rows();
    Pair(table, "apart_" + count, a, b).rows();   // the first cells decide
    complement(table, "complement_random_" + count, x);
    complement(table, "complement_even_" + count, a);
  }
  const S2CellUnion large = union_of(Random(4).cells(1000000, 14, 20));
  const S2CellUnion small({large.cell_id(large.num_cells() / 2).range_min(), S2CellId(cell_at(24, 12345))});
  Pair(table, "small_large", small, large).rows();
  Pair(table, "large_small", large, small).rows();
  return table.status();
}
