// Whole calls of the library for C, compared with S2.
#include "sides.h"
#include "table.h"

const size_t N = 1000000;

static u64 sum_of(const List& list) { return Sum().add_all(list).value(); }
static u64 sum_of(const S2CellUnion& cells) { return sum_of(ids_of(cells)); }

// S2 has no call for the last two, so its side makes them by its others.
static void sets(Table& table, const std::string& size, const List& xs, const List& ys) {
  S2CellUnion x = peer_union(xs), y = peer_union(ys), whole = S2CellUnion::WholeSphere(), peer_made;
  Room room(24 * xs.size());
  auto row = [&](const char* call, size_t units, auto peer, auto ours) {
    table.row({(call + size).c_str(), units, 0}, {[&] { peer_made = peer(); }, [&] { return sum_of(peer_made); }},
              {ours, [&] { return sum_of(room.made()); }});
  };
  auto pair = [&](const char* name, auto peer, SetCall call) {
    row(name, xs.size() + ys.size(), peer, [&] { put(call, xs, ys, room, name); });
  };
  pair("union", [&] { return x.Union(y); }, s2u_union);
  pair("intersection", [&] { return x.Intersection(y); }, s2u_intersection);
  pair("difference", [&] { return x.Difference(y); }, s2u_difference);
  pair("symmetric_difference", [&] { return x.Difference(y).Union(y.Difference(x)); }, s2u_symmetric_difference);
  row("complement", xs.size(), [&] { return whole.Difference(x); }, [&] {
    made(s2u_complement(xs.data(), xs.size(), room.at(), room.size(), room.len()), "complement");
  });
}

static void normalising(Table& table, const char* name, const List& cells) {
  std::vector<S2CellId> peer = peer_cells(cells), peer_made;
  List list;
  size_t len = 0;
  table.row({name, cells.size(), 0},
            {[&] {
               peer_made = peer;
               S2CellUnion::Normalize(&peer_made);
             },
             [&] { return sum_of(ids_of(peer_made)); }},
            {[&] {
               list = cells;
               made(s2u_normalise(list.data(), list.size(), &len), name);
             },
             [&] { return sum_of(List(list.begin(), list.begin() + len)); }});
}

// One call for each question, if they are a million, and one call for all of them.
static void questions(Table& table, const std::string& size, const List& xs, List asked) {
  S2CellUnion x = peer_union(xs);
  size_t bad = 0, n = asked.size();
  std::vector<S2CellId> cells = peer_cells(asked);
  std::vector<uint8_t> answers(n);
  u64 peer_yes = 0, yes = 0;
  using Asked = bool (S2CellUnion::*)(S2CellId) const;
  auto search = [&](Asked peer) {
    return [&, peer] {
      peer_yes = 0;
      for (S2CellId cell : cells) peer_yes += (x.*peer)(cell);
    };
  };
  auto row = [&](const char* name, auto theirs, auto ours, auto sum) {
    table.row({(name + size).c_str(), n, 0}, {theirs, [&] { return peer_yes; }}, {ours, sum});
  };
  auto each = [&](const char* name, Asked peer, CellCall call) {
    auto ask = [&, call] {
      yes = 0;
      for (u64 cell : asked) yes += static_cast<u64>(call(xs.data(), xs.size(), cell));
    };
    row(name, search(peer), ask, [&] { return yes; });
  };
  auto all = [&](const char* name, auto theirs, CellsCall call) {
    auto ask = [&] { made(call(xs.data(), xs.size(), asked.data(), n, answers.data(), n, &bad), name); };
    row(name, theirs, ask, [&] { return static_cast<u64>(std::count(answers.begin(), answers.end(), 1)); });
  };
  if (n <= N) {
    each("contains_cell", &S2CellUnion::Contains, s2u_contains_cell);
    each("intersects_cell", &S2CellUnion::Intersects, s2u_intersects_cell);
  }
  all("contains_cells", search(&S2CellUnion::Contains), s2u_contains_cells);
  all("intersects_cells", search(&S2CellUnion::Intersects), s2u_intersects_cells);
  std::sort(asked.begin(), asked.end());
  auto walk = [&] { peer_yes = peer_walk(x, asked); };
  all("contains_cells_in_order", walk, s2u_contains_cells);
}

// Many questions about a union as small as a covering, in any order.
static void small_union(Table& table, size_t count) {
  List x;
  for (size_t drawn = count; x.size() < count; drawn++)
    x = ids_of(S2CellUnion(peer_cells(Random(4).cells(drawn, 4, 8))));
  x.resize(count);
  questions(table, "_of_" + std::to_string(count), x, Random(9).cells(N, 8, 30));
}

// S2 has no call for these, so its side does the same one cell at a time.
static void ancestors(Table& table, const List& xs) {
  std::vector<S2CellId> cells = peer_cells(xs);
  List keys;
  Room room(32 * xs.size());
  auto collect = [&] {
    keys.clear();
    for (S2CellId cell : cells) {
      for (int level = cell.level(); level >= 0; level--) keys.push_back(cell.parent(level).id());
    }
    std::sort(keys.begin(), keys.end());
    keys.erase(std::unique(keys.begin(), keys.end()), keys.end());
  };
  table.row(
      {"ancestors", xs.size(), 0}, {collect, [&] { return sum_of(keys); }},
      {[&] { made(s2u_ancestors(xs.data(), xs.size(), room.at(), room.size(), room.len()), "ancestors"); },
       [&] { return sum_of(room.made()); }});
}

// S2's side is a loop here too.
static void entries(Table& table, const List& xs) {
  std::vector<S2CellId> cells = peer_cells(xs);
  List peer(xs.size()), out(xs.size());
  std::vector<uint8_t> levels(xs.size());
  size_t bad = 0, n = xs.size();
  auto of_peer = [&] { return sum_of(peer); };
  auto at_levels = [&] {
    for (size_t k = 0; k < n; k++) peer[k] = static_cast<u64>(cells[k].level());
  };
  auto at_parents = [&] {
    for (size_t k = 0; k < n; k++) peer[k] = cells[k].parent(12).id();
  };
  table.row({"levels", n, 0}, {at_levels, of_peer},
            {[&] { made(s2u_levels(xs.data(), n, levels.data(), n, &bad), "levels"); },
             [&] { return sum_of(List(levels.begin(), levels.end())); }});
  table.row({"parents", n, 0}, {at_parents, of_peer},
            {[&] { made(s2u_parents(xs.data(), n, 12, out.data(), n, &bad), "parents"); },
             [&] { return sum_of(out); }});
}

// S2 has no call for these either.
static void texts(Table& table, const List& xs) {
  std::vector<S2CellId> cells = peer_cells(xs), peer_back;
  std::string peer_text, text(S2U_MOST_TOKENS(xs.size()), ' ');
  List back(xs.size());
  size_t len = 0, count = 0;
  auto write = [&] {
    peer_text.clear();
    for (S2CellId cell : cells) peer_text += (peer_text.empty() ? "" : " ") + cell.ToToken();
  };
  auto read = [&] {
    peer_back.clear();
    for (size_t at = 0, end; at < peer_text.size(); at = end + 1) {
      end = std::min(peer_text.find(' ', at), peer_text.size());
      peer_back.push_back(S2CellId::FromToken({peer_text.data() + at, end - at}));
    }
  };
  table.row({"tokens", xs.size(), 0}, {write, [&] { return Sum().add_text(peer_text).value(); }},
            {[&] { made(s2u_tokens(xs.data(), xs.size(), &text[0], text.size(), &len), "tokens"); },
             [&] { return Sum().add_text(text.substr(0, len)).value(); }});
  if (peer_text.empty()) write();
  table.row({"from_tokens", xs.size(), 0}, {read, [&] { return sum_of(ids_of(peer_back)); }},
            {[&] {
               made(s2u_from_tokens(peer_text.data(), peer_text.size(), back.data(), back.size(), &count),
                    "from_tokens");
             },
             [&] { return sum_of(back); }});
}

// Two unions of that many random cells, and as many questions.
static List rows(Table& table, const std::string& size, size_t count) {
  List x = ids_of(S2CellUnion(peer_cells(Random(4).cells(count, 14, 20))));
  sets(table, size, x, ids_of(S2CellUnion(peer_cells(Random(5).cells(count, 14, 20)))));
  questions(table, size, x, Random(9).cells(count, 8, 30));
  return x;
}

int main(int argc, char** argv) {
  Table table(argc > 1 ? argv[1] : "", argc > 2 ? atoi(argv[2]) : 5);
  List x = rows(table, "", N);
  for (size_t count : {8, 1000, 100000, 1000000}) {
    List cells(x.begin(), x.begin() + std::min(count, x.size()));
    normalising(table, ("normalise_union_" + std::to_string(count)).c_str(), cells);
  }
  for (size_t count : {1, 8, 64, 100}) small_union(table, count);
  ancestors(table, x);
  entries(table, x);
  texts(table, x);
  if (table.wants("_10000000")) rows(table, "_10000000", 10 * N);
  return table.status();
}
