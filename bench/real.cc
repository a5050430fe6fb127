// Coverings of real coastlines: S2, the calls for C and hand-written C++ on the same lists, in one process.
// bench/README.md has the rows.
#include <absl/flags/flag.h>
#include <s2union.h>

#include <cstdint>

#include "lanes.h"
#include "limit.h"
#include "sides.h"

using Lists = std::vector<List>;

static List normalised(const List& list) { return ids_of(S2CellUnion(peer_cells(list))); }

static Lists read_lists(const std::string& name) {
  std::string path = "out/coasts/" + name;
  FILE* file = fopen(path.c_str(), "rb");
  must(file != nullptr, path.c_str());
  u64 count = 0, len = 0;
  must(fread(&count, 8, 1, file) == 1, path.c_str());
  Lists lists(count);
  for (List& list : lists) {
    must(fread(&len, 8, 1, file) == 1, path.c_str());
    list.resize(len);
    must(len == 0 || fread(list.data(), 8, len, file) == len, path.c_str());
  }
  fclose(file);
  return lists;
}

static Lists read_unions(const std::string& name) {
  Lists lists = read_lists(name);
  for (List& list : lists) list = normalised(list);
  return lists;
}

// All lists one after another, and where each begins; the last offset is the end.
struct Chain {
  List ids;
  std::vector<size_t> offsets = {0};

  explicit Chain(const Lists& lists) {
    for (const List& list : lists) {
      ids.insert(ids.end(), list.begin(), list.end());
      offsets.push_back(ids.size());
    }
  }
};

static u64 sum_of(const List& list) { return Sum().add_all(list).value(); }
static List union_of(const Lists& lists) { return normalised(Chain(lists).ids); }

// Pairs of unions, for each way.
struct Pairs {
  std::vector<std::pair<List, List>> lists;
  std::vector<std::pair<S2CellUnion, S2CellUnion>> peers;
  size_t cells = 0, most = 0;

  void add(const List& x, const List& y) {
    lists.push_back({x, y});
    peers.push_back({peer_union(x), peer_union(y)});
    cells += x.size() + y.size();
    most = std::max(most, x.size() + y.size());
  }

  // Each with the next.
  static Pairs next(const Lists& lists) {
    Pairs pairs;
    for (size_t k = 0; k + 1 < lists.size(); k += 2) pairs.add(lists[k], lists[k + 1]);
    return pairs;
  }

  static Pairs of(const Lists& xs, const Lists& ys) {
    Pairs pairs;
    for (size_t k = 0; k < xs.size() && k < ys.size(); k++) pairs.add(xs[k], ys[k]);
    return pairs;
  }

  static Pairs one(const List& x, const List& y) { return of({x}, {y}); }
};

using SetLimit = size_t (*)(const u64*, size_t, const u64*, size_t, u64*);

// S2's operations into a vector that is used again, where it has such a call or its own steps can be taken so.
static void peer_unite(const S2CellUnion& x, const S2CellUnion& y, PeerCells* out) {
  out->assign(x.begin(), x.end());
  out->insert(out->end(), y.begin(), y.end());
  S2CellUnion::Normalize(out);
}

static void peer_intersect(const S2CellUnion& x, const S2CellUnion& y, PeerCells* out) {
  S2CellUnion::GetIntersection(x.cell_ids(), y.cell_ids(), out);
}

static void peer_subtract(const S2CellUnion& x, const S2CellUnion& y, PeerCells* out) {
  *out = x.Difference(y).Release();
}

struct SetOperation {
  const char* name;
  void (*peer)(const S2CellUnion&, const S2CellUnion&, PeerCells*);
  SetCall call;
  SetLimit limit;
};

// A side whose work goes through all pairs: `work` does that of one pair, and `made` sums what it made.
template <typename Work, typename Made>
static Side pair_side(const Pairs& pairs, Work work, Made made) {
  return {[&pairs, work] {
            for (size_t k = 0; k < pairs.lists.size(); k++) work(k);
          },
          [&pairs, work, made] {
            Sum sum;
            for (size_t k = 0; k < pairs.lists.size(); k++) {
              work(k);
              sum.add(made());
            }
            return sum.value();
          }};
}

static void sets(Lanes& lanes, const std::string& of, const Pairs& pairs, size_t units) {
  const SetOperation operations[] = {
      {"union", peer_unite, s2u_union, limit::unite},
      {"intersection", peer_intersect, s2u_intersection, limit::intersect},
      {"difference", peer_subtract, s2u_difference, limit::subtract}};
  Room room(2 * pairs.most + 200);
  PeerCells peer;
  auto sum_of_peer = [&] { return sum_of(ids_of(peer)); };
  auto sum_of_room = [&] { return sum_of(room.made()); };
  for (const SetOperation& it : operations) {
    auto theirs = [&](size_t k) {
      auto& [x, y] = pairs.peers[k];
      it.peer(x, y, &peer);
    };
    auto call = [&](size_t k) {
      auto& [x, y] = pairs.lists[k];
      put(it.call, x, y, room, it.name);
    };
    auto limit = [&](size_t k) {
      auto& [x, y] = pairs.lists[k];
      *room.len() = it.limit(x.data(), x.size(), y.data(), y.size(), room.at());
    };
    std::string name = std::string(it.name) + "_" + of;
    lanes.row({name.c_str(), units > 0 ? units : pairs.cells, 0},
              {pair_side(pairs, theirs, sum_of_peer), pair_side(pairs, call, sum_of_room),
               pair_side(pairs, limit, sum_of_room)});
  }
}

using PairLimit = bool (*)(const u64*, size_t, const u64*, size_t);

struct PairQuestion {
  const char* name;
  bool (S2CellUnion::*peer)(const S2CellUnion&) const;
  PairCall call;
  PairLimit limit;
};

static void pair_questions(Lanes& lanes, const std::string& of, const Pairs& pairs) {
  const PairQuestion questions[] = {
      {"contains", &S2CellUnion::Contains, s2u_contains, limit::has_all},
      {"intersects", &S2CellUnion::Intersects, s2u_intersects, limit::meets}};
  bool answer = false;
  auto sum = [&] { return u64{answer}; };
  for (const PairQuestion& it : questions) {
    auto theirs = [&](size_t k) {
      auto& [x, y] = pairs.peers[k];
      answer = (x.*it.peer)(y);
    };
    auto call = [&](size_t k) {
      auto& [x, y] = pairs.lists[k];
      answer = is_so(it.call, x, y);
    };
    auto limit = [&](size_t k) {
      auto& [x, y] = pairs.lists[k];
      answer = it.limit(x.data(), x.size(), y.data(), y.size());
    };
    std::string name = std::string(it.name) + "_" + of;
    lanes.row({name.c_str(), pairs.lists.size(), 0},
              {pair_side(pairs, theirs, sum), pair_side(pairs, call, sum), pair_side(pairs, limit, sum)});
  }
}

static void both(Lanes& lanes, const std::string& of, const Pairs& pairs, size_t units = 0) {
  sets(lanes, of, pairs, units);
  pair_questions(lanes, of, pairs);
}

// A row whose work makes one list. Each way writes to its own room, S2 to a vector that is used again; what S2 makes is
// turned into numbers when it is summed, which isn't timed.
struct ListWays {
  std::function<void(PeerCells&)> peer;
  std::function<void(Room&)> call, limit;
};

static void list_row(Lanes& lanes, const std::string& name, size_t units, size_t most, const ListWays& ways) {
  PeerCells peer;
  Room room(most), best(most);
  lanes.row({name.c_str(), units, 0},
            {Side{[&] { ways.peer(peer); }, [&] { return sum_of(ids_of(peer)); }},
             Side{[&] { ways.call(room); }, [&] { return sum_of(room.made()); }},
             Side{[&] { ways.limit(best); }, [&] { return sum_of(best.made()); }}},
            [&] { return units > 0 ? units : *room.len(); });
}

static void normalising(Lanes& lanes, const std::string& of, const List& cells) {
  PeerCells peer = peer_cells(cells);
  List spare(cells.size());
  bool sorted = std::is_sorted(cells.begin(), cells.end());
  list_row(lanes, "normalise_" + of, cells.size(), cells.size(),
           {[&](PeerCells& out) {
              out = peer;
              S2CellUnion::Normalize(&out);
            },
            [&](Room& room) {
              memcpy(room.at(), cells.data(), 8 * cells.size());
              made(s2u_normalise(room.at(), cells.size(), room.len()), "normalise");
            },
            [&](Room& room) {
              memcpy(room.at(), cells.data(), 8 * cells.size());
              if (!sorted) limit::sort(room.at(), cells.size(), spare.data());
              *room.len() = limit::normalise(room.at(), cells.size());
            }});
}

static void union_of_many(Lanes& lanes, const std::string& of, const Lists& lists) {
  Chain chain(lists);
  PeerCells peer = peer_cells(chain.ids);
  size_t n = chain.ids.size();
  List spare(n), work(2 * n);
  list_row(lanes, "union_of_many_" + of, n, n,
           {[&](PeerCells& out) {
              out = peer;
              S2CellUnion::Normalize(&out);
            },
            [&](Room& room) {
              made(s2u_union_of_many(chain.ids.data(), n, chain.offsets.data() + 1, lists.size(), work.data(),
                                     work.size(), room.at(), room.size(), room.len()),
                   "union_of_many");
            },
            [&](Room& room) {
              memcpy(room.at(), chain.ids.data(), 8 * n);
              *room.len() = limit::unite_all(room.at(), chain.offsets, spare.data());
            }});
}

static void denormalising(Lanes& lanes, const std::string& of, const List& list, int level, int step) {
  S2CellUnion peer = peer_union(list);
  u64 most = 0;
  made(s2u_denormalised_len(list.data(), list.size(), level, step, &most), "denormalised_len");
  list_row(lanes, "denormalise_" + of, most, most,
           {[&](PeerCells& out) { peer.Denormalize(level, step, &out); },
            [&](Room& room) {
              made(s2u_denormalised(list.data(), list.size(), level, step, room.at(), room.size(), room.len()),
                   "denormalised");
            },
            [&](Room& room) { *room.len() = limit::denormalise(list.data(), list.size(), level, step, room.at()); }});
}

static void outer_of(Lanes& lanes, const std::string& of, const List& list, int level) {
  PeerCells peer = peer_cells(list);
  list_row(lanes, "outer_of_" + of, list.size(), list.size(),
           {[&](PeerCells& out) {
              out.clear();
              for (S2CellId cell : peer) {
                S2CellId part = cell.level() > level ? cell.parent(level) : cell;
                if (out.empty() || out.back() != part) out.push_back(part);
              }
              S2CellUnion::Normalize(&out);
            },
            [&](Room& room) {
              made(s2u_outer_of(list.data(), list.size(), level, list.size(), room.at(), room.size(), room.len()),
                   "outer_of");
            },
            [&](Room& room) { *room.len() = limit::outer(list.data(), list.size(), level, room.at()); }});
}

static void files(Lanes& lanes, const std::string& of, const List& list) {
  S2CellUnion peer = peer_union(list), peer_back;
  size_t n = list.size(), size = 0;
  Encoder encoder;
  std::vector<uint8_t> bytes(S2U_FILE_SIZE(n)), best(bytes.size());
  auto sum = [&](const std::vector<uint8_t>& file) { return Sum().add_all(file).value(); };
  std::string name = "encode_" + of;
  lanes.row({name.c_str(), n, 0},
            {Side{[&] {
                    encoder.clear();
                    peer.Encode(&encoder);
                  },
                  [&] { return sum({encoder.base(), encoder.base() + encoder.length()}); }},
             Side{[&] { made(s2u_encode(list.data(), n, bytes.data(), bytes.size(), &size), "encode"); },
                  [&] { return sum(bytes); }},
             Side{[&] { limit::encode(list.data(), n, best.data()); }, [&] { return sum(best); }}});
  limit::encode(list.data(), n, bytes.data());
  list_row(lanes, "decode_" + of, n, n,
           {[&](PeerCells& out) {
              peer_decode(bytes, &peer_back);
              out = peer_back.Release();
            },
            [&](Room& room) { made(s2u_decode(bytes.data(), bytes.size(), room.at(), n, room.len()), "decode"); },
            [&](Room& room) { *room.len() = limit::decode(bytes.data(), bytes.size(), room.at()); }});
}

static void is_union(Lanes& lanes, const std::string& of, const List& list) {
  S2CellUnion peer = peer_union(list);
  u64 answers[WAYS];
  std::string name = "is_union_" + of;
  auto side = [&](Way way, auto ask) {
    return Side{[&, way, ask] { answers[way] = ask(); }, [&, way] { return answers[way]; }};
  };
  lanes.row({name.c_str(), list.size(), 0},
            {side(PEER, [&] { return u64{peer.IsNormalized()}; }),
             side(CALL, [&] { return u64{s2u_is_union(list.data(), list.size()) == 1}; }),
             side(LIMIT, [&] { return u64{limit::is_union(list.data(), list.size())}; })});
}

static void cell_questions(Lanes& lanes, const std::string& of, const List& list) {
  const size_t N = 1000000;
  S2CellUnion peer = peer_union(list);
  List asked = Random(9).cells(N, 8, 30);
  std::vector<uint8_t> answers(N);
  u64 held[WAYS];
  auto side = [&](Way way, auto ask) {
    return Side{[&, way, ask] { held[way] = ask(); }, [&, way] { return held[way]; }};
  };
  auto row = [&](const std::string& name, auto theirs, auto call, auto limit) {
    lanes.row({name.c_str(), N, 0}, {side(PEER, theirs), side(CALL, call), side(LIMIT, limit)});
  };
  auto each = [&] {
    u64 count = 0;
    for (u64 cell : asked) count += peer.Contains(S2CellId(cell));
    return count;
  };
  auto one_by_one = [&] {
    u64 count = 0;
    for (u64 cell : asked) count += s2u_contains_cell(list.data(), list.size(), cell) == 1;
    return count;
  };
  auto all = [&] {
    size_t bad;
    made(s2u_contains_cells(list.data(), list.size(), asked.data(), N, answers.data(), N, &bad), "contains_cells");
    return static_cast<u64>(std::count(answers.begin(), answers.end(), 1));
  };
  auto searched = [&] { return limit::count_held(list.data(), list.size(), asked); };
  row("contains_cell_" + of, each, one_by_one, searched);
  row("contains_cells_" + of, each, all, searched);
  std::sort(asked.begin(), asked.end());
  auto walked = [&] { return limit::count_held_in_order(list.data(), list.size(), asked); };
  row("contains_cells_in_order_" + of, [&] { return peer_walk(peer, asked); }, all, walked);
}

// A question to one of many unions.
struct Asked {
  size_t list;
  u64 cell;
};

// Where the cells lie that are asked for: on the whole sphere, between the first and the last leaf of the union that is
// asked, or in one of its cells.
enum Where { ANYWHERE, BETWEEN, INSIDE };

static std::vector<Asked> questions_to(const Lists& lists, Where where) {
  Random random(9);
  std::vector<Asked> asked(400000);
  for (Asked& it : asked) {
    it.list = random.below(lists.size());
    const List& list = lists[it.list];
    size_t first = 0, last = list.size() - 1;
    if (where == INSIDE) first = last = random.below(list.size());
    u64 low = limit::least(list[first]), leaves = (limit::most(list[last]) - low) / 2 + 1;
    u64 leaf = where == ANYWHERE ? random.leaf() : low + 2 * random.below(leaves);
    it.cell = parent_of(leaf, 20 + static_cast<int>(random.below(11)));
  }
  return asked;
}

static void questions_to_many(Lanes& lanes, const std::string& of, const Lists& lists) {
  std::vector<S2CellUnion> peers;
  for (const List& list : lists) peers.push_back(peer_union(list));
  const std::pair<const char*, Where> places[] = {{"anywhere", ANYWHERE}, {"between", BETWEEN}, {"inside", INSIDE}};
  for (auto [place, where] : places) {
    std::vector<Asked> asked = questions_to(lists, where);
    u64 held[WAYS];
    auto side = [&](Way way, auto ask) {
      auto all = [&, way, ask] {
        held[way] = 0;
        for (const Asked& it : asked) held[way] += ask(it);
      };
      return Side{all, [&, way] { return held[way]; }};
    };
    std::string name = "contains_cell_of_" + of + "_" + place;
    auto theirs = [&](const Asked& it) { return peers[it.list].Contains(S2CellId(it.cell)); };
    auto call = [&](const Asked& it) {
      const List& list = lists[it.list];
      return s2u_contains_cell(list.data(), list.size(), it.cell) == 1;
    };
    lanes.row({name.c_str(), asked.size(), 0}, {side(PEER, theirs), side(CALL, call), Side{}});
  }
}

static Lists often(const Lists& lists, size_t times) {
  Lists all;
  while (times-- > 0) all.insert(all.end(), lists.begin(), lists.end());
  return all;
}

static List shuffled(List list) {
  Random(5).shuffle(list);
  return list;
}

// Eight times ten cells of a list, one of each tenth.
static Lists tens(const List& list) {
  Lists lists(8);
  for (size_t k = 0; k < 80; k++) lists[k % 8].push_back(list[k * list.size() / 80]);
  return lists;
}

static void one_list(Lanes& lanes, const std::string& of, const List& list) {
  is_union(lanes, of, list);
  files(lanes, of, list);
  denormalising(lanes, of + "_level_9_2nd", list, 9, 2);
  outer_of(lanes, of + "_level_10", list, 10);
  outer_of(lanes, of + "_level_14", list, 14);
  cell_questions(lanes, of, list);
}

int main(int argc, char** argv) {
  absl::SetFlag(&FLAGS_s2cell_union_decode_max_num_cells, INT32_MAX);
  Lanes lanes(argc > 1 ? argv[1] : "", argc > 2 ? atoi(argv[2]) : 5);
  for (const char* cells : {"8", "100", "1000", "10000"}) {
    Lists land = read_unions(std::string("land_") + cells), twin = read_unions(std::string("twin_") + cells);
    both(lanes, std::string("neighbors_") + cells, Pairs::next(land));
    both(lanes, std::string("twins_") + cells, Pairs::of(land, twin));
    union_of_many(lanes, std::string("land_") + cells, land);
    questions_to_many(lanes, std::string("200_of_") + cells, land);
    if (std::string(cells) == "100") questions_to_many(lanes, "10000_of_100", often(land, 50));
  }
  Lists land = read_unions("land_10000");
  List all = union_of(land), turned = union_of(read_lists("twin_10000")), level = Chain(read_lists("level_10")).ids;
  std::sort(level.begin(), level.end());
  both(lanes, "land_and_lakes", Pairs::one(all, union_of(read_lists("lakes_1000"))));
  both(lanes, "land_and_twin", Pairs::one(all, turned));
  both(lanes, "covering_and_inner", Pairs::of(land, read_unions("inner_10000")));
  both(lanes, "ten_cells_and_land", Pairs::of(tens(all), Lists(8, all)), 8);
  both(lanes, "land_and_ten_cells", Pairs::of(Lists(8, all), tens(turned)), 8);
  normalising(lanes, "level_10_in_order", level);
  normalising(lanes, "level_10_shuffled", shuffled(level));
  normalising(lanes, "land_10000_shuffled", shuffled(Chain(land).ids));
  one_list(lanes, "land", all);
  one_list(lanes, "Eurasia", land[0]);
  return lanes.status();
}
